//! What keeps an answer back, and what is said of it.

use crate::standard;
use ralwinga::text::Fault;
use ralwinga::Refusal;
use std::fmt;
use std::io::{self, ErrorKind, Write};
use std::path::Path;
use std::sync::atomic::{AtomicBool, Ordering};

pub enum Stop {
    /// Words that contradict each other.
    Words(String),
    Unread {
        file: String,
        error: io::Error,
    },
    Unwritten {
        file: String,
        error: io::Error,
    },
    /// By the library's number; `said` has the place or the advice.
    Refused {
        file: String,
        refusal: Refusal,
        said: String,
    },
    /// Something else that the system did not give.
    System(String),
}

impl Stop {
    pub fn words(said: impl Into<String>) -> Stop {
        Stop::Words(said.into())
    }

    pub fn unread(file: &Path, error: io::Error) -> Stop {
        let file = shown(file);
        Stop::Unread { file, error }
    }

    pub fn unwritten(file: &Path, error: io::Error) -> Stop {
        let file = file.display().to_string();
        Stop::Unwritten { file, error }
    }

    pub fn refused(file: &Path, fault: impl Into<Fault>) -> Stop {
        let fault = fault.into();
        Stop::Refused {
            file: shown(file),
            refusal: fault.refusal,
            said: fault.to_string(),
        }
    }

    pub fn too_large(file: &Path, said: String) -> Stop {
        Stop::Refused {
            file: shown(file),
            refusal: Refusal::Scratch,
            said: format!("{said} ({})", Refusal::Scratch),
        }
    }

    pub fn refusal(&self) -> Option<Refusal> {
        match self {
            Stop::Refused { refusal, .. } => Some(*refusal),
            _ => None,
        }
    }

    pub fn status(&self) -> u8 {
        match self {
            Stop::Words(_) => 2,
            _ => 1,
        }
    }

    /// Why there is no plan, and what is said of it, as a page or a drawing says it.
    pub fn notice(&self) -> (String, String) {
        match self {
            Stop::Refused { refusal, said, .. } => {
                let why = format!("Refused, {}: {}", refusal.number(), refusal.meaning());
                (why, said.clone())
            }
            Stop::Unread { .. } => ("Not read".to_string(), self.to_string()),
            _ => ("Not planned".to_string(), self.to_string()),
        }
    }
}

impl fmt::Display for Stop {
    fn fmt(&self, f: &mut fmt::Formatter) -> fmt::Result {
        match self {
            Stop::Words(said) | Stop::System(said) => f.write_str(said),
            Stop::Unread { file, error } => write!(f, "cannot read {file}: {error}"),
            Stop::Unwritten { file, error } => write!(f, "cannot write {file}: {error}"),
            Stop::Refused { file, said, .. } => write!(f, "{file}: {said}"),
        }
    }
}

/// A file that is read, as a message names it.
pub fn shown(file: &Path) -> String {
    if is_standard_input(file) {
        "standard input".to_string()
    } else {
        file.display().to_string()
    }
}

pub fn is_standard_input(file: &Path) -> bool {
    file.as_os_str() == "-"
}

static QUIET: AtomicBool = AtomicBool::new(false);

/// From here on nothing is said but what went wrong.
pub fn be_quiet() {
    QUIET.store(true, Ordering::Relaxed);
}

pub fn is_quiet() -> bool {
    QUIET.load(Ordering::Relaxed)
}

/// A line on how things go.
pub fn note(line: impl fmt::Display) {
    if !is_quiet() {
        say(line);
    }
}

/// One line for standard error. Nobody is left to be told where that is closed.
pub fn say(line: impl fmt::Display) {
    let _ = writeln!(io::stderr(), "ralwinga: {line}");
}

/// Success where all succeeded; else the last failure, the others being said.
pub fn all_of(answers: impl IntoIterator<Item = Result<(), Stop>>) -> Result<(), Stop> {
    let mut stops: Vec<Stop> = answers.into_iter().filter_map(Result::err).collect();
    let last = stops.pop();
    stops.iter().for_each(say);
    last.map_or(Ok(()), Err)
}

/// Bytes for standard output. That its reader went away is no fault of the answer's; any other failure is told.
pub fn print(bytes: &[u8]) -> Result<(), Stop> {
    let unwritten = |error| Stop::unwritten(Path::new("standard output"), error);
    if standard::output_is_closed() {
        return Err(unwritten(io::Error::other("it is closed")));
    }
    let mut out = io::stdout().lock();
    match out.write_all(bytes).and_then(|()| out.flush()) {
        Err(error) if error.kind() != ErrorKind::BrokenPipe => Err(unwritten(error)),
        _ => Ok(()),
    }
}
