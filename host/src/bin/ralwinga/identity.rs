//! Which names are the same file, before anything is read or written.

use crate::output::{folder_of, followed, made_in};
use crate::stop::{is_standard_input, shown, Stop};
use std::collections::HashMap;
use std::ffi::OsStr;
use std::fs::{self, File, Metadata};
use std::os::fd::AsFd;
use std::os::unix::fs::MetadataExt;
use std::path::{Path, PathBuf};

/// A place on a file system.
type Node = (u64, u64);

fn node(there: &Metadata) -> Node {
    (there.dev(), there.ino())
}

/// What a name stands for.
#[derive(Clone, Debug, PartialEq, Eq, Hash)]
enum Identity {
    File(Node),
    /// A name that is not there yet: its folder, or the nearest above it that is there, and the rest of the name.
    New(Node, PathBuf),
    /// What cannot be overwritten, as a device or a pipe, or found.
    Other,
}

impl Identity {
    fn of(file: &Path) -> Identity {
        if is_standard_input(file) {
            return Identity::of_open(std::io::stdin());
        }
        match fs::metadata(file) {
            Ok(there) => Identity::of_metadata(&there),
            Err(_) => followed(file).map_or(Identity::Other, |file| Identity::of_new(&file)),
        }
    }

    fn of_metadata(there: &Metadata) -> Identity {
        match there.is_file() {
            true => Identity::File(node(there)),
            false => Identity::Other,
        }
    }

    /// A file that the shell has opened.
    fn of_open(open: impl AsFd) -> Identity {
        let file = open.as_fd().try_clone_to_owned().map(File::from);
        let there = file.and_then(|file| file.metadata());
        there.map_or(Identity::Other, |there| Identity::of_metadata(&there))
    }

    /// With the letters of a name that is not there made small.
    fn small(&self) -> Identity {
        match self {
            Identity::New(folder, name) => {
                let name = name.to_string_lossy().to_lowercase();
                Identity::New(*folder, name.into())
            }
            other => other.clone(),
        }
    }

    fn of_new(file: &Path) -> Identity {
        let Some(name) = file.file_name() else {
            return Identity::Other;
        };
        match existing_above(file, name) {
            Some((folder, rest)) => Identity::New(node(&folder), rest),
            None => Identity::Other,
        }
    }
}

/// The nearest folder above a name that is there, and the name from it on.
fn existing_above(file: &Path, name: &OsStr) -> Option<(Metadata, PathBuf)> {
    let mut rest = PathBuf::from(name);
    let mut folder = folder_of(file);
    loop {
        if let Ok(there) = fs::metadata(folder) {
            return Some((there, rest));
        }
        rest = Path::new(folder.file_name()?).join(rest);
        folder = folder_of(folder);
    }
}

/// A file that is written, and what it is called in a message.
struct Output {
    said: String,
    path: PathBuf,
    identity: Identity,
}

impl Output {
    fn of((word, path): &(&str, &Path)) -> Output {
        Output {
            said: format!("{word}{}", path.display()),
            path: path.to_path_buf(),
            identity: Identity::of(path),
        }
    }

    fn standard() -> Output {
        Output {
            said: "standard output".to_string(),
            path: PathBuf::new(),
            identity: Identity::of_open(std::io::stdout()),
        }
    }

    /// Of two whose names are the same but for the case of letters.
    fn meets(&self, other: &Output) -> bool {
        match (&self.identity, &other.identity) {
            (Identity::New(_, name), Identity::New(_, other)) => {
                name == other || folded(&self.path, name, other)
            }
            _ => true,
        }
    }
}

/// Bad arguments where an output is an input, or another output, standard output being one of them. An output is a word and a name.
pub fn check(inputs: &[&Path], outputs: &[(&str, &Path)]) -> Result<(), Stop> {
    let identified = inputs.iter().map(|file| (Identity::of(file), *file));
    let read: HashMap<Identity, &Path> = identified.collect();
    let mut written: HashMap<Identity, Vec<Output>> = HashMap::new();
    let standard = std::iter::once(Output::standard());
    for output in standard.chain(outputs.iter().map(Output::of)) {
        if output.identity == Identity::Other {
            continue;
        }
        if let Some(input) = read.get(&output.identity) {
            let (said, input) = (output.said, shown(input));
            return Err(Stop::words(format!(
                "{said} is the input {input}, which would be written over"
            )));
        }
        let alike = written.entry(output.identity.small()).or_default();
        if let Some(other) = alike.iter().find(|other| output.meets(other)) {
            let (other, said) = (&other.said, &output.said);
            return Err(Stop::words(format!("{other} and {said} are one file")));
        }
        alike.push(output);
    }
    Ok(())
}

/// Whether the file system takes two names that differ in the case of letters for one. It is asked, in a folder of its own beside the file.
fn folded(file: &Path, name: &Path, other: &Path) -> bool {
    let Some(above) = file.ancestors().skip(1).map(or_here).find(|f| f.is_dir()) else {
        return false;
    };
    let Ok((tried, ())) = made_in(above, |path| fs::create_dir(path)) else {
        return false;
    };
    let flat = |name: &Path| name.to_string_lossy().replace('/', "-");
    let meet = File::create_new(tried.join(flat(name))).is_ok()
        && File::create_new(tried.join(flat(other))).is_err();
    let _ = fs::remove_dir_all(&tried);
    meet
}

fn or_here(folder: &Path) -> &Path {
    match folder.as_os_str().is_empty() {
        true => Path::new("."),
        false => folder,
    }
}
