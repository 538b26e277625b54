//! The command and the proved program, and a folder for their files.

use std::ffi::OsStr;
use std::io::{Read, Write};
use std::path::{Path, PathBuf};
use std::process::{Command, Output, Stdio};

/// What a program makes of a text on its standard input.
pub fn run_on(mut program: Command, text: &[u8]) -> Output {
    let mut child = program
        .stdin(Stdio::piped())
        .stdout(Stdio::piped())
        .stderr(Stdio::piped())
        .spawn()
        .expect("the program starts");
    let mut stdin = child.stdin.take().expect("piped");
    // a program that has read enough may close its end
    let _ = stdin.write_all(text);
    drop(stdin);
    child.wait_with_output().expect("the program ends")
}

/// The exit status and the messages of a program whose output nobody reads.
pub fn run_unread(mut program: Command) -> (Option<i32>, String) {
    let mut child = program
        .stdout(Stdio::piped())
        .stderr(Stdio::piped())
        .spawn()
        .expect("the program starts");
    drop(child.stdout.take());
    let mut said = String::new();
    let mut stderr = child.stderr.take().expect("piped");
    stderr.read_to_string(&mut said).expect("text");
    (child.wait().expect("the program ends").code(), said)
}

/// The command with these words.
pub fn ralwinga<I: IntoIterator<Item = S>, S: AsRef<OsStr>>(words: I) -> Command {
    let mut command = Command::new(env!("CARGO_BIN_EXE_ralwinga"));
    command.args(words);
    command
}

/// What the command prints, exit status and messages for a text on its standard input.
pub fn answer_on(words: &[&str], text: &[u8]) -> Output {
    run_on(ralwinga(words), text)
}

/// What the command makes of a text on its standard input, where the system gives it so many KiB for all it has.
pub fn limited(words: &str, kib: u32, mut write: impl FnMut(&mut dyn Write)) -> Output {
    let line = format!("ulimit -v {kib}; exec \"$0\" {words}");
    let mut shell = Command::new("sh");
    shell.args(["-c", &line, env!("CARGO_BIN_EXE_ralwinga")]);
    shell
        .stdin(Stdio::piped())
        .stdout(Stdio::piped())
        .stderr(Stdio::piped());
    let mut child = shell.spawn().expect("a shell");
    let mut stdin = child.stdin.take().expect("piped");
    write(&mut stdin);
    drop(stdin);
    child.wait_with_output().expect("ends")
}

/// The proved program, which `rt run` in crates/plan builds.
pub fn proved_program() -> Command {
    let path = Path::new(env!("CARGO_MANIFEST_DIR")).join("../crates/plan/out/plan");
    assert!(
        path.exists(),
        "{} is missing: run `rt run` in the folder crates/plan first",
        path.display()
    );
    Command::new(path)
}

/// A folder that goes when the test ends.
pub struct Folder(PathBuf);

impl Folder {
    pub fn new(name: &str) -> Folder {
        let path = std::env::temp_dir().join(format!("ralwinga-{name}-{}", std::process::id()));
        std::fs::create_dir_all(&path).expect("a folder for the files");
        Folder(path)
    }

    pub fn path(&self, name: &str) -> PathBuf {
        self.0.join(name)
    }

    pub fn file(&self, name: &str, content: impl AsRef<[u8]>) -> PathBuf {
        let path = self.path(name);
        std::fs::create_dir_all(path.parent().expect("in the folder")).expect("made");
        std::fs::write(&path, content).expect("written");
        path
    }

    pub fn read(&self, name: &str) -> String {
        std::fs::read_to_string(self.path(name)).expect("a file of text")
    }
}

impl Drop for Folder {
    fn drop(&mut self) {
        let _ = std::fs::remove_dir_all(&self.0);
    }
}
