//! `./plan`: its statuses, its messages and the count of crates; and the command on outputs that are closed.

mod support;

use std::fs;
use std::os::unix::fs::PermissionsExt;
use std::path::{Path, PathBuf};
use std::process::{Command, Output};
use support::{proved_program, run_on, Folder, C1};

fn repository() -> PathBuf {
    Path::new(env!("CARGO_MANIFEST_DIR")).join("..")
}

/// `./plan` over a planner that was proved before.
fn plan() -> Command {
    proved_program();
    Command::new(repository().join("plan"))
}

fn said(answer: &Output) -> String {
    String::from_utf8_lossy(&answer.stderr).to_string()
}

/// C1 with one thing put for another, and what is said of the number.
const REFUSED: [(&str, &str, &str); 4] = [
    (
        "8000",
        "eight",
        "refused, 1: the text is too long, or a line is not of the form",
    ),
    (
        "mot",
        "mob",
        "refused, 2: a name is unknown, repeated or missing",
    ),
    (
        "10,1,2",
        "10,3,2",
        "refused, 4: pmin is over pmax, or pmax times block is over 500 MW",
    ),
    (
        ",5000,2,2",
        ",5000,2,600",
        "refused, 8: the scratch is shorter than the case needs",
    ),
];

#[test]
fn statuses_of_the_script() {
    let folder = Folder::new("script");
    let case = folder.file("case.csv", C1);
    let answer = plan().arg(&case).output().expect("runs");
    assert_eq!(
        (answer.status.code(), said(&answer)),
        (Some(0), String::new())
    );
    assert_eq!(
        answer.stdout,
        run_on(proved_program(), C1.as_bytes()).stdout
    );
    for (from, to, meaning) in REFUSED {
        let mut text = C1.replacen(from, to, 1);
        if meaning.contains(" 8:") {
            text.push_str(&"9000\n".repeat(1000));
        }
        let expected = run_on(proved_program(), text.as_bytes()).stdout;
        let case = folder.file("refused.csv", &text);
        let answer = plan().arg(&case).output().expect("runs");
        assert_eq!((answer.status.code(), &answer.stdout), (Some(1), &expected));
        assert_eq!(
            said(&answer),
            format!("plan: {}: {meaning}\n", case.display())
        );
        let answer = run_on(plan(), text.as_bytes());
        assert_eq!(said(&answer), format!("plan: standard input: {meaning}\n"));
    }
}

/// What the shell makes of a line over `./plan` or over the command, with a file in the folder.
fn shell(folder: &Folder, program: &Path, line: &str) -> Output {
    let mut shell = Command::new("sh");
    shell
        .args(["-c", line])
        .arg(program)
        .current_dir(folder.path(""));
    shell.output().expect("a shell")
}

const CURVE: &str = "gas,om,gmc,adder\n550,280,50,2500\n\nlevel,rate\n70,14440\n150,11960\n";

#[test]
fn outputs_that_are_closed() {
    let folder = Folder::new("closed");
    folder.file("case.csv", C1);
    folder.file("curve.csv", CURVE);
    let command = Path::new(env!("CARGO_BIN_EXE_ralwinga"));
    for words in [
        "case.csv",
        "plan case.csv case.csv",
        "explain case.csv",
        "curve curve.csv",
        "completion bash",
        "--help",
        "--version",
    ] {
        let answer = shell(&folder, command, &format!("\"$0\" {words} >&-"));
        assert_eq!(answer.status.code(), Some(1), "{words}");
        let said = said(&answer);
        assert!(said.contains("ralwinga: cannot write standard output: it is closed"));
    }
    let answer = shell(&folder, command, "\"$0\" - <&-");
    assert_eq!(answer.status.code(), Some(1));
    let told = "ralwinga: cannot read standard input: it is closed\n";
    assert_eq!(said(&answer), told);
    // what is open and thrown away is no failure
    for line in [">/dev/null", "1<>/dev/null", "2>&-"] {
        let answer = shell(&folder, command, &format!("\"$0\" case.csv {line}"));
        assert_eq!(answer.status.code(), Some(0), "{line}");
    }
}

#[test]
fn outputs_of_the_script_that_are_closed() {
    let folder = Folder::new("closed-script");
    folder.file("case.csv", C1);
    proved_program();
    let script = repository().join("plan");
    for (line, told) in [
        ("case.csv >&-", "plan: writing failed: no standard output\n"),
        (
            "case.csv >/dev/full",
            "plan: writing failed: No space left on device\n",
        ),
        ("<&-", "plan: reading failed: no standard input\n"),
        ("</", "plan: reading failed: Is a directory\n"),
    ] {
        let answer = shell(&folder, &script, &format!("\"$0\" {line}"));
        assert_eq!(answer.status.code(), Some(1), "{line}");
        assert_eq!(said(&answer), told);
    }
    let answer = shell(&folder, &script, "\"$0\" case.csv | head -n 1");
    assert_eq!(answer.stdout, b"interval,mw\n");
    assert!(answer.stderr.is_empty());
}

/// The crates that `crates.txt` lists.
fn crates_listed() -> Vec<String> {
    let crates = fs::read_to_string(repository().join("crates.txt")).expect("a list");
    let lines = crates
        .lines()
        .filter(|line| !line.starts_with('#') && line.contains(':'));
    let names = lines.filter_map(|line| line.split([' ', ':']).next());
    names.map(str::to_string).collect()
}

/// A repository with the script and no planner, and an `rt` of our own in its folder `bin` where lines are given for it to say.
fn unproved(name: &str, rt: Option<&str>) -> Folder {
    let folder = Folder::new(name);
    for file in [
        "plan",
        "crates.txt",
        "host/proving",
        "host/build",
        "host/ralwinga.1",
    ] {
        let bytes = fs::read(repository().join(file)).expect("a file of the repository");
        let copy = folder.file(file, bytes);
        fs::set_permissions(copy, fs::Permissions::from_mode(0o755)).expect("set");
    }
    for name in crates_listed() {
        let root = if name == "plan" { "main" } else { "lib" };
        folder.file(&format!("crates/{name}/src/{root}.rt"), "");
    }
    fs::create_dir_all(folder.path("bin")).expect("made");
    if let Some(script) = rt {
        let rt = folder.file("bin/rt", script);
        fs::set_permissions(rt, fs::Permissions::from_mode(0o755)).expect("set");
    }
    folder
}

/// Runs a script of such a repository with its own `rt` or none.
fn run_unproved(folder: &Folder, words: &[&str]) -> Output {
    let path = format!("{}:/usr/bin:/bin", folder.path("bin").display());
    let mut command = Command::new(folder.path(words[0]));
    command.args(&words[1..]).env("PATH", path);
    run_on(command, C1.as_bytes())
}

#[test]
fn a_toolchain_that_is_missing() {
    if Path::new("/usr/bin/rt").exists() || Path::new("/bin/rt").exists() {
        println!("skipped: rt is in a folder that the scripts need");
        return;
    }
    let folder = unproved("no-rt", None);
    for (script, who) in [("plan", "plan"), ("host/build", "host/build")] {
        let answer = run_unproved(&folder, &[script]);
        assert_eq!(answer.status.code(), Some(1));
        let said = said(&answer);
        assert!(
            said.starts_with(&format!("{who}: rt, the Rattle toolchain, is missing")),
            "{said}"
        );
        assert!(
            said.contains("unpack the Rattle kit") && said.lines().count() == 1,
            "{said}"
        );
    }
}

/// The crates that the program names, those of the toolchain left out, and itself.
fn crates_of_the_program() -> Vec<String> {
    let crates = fs::read_to_string(repository().join("crates.txt")).expect("a list");
    let names = crates_listed();
    let line = crates.lines().find_map(|line| line.strip_prefix("plan: "));
    let needs = line.expect("a line").split(' ').map(str::to_string);
    let own = needs.filter(|name| names.contains(name));
    own.chain(["plan".to_string()]).collect()
}

/// The crates are counted as they are proved, up to their number.
#[test]
fn crates_are_counted() {
    let program = fs::canonicalize(proved_program().get_program()).expect("a planner");
    let crates = crates_of_the_program();
    let rt = format!(
        "#!/bin/sh\necho \"fn $(basename \"$PWD\")::f: proved\"; echo logic=proved\n\
         [ $1 = lib ] || {{ mkdir -p out && cp '{}' out/plan; }}\n",
        program.display()
    );
    let folder = unproved("counted", Some(&rt));
    let answer = run_unproved(&folder, &["plan"]);
    let told = said(&answer);
    assert_eq!(answer.status.code(), Some(0), "{told}");
    assert!(answer.stdout.starts_with(b"interval,mw\n"));
    assert!(told.contains("takes some minutes"), "{told}");
    let total = crates.len();
    let counted: Vec<&str> = told.lines().skip(1).collect();
    assert_eq!(counted.len(), total, "{told}");
    for ((number, name), line) in (1..).zip(&crates).zip(counted) {
        let proved = format!("plan: crate {number} of {total}: {name} proved (");
        assert!(line.starts_with(&proved), "{told}");
    }
    // and are not proved again
    assert_eq!(said(&run_unproved(&folder, &["plan"])), "");
}

/// Packages of Debian's on a machine that never fetched its lists: they are fetched before anything is asked for.
#[test]
fn packages_on_a_new_machine() {
    let apt = "#!/bin/sh\nlists=$(dirname \"$0\")/lists\n\
               case $1 in update) touch \"$lists\" ;; *) [ -e \"$lists\" ] || { echo 'E: Unable to locate package' >&2; exit 100; } ;; esac\n\
               echo \"apt-get $1\"\n";
    let cache = "#!/bin/sh\n[ ! -e \"$(dirname \"$0\")/lists\" ] || echo '  Candidate: 1.0'\n";
    let rt = "#!/bin/sh\nmkdir -p out && touch out/libexports.a; echo logic=proved\n";
    let folder = unproved("new-machine", Some(rt));
    for (name, script) in [
        ("apt-get", apt),
        ("apt-cache", cache),
        ("id", "#!/bin/sh\necho 0\n"),
        ("cargo", "#!/bin/sh\necho cargo $1\n"),
        ("cc", "#!/bin/sh\n"),
    ] {
        let file = folder.file(&format!("bin/{name}"), script);
        fs::set_permissions(file, fs::Permissions::from_mode(0o755)).expect("set");
    }
    // a crate that is in no package
    let lock = "name = \"none-such\"\nversion = \"1.0.0\"\nsource = \"registry\"\n";
    folder.file("host/Cargo.lock", lock);
    let answer = run_unproved(&folder, &["host/build"]);
    let told = said(&answer);
    assert_eq!(answer.stdout, b"cargo build\n", "{told}");
    let asked: Vec<&str> = told
        .lines()
        .filter(|line| line.starts_with("apt-get"))
        .collect();
    assert_eq!(asked, ["apt-get update", "apt-get install"], "{told}");
    assert!(!told.contains("E: "), "{told}");
}

#[test]
fn a_crate_that_is_not_proved() {
    let rt = "#!/bin/sh\n[ $(basename \"$PWD\") = lists ] || { echo 'error: not so' >&2; echo logic=not-proved; exit 1; }\n";
    let folder = unproved("not-proved", Some(rt));
    let answer = run_unproved(&folder, &["plan"]);
    let told = said(&answer);
    assert_eq!(answer.status.code(), Some(1));
    assert!(
        told.contains("crate 1 of") && told.contains("error: not so\nlogic=not-proved\n"),
        "{told}"
    );
    assert!(
        told.ends_with("plan: the planner is not proved\n"),
        "{told}"
    );
}
