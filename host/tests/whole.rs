//! Files are written whole or not at all: by a command that is killed, on a disk that is full, over links, devices and files with permissions.

mod support;

use std::fs;
use std::os::unix::fs::{symlink, MetadataExt, PermissionsExt};
use std::path::{Path, PathBuf};
use std::process::{Command, Stdio};
use std::time::{Duration, Instant};
use support::{month, ralwinga, Folder, Random, C1};

const KILLS: usize = 120;
const UNITS: usize = 12;

/// The names in a folder that are no listing: temporary files are hidden.
fn others(folder: &Path) -> Vec<String> {
    let names = fs::read_dir(folder).expect("a folder");
    let names = names.map(|entry| entry.expect("an entry").file_name());
    let names = names.map(|name| name.to_string_lossy().to_string());
    names.filter(|name| !name.ends_with(".csv")).collect()
}

/// Runs the command and kills it after a while: whether it was still running.
fn killed(mut command: Command, after: Duration) -> bool {
    let null = command.stdout(Stdio::null()).stderr(Stdio::null());
    let mut child = null.spawn().expect("starts");
    std::thread::sleep(after);
    let running = child.try_wait().expect("asked").is_none();
    // SIGKILL
    let _ = child.kill();
    child.wait().expect("ends");
    running
}

const OLD: &[u8] = b"yesterday's\n";

/// What became of the listings of a folder: how many are new, old and absent. None is anything else.
fn listings_in(out: &Path, whole: &[u8]) -> [usize; 3] {
    let mut counts = [0; 3];
    for unit in 0..UNITS {
        let place = match fs::read(out.join(format!("unit{unit}.listing.csv"))) {
            Ok(bytes) if bytes == whole => 0,
            Ok(bytes) if bytes == OLD => 1,
            Ok(bytes) => panic!("a listing of {} bytes", bytes.len()),
            Err(_) => 2,
        };
        counts[place] += 1;
    }
    let temporary = |name: &String| name.starts_with(".ralwinga-") && name.ends_with(".tmp");
    assert!(others(out).iter().all(temporary));
    counts
}

/// Listings of a dozen months, killed at random moments of the run: each is whole, the old one or not there.
#[test]
fn listings_of_a_command_that_is_killed() {
    let folder = Folder::new("killed");
    let unit = |i| folder.file(&format!("unit{i}.csv"), month());
    let files: Vec<PathBuf> = (0..UNITS).map(unit).collect();
    let out = folder.path("out");
    let run = || {
        let mut command = ralwinga(["plan", "--quiet", "--out"]);
        command.arg(&out).args(&files);
        command
    };
    let began = Instant::now();
    assert!(run().output().expect("runs").status.success());
    let took = began.elapsed();
    let whole = fs::read(out.join("unit0.listing.csv")).expect("a listing");
    let mut random = Random::new(31);
    let (mut running, mut counts) = (0, [0; 3]);
    for i in 0..KILLS {
        fs::remove_dir_all(&out).expect("removed");
        fs::create_dir_all(&out).expect("made");
        for unit in (0..UNITS).filter(|unit| (unit + i) % 2 == 0) {
            fs::write(out.join(format!("unit{unit}.listing.csv")), OLD).expect("written");
        }
        let after = took.mul_f64(random.below(1100) as f64 / 1000.0);
        running += usize::from(killed(run(), after));
        let these = listings_in(&out, &whole);
        counts = std::array::from_fn(|place| counts[place] + these[place]);
    }
    println!("{running} of {KILLS} killed; listings new, old, absent: {counts:?}");
    assert!(running > KILLS / 10 && counts.iter().all(|count| *count > 0));
}

/// The page and the drawing of a command that is killed.
#[test]
fn pictures_of_a_command_that_is_killed() {
    let folder = Folder::new("killed-page");
    let case = folder.file("month.csv", month());
    let (svg, html) = (folder.path("month.svg"), folder.path("month.html"));
    let run = || {
        let mut command = ralwinga([&case]);
        command.arg("--svg").arg(&svg).arg("--html").arg(&html);
        command
    };
    let began = Instant::now();
    assert!(run().output().expect("runs").status.success());
    let took = began.elapsed();
    let whole = [&svg, &html].map(|file| fs::read(file).expect("a file"));
    let mut random = Random::new(32);
    for _ in 0..KILLS {
        for file in [&svg, &html] {
            fs::write(file, "old").expect("written");
        }
        killed(run(), took.mul_f64(random.below(1200) as f64 / 1000.0));
        for (file, whole) in [&svg, &html].into_iter().zip(&whole) {
            let bytes = fs::read(file).expect("a file");
            assert!(bytes == *whole || bytes == b"old", "{} bytes", bytes.len());
        }
    }
}

/// A file system of 64 KiB, which goes when the test ends. None where this process may not mount one.
struct SmallDisk(PathBuf);

impl SmallDisk {
    fn mounted(folder: &Folder) -> Option<SmallDisk> {
        let place = folder.path("disk");
        fs::create_dir_all(&place).expect("made");
        let mut mount = Command::new("mount");
        mount.args(["-t", "tmpfs", "-o", "size=64k", "ralwinga"]);
        let mounted = mount
            .arg(&place)
            .output()
            .is_ok_and(|answer| answer.status.success());
        mounted.then_some(SmallDisk(place))
    }
}

impl Drop for SmallDisk {
    fn drop(&mut self) {
        let _ = Command::new("umount").arg(&self.0).output();
    }
}

/// The page of a month has more than 64 KiB: the disk is left as it was.
#[test]
fn a_page_on_a_disk_that_is_full() {
    let folder = Folder::new("full-page");
    let Some(disk) = SmallDisk::mounted(&folder) else {
        println!("skipped: this process may not mount a file system");
        return;
    };
    let case = folder.file("month.csv", month());
    let page = disk.0.join("month.html");
    fs::write(&page, "a good page").expect("written");
    let mut command = ralwinga([&case]);
    let answer = command.arg("--html").arg(&page).output().expect("runs");
    assert_eq!(answer.status.code(), Some(1));
    let said = String::from_utf8_lossy(&answer.stderr).to_string();
    assert!(said.contains("cannot write") && said.contains("No space left"));
    assert!(answer.stdout.starts_with(b"interval,mw\n"));
    assert_eq!(fs::read(&page).expect("a page"), b"a good page");
    assert_eq!(fs::read_dir(&disk.0).expect("a folder").count(), 1);
}

/// Listings of 22 KiB: some go on the disk, each of them whole.
#[test]
fn listings_on_a_disk_that_is_full() {
    let folder = Folder::new("full-listings");
    let Some(disk) = SmallDisk::mounted(&folder) else {
        println!("skipped: this process may not mount a file system");
        return;
    };
    let unit = |i| folder.file(&format!("unit{i}.csv"), month());
    let files: Vec<PathBuf> = (0..4).map(unit).collect();
    let mut command = ralwinga(["plan", "--out"]);
    let answer = command.arg(&disk.0).args(&files).output().expect("runs");
    assert_eq!(answer.status.code(), Some(1));
    let listing = ralwinga([&files[0]]).output().expect("runs").stdout;
    let there: Vec<Vec<u8>> = (0..4)
        .filter_map(|i| fs::read(disk.0.join(format!("unit{i}.listing.csv"))).ok())
        .collect();
    assert!((1..4).contains(&there.len()), "{} are there", there.len());
    assert!(there.iter().all(|bytes| *bytes == listing));
    let names = fs::read_dir(&disk.0).expect("a folder").count();
    assert_eq!(names, there.len());
}

/// C1's page to a file.
fn page_to(folder: &Folder, file: &Path) -> (Option<i32>, String) {
    let case = folder.file("case.csv", C1);
    let mut command = ralwinga([&case]);
    let answer = command.arg("--html").arg(file).output().expect("runs");
    let said = String::from_utf8_lossy(&answer.stderr).to_string();
    (answer.status.code(), said)
}

#[test]
fn permissions_and_links_stay() {
    let folder = Folder::new("links");
    let file = folder.file("real/page.html", "old");
    fs::set_permissions(&file, fs::Permissions::from_mode(0o640)).expect("set");
    let link = folder.path("link.html");
    symlink("real/page.html", &link).expect("linked");
    assert_eq!(page_to(&folder, &link).0, Some(0));
    assert!(fs::symlink_metadata(&link).expect("a link").is_symlink());
    assert!(folder.read("real/page.html").starts_with("<!DOCTYPE html>"));
    assert_eq!(fs::metadata(&file).expect("a file").mode() & 0o777, 0o640);
    // a link to what is not there yet
    let link = folder.path("new.html");
    symlink("real/new.html", &link).expect("linked");
    assert_eq!(page_to(&folder, &link).0, Some(0));
    assert!(fs::symlink_metadata(&link).expect("a link").is_symlink());
    assert!(folder.read("real/new.html").ends_with("</html>\n"));
    // a link to itself
    let link = folder.path("round.html");
    symlink("round.html", &link).expect("linked");
    let (status, said) = page_to(&folder, &link);
    assert_eq!(status, Some(1), "{said}");
    // a file of its own name in the folder of the command
    let mut command = ralwinga(["case.csv", "--html", "here.html"]);
    command.current_dir(folder.path(""));
    assert!(command.output().expect("runs").status.success());
    assert!(folder.read("here.html").ends_with("</html>\n"));
    assert_eq!(
        fs::read_dir(folder.path("real")).expect("a folder").count(),
        2
    );
}

/// A temporary file that a run of the same process number left is no hindrance, and stays.
#[test]
fn a_temporary_file_that_was_left() {
    let folder = Folder::new("left");
    folder.file("case.csv", C1);
    let line = "for i in 0 1 2; do echo left > .ralwinga-$$-$i.tmp; done; exec \"$0\" case.csv --svg plan.svg --html plan.html";
    let mut shell = Command::new("sh");
    shell.args(["-c", line, env!("CARGO_BIN_EXE_ralwinga")]);
    let answer = shell.current_dir(folder.path("")).output().expect("runs");
    assert_eq!(answer.status.code(), Some(0));
    assert!(folder.read("plan.svg").ends_with("</svg>\n"));
    assert!(folder.read("plan.html").ends_with("</html>\n"));
    let left = others(&folder.path(""));
    let left = left.iter().filter(|name| name.ends_with(".tmp"));
    assert_eq!(
        left.map(|name| folder.read(name)).collect::<String>(),
        "left\n".repeat(3)
    );
}

/// What is no file is written to as it is.
#[test]
fn devices_and_pipes() {
    let folder = Folder::new("devices");
    assert_eq!(page_to(&folder, Path::new("/dev/null")).0, Some(0));
    let (status, said) = page_to(&folder, Path::new("/dev/full"));
    assert_eq!(status, Some(1));
    assert!(
        said.contains("cannot write /dev/full: No space left"),
        "{said}"
    );
    assert!(fs::metadata("/dev/null").is_ok_and(|there| !there.is_file()));
    let case = folder.file("case.csv", C1);
    let mut command = ralwinga([&case]);
    let answer = command
        .args(["--svg", "/dev/stdout"])
        .output()
        .expect("runs");
    let printed = String::from_utf8_lossy(&answer.stdout).to_string();
    assert!(
        printed.contains("<svg") && printed.contains("profit,400000"),
        "{printed}"
    );
    let pipe = folder.path("pipe");
    let made = Command::new("mkfifo").arg(&pipe).status().expect("mkfifo");
    assert!(made.success());
    let mut reader = Command::new("cat");
    let reader = reader
        .arg(&pipe)
        .stdout(Stdio::piped())
        .spawn()
        .expect("cat");
    assert_eq!(page_to(&folder, &pipe).0, Some(0));
    let read = reader.wait_with_output().expect("ends").stdout;
    assert!(read.ends_with(b"</html>\n"));
}

/// A file, or a folder, that may not be written, which does not hold for root.
#[test]
fn what_may_not_be_written() {
    let folder = Folder::new("read-only");
    let file = folder.file("page.html", "kept");
    fs::set_permissions(&file, fs::Permissions::from_mode(0o444)).expect("set");
    if fs::OpenOptions::new().write(true).open(&file).is_ok() {
        println!("skipped: this process may write any file");
        return;
    }
    assert_eq!(page_to(&folder, &file).0, Some(1));
    assert_eq!(folder.read("page.html"), "kept");
}
