//! Every file that the command writes goes through here: whole under its name, or not at all.
//!
//! The bytes go to a temporary file in the same folder, which is synced and then takes the name in one step. std is enough for that: the crate
//! `tempfile` would do the first of these steps alone, and needs packages of its own.

use crate::stop::Stop;
use std::fs::{self, File, OpenOptions};
use std::io::{self, ErrorKind, Write};
use std::os::unix::fs::{fchown, MetadataExt};
use std::path::{Path, PathBuf};
use std::sync::atomic::{AtomicUsize, Ordering};

pub fn write(file: &Path, content: &[u8]) -> Result<(), Stop> {
    replace(file, content).map_err(|error| Stop::unwritten(file, error))
}

/// A link is followed, and what is no file (a device, a pipe) is written to as it is.
fn replace(file: &Path, content: &[u8]) -> io::Result<()> {
    match fs::metadata(file) {
        Ok(there) if there.is_file() => {
            let file = fs::canonicalize(file)?;
            // a file that may not be written is not replaced either
            let old = OpenOptions::new().write(true).open(&file)?;
            renamed(&file, content, Some(&old))
        }
        Ok(there) if there.is_dir() => Err(ErrorKind::IsADirectory.into()),
        Ok(_) => OpenOptions::new()
            .write(true)
            .open(file)?
            .write_all(content),
        Err(error) if error.kind() == ErrorKind::NotFound => {
            renamed(&followed(file)?, content, None)
        }
        Err(error) => Err(error),
    }
}

/// As many links as the system follows.
const MOST_LINKS: usize = 40;

/// What a name of nothing that is there stands for when its links are followed.
pub fn followed(file: &Path) -> io::Result<PathBuf> {
    let mut file = file.to_path_buf();
    for _ in 0..MOST_LINKS {
        match fs::read_link(&file) {
            Ok(target) => file = folder_of(&file).join(target),
            Err(_) => return Ok(file),
        }
    }
    Err(io::Error::other("too many links"))
}

/// The folder of a file's name.
pub fn folder_of(file: &Path) -> &Path {
    match file.parent() {
        Some(folder) if !folder.as_os_str().is_empty() => folder,
        Some(_) => Path::new("."),
        None => Path::new("/"),
    }
}

/// As many names as are tried for something temporary.
const MOST_NAMES: usize = 10_000;

/// Something temporary in a folder, made under a name that nothing there has: a run that was killed may have left one of this process's number.
pub fn made_in<T>(
    folder: &Path,
    make: impl Fn(&Path) -> io::Result<T>,
) -> io::Result<(PathBuf, T)> {
    static COUNT: AtomicUsize = AtomicUsize::new(0);
    let process = std::process::id();
    for _ in 0..MOST_NAMES {
        let count = COUNT.fetch_add(1, Ordering::Relaxed);
        let path = folder.join(format!(".ralwinga-{process}-{count}.tmp"));
        match make(&path) {
            Err(error) if error.kind() == ErrorKind::AlreadyExists => continue,
            made => return made.map(|made| (path, made)),
        }
    }
    Err(ErrorKind::AlreadyExists.into())
}

fn renamed(file: &Path, content: &[u8], old: Option<&File>) -> io::Result<()> {
    let folder = folder_of(file);
    let made = made_in(folder, |path| File::create_new(path));
    let (temporary, new) = made.map_err(|error| in_folder(folder, error))?;
    let written = fill(new, content, old).and_then(|()| fs::rename(&temporary, file));
    if written.is_err() {
        let _ = fs::remove_file(&temporary);
    }
    written?;
    sync(folder)
}

fn in_folder(folder: &Path, error: io::Error) -> io::Error {
    let folder = folder.display();
    io::Error::new(
        error.kind(),
        format!("no temporary file in {folder}: {error}"),
    )
}

/// The content on the disk, with the old file's owner, where that can be kept, and permissions.
fn fill(mut new: File, content: &[u8], old: Option<&File>) -> io::Result<()> {
    new.write_all(content)?;
    if let Some(old) = old.map(File::metadata).transpose()? {
        let ours = new.metadata()?;
        if (old.uid(), old.gid()) != (ours.uid(), ours.gid()) {
            let _ = fchown(&new, Some(old.uid()), Some(old.gid()));
        }
        new.set_permissions(old.permissions())?;
    }
    new.sync_all()
}

/// The new name on the disk, too. Where a folder cannot be opened or synced the file is whole all the same.
fn sync(folder: &Path) -> io::Result<()> {
    match File::open(folder).and_then(|folder| folder.sync_all()) {
        Err(error) if error.raw_os_error() == Some(INPUT_OUTPUT_ERROR) => Err(error),
        _ => Ok(()),
    }
}

/// EIO: what was written may not be there.
const INPUT_OUTPUT_ERROR: i32 = 5;
