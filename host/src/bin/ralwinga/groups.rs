//! What the control groups of this process leave it of memory. A job of a scheduler or a container has less than the machine.

use std::fs;
use std::path::{Path, PathBuf};

const MOUNTED: &str = "/sys/fs/cgroup";

/// The names of a group's files, in the second version of control groups and in the first.
struct Files {
    limit: &'static str,
    used: &'static str,
    /// What the system can take back at once: pages of files that were read.
    reclaimable: &'static str,
}

const SECOND: Files = Files {
    limit: "memory.max",
    used: "memory.current",
    reclaimable: "inactive_file",
};

const FIRST: Files = Files {
    limit: "memory.limit_in_bytes",
    used: "memory.usage_in_bytes",
    reclaimable: "total_inactive_file",
};

/// The least that any of its groups leaves; none where no group has a limit.
pub fn free_bytes() -> Option<usize> {
    let groups = fs::read_to_string("/proc/self/cgroup").ok()?;
    free_in(Path::new(MOUNTED), &groups)
}

/// By lines `ID:CONTROLLERS:PATH`, of which the second version leaves the controllers empty.
fn free_in(mounted: &Path, groups: &str) -> Option<usize> {
    let of_group = |line: &str| {
        let mut fields = line.splitn(3, ':').skip(1);
        let (controllers, path) = (fields.next()?, fields.next()?);
        match controllers {
            "" => least_above(mounted.to_path_buf(), path, &SECOND),
            _ if controllers.split(',').any(|name| name == "memory") => {
                least_above(mounted.join("memory"), path, &FIRST)
            }
            _ => None,
        }
    };
    groups.lines().filter_map(of_group).min()
}

/// A group is held to the limits of those above it, too. Those that the process does not see are passed over.
fn least_above(root: PathBuf, path: &str, files: &Files) -> Option<usize> {
    let path = Path::new(path.trim_start_matches('/'));
    let folders = path.ancestors().map(|part| root.join(part));
    folders.filter_map(|folder| left(&folder, files)).min()
}

/// The limit of a group less what it uses.
fn left(folder: &Path, files: &Files) -> Option<usize> {
    let number = |name: &str| -> Option<usize> {
        let text = fs::read_to_string(folder.join(name)).ok()?;
        text.trim().parse().ok()
    };
    let limit = number(files.limit)?;
    let used = number(files.used).unwrap_or(0);
    let stat = fs::read_to_string(folder.join("memory.stat")).unwrap_or_default();
    let reclaimable = stat
        .lines()
        .find_map(|line| line.strip_prefix(files.reclaimable)?.trim().parse().ok());
    let used = used.saturating_sub(reclaimable.unwrap_or(0));
    Some(limit.saturating_sub(used))
}

#[cfg(test)]
mod tests {
    use super::*;

    /// Groups with their files in a folder that goes when the test ends.
    struct Groups(PathBuf);

    impl Groups {
        fn new(name: &str, files: &[(&str, &str)]) -> Groups {
            let process = std::process::id();
            let root = std::env::temp_dir().join(format!("ralwinga-groups-{name}-{process}"));
            for (file, content) in files {
                let file = root.join(file);
                fs::create_dir_all(file.parent().expect("a folder")).expect("made");
                fs::write(file, content).expect("written");
            }
            Groups(root)
        }
    }

    impl Drop for Groups {
        fn drop(&mut self) {
            let _ = fs::remove_dir_all(&self.0);
        }
    }

    #[test]
    fn the_second_version() {
        let groups = Groups::new(
            "second",
            &[
                ("memory.stat", "inactive_file 7\n"),
                ("slurm/memory.max", "1000\n"),
                ("slurm/memory.current", "100\n"),
                ("slurm/job/memory.max", "max\n"),
                ("slurm/job/step/memory.max", "950\n"),
                ("slurm/job/step/memory.current", "300\n"),
                ("slurm/job/step/memory.stat", "anon 9\ninactive_file 200\n"),
            ],
        );
        let free = |path: &str| free_in(&groups.0, &format!("0::{path}\n"));
        assert_eq!(free("/slurm/job/step"), Some(850));
        assert_eq!(free("/slurm/job"), Some(900));
        assert_eq!(free("/slurm/job/not-seen"), Some(900));
        assert_eq!(free("/"), None);
    }

    #[test]
    fn the_first_version() {
        let groups = Groups::new(
            "first",
            &[
                ("memory/memory.limit_in_bytes", "9223372036854771712\n"),
                ("memory/job/memory.limit_in_bytes", "5000\n"),
                ("memory/job/memory.usage_in_bytes", "1000\n"),
                (
                    "memory/job/memory.stat",
                    "inactive_file 1\ntotal_inactive_file 500\n",
                ),
            ],
        );
        let lines = "9:cpu,cpuacct:/job\n4:memory:/job\n0::/\n";
        assert_eq!(free_in(&groups.0, lines), Some(4500));
        assert_eq!(free_in(&groups.0, "9:cpu,cpuacct:/job\n"), None);
    }
}
