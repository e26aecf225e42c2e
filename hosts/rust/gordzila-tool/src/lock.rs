//! The lock that keeps two processes from changing one file at once.

use std::fs::{self, OpenOptions};
use std::io;
use std::path::{Path, PathBuf};

/// A lock on a file, for as long as it lives: a second file with `.lock` after the
/// name. It keeps off other changes by this tool, and readers not at all.
pub struct Lock {
    path: PathBuf,
}

impl Lock {
    /// Takes the lock on a file, and does not wait for it.
    pub fn take(target: &Path) -> io::Result<Lock> {
        let mut name = target.as_os_str().to_os_string();
        name.push(".lock");
        let path = PathBuf::from(name);
        match OpenOptions::new().write(true).create_new(true).open(&path) {
            Ok(_) => Ok(Lock { path }),
            Err(error) => Err(explained(&path, &error)),
        }
    }
}

impl Drop for Lock {
    fn drop(&mut self) {
        // If it stays, the next change says so, and names the file.
        let _ = fs::remove_file(&self.path);
    }
}

/// A process that is killed leaves its lock, and nobody else can know that: so the
/// message says what to do.
fn explained(path: &Path, error: &io::Error) -> io::Error {
    let path = path.display();
    let message = match error.kind() {
        io::ErrorKind::AlreadyExists => format!(
            "{path} exists: another change is under way; if you are sure that none is, remove that file"
        ),
        _ => format!("the lock {path} cannot be made: {error}"),
    };
    io::Error::new(error.kind(), message)
}
