//! Replacing a file as a whole, and making a new one: whoever reads it finds the old
//! bytes or the new ones, also after a crash.
//!
//! An error before the new file is in place leaves the old one. Those after it say that
//! the change is made: here, that a directory could not be synced or a temporary file
//! not be removed, and in `printing`, that standard output could not be written.

use std::collections::hash_map::RandomState;
use std::ffi::OsString;
use std::fs::{self, File, Metadata, OpenOptions};
use std::hash::{BuildHasher, Hasher};
use std::io::{self, Write};
use std::os::unix::fs::{MetadataExt, OpenOptionsExt};
use std::path::{Path, PathBuf};
use std::process;

/// Writes the bytes to a temporary file beside the target and renames it over the
/// target. `old` is the target as it is now; its permissions stay.
pub fn replace(target: &Path, bytes: &[u8], old: &Metadata) -> io::Result<()> {
    let directory = directory_of(target)?;
    // Until it has the permissions of the old file, only the owner can open it.
    let (temporary, mut file) = Temporary::create(target, 0o600)?;
    keep_permissions(&file, old)?;
    write_out(&mut file, bytes)?;
    temporary.rename(target)?;
    sync(&directory)
}

/// Writes the bytes to a temporary file beside the target, and gives it the target's
/// name as a second one. Unlike a rename, that fails where something has the name, also
/// if another program gave it just now, or to a symbolic link that leads nowhere. `mode`
/// says who may open it, before the umask.
pub fn make(target: &Path, bytes: &[u8], mode: u32) -> io::Result<()> {
    let directory = directory_of(target)?;
    let (temporary, mut file) = Temporary::create(target, mode)?;
    write_out(&mut file, bytes)?;
    temporary.link(target)?;
    sync(&directory)
}

/// Where a file that does not exist will be: its directory does.
pub fn new_target(path: &Path) -> io::Result<PathBuf> {
    let name = path
        .file_name()
        .ok_or_else(|| io::Error::new(io::ErrorKind::InvalidInput, "not the name of a file"))?;
    let directory = match path.parent() {
        Some(directory) if directory != Path::new("") => directory,
        _ => Path::new("."),
    };
    Ok(fs::canonicalize(directory)?.join(name))
}

/// The directory of a file. It is opened first: once the file is in place, nothing that
/// could be tested before should fail any more.
fn directory_of(target: &Path) -> io::Result<File> {
    File::open(target.parent().unwrap_or_else(|| Path::new(".")))
}

fn write_out(file: &mut File, bytes: &[u8]) -> io::Result<()> {
    file.write_all(bytes)?;
    file.sync_all()
}

fn sync(directory: &File) -> io::Result<()> {
    directory.sync_all().map_err(|error| {
        let message =
            format!("the change is made, but it may not outlast a loss of power: {error}");
        io::Error::new(error.kind(), message)
    })
}

/// Gives a new file the permissions of an old one. The standard library of old Rust
/// cannot give it the owner and the group, so they have to be the same already:
/// otherwise those who could read the old file might not read the new one.
fn keep_permissions(file: &File, old: &Metadata) -> io::Result<()> {
    let new = file.metadata()?;
    if (new.uid(), new.gid()) != (old.uid(), old.gid()) {
        let message = format!(
            "it belongs to user {} and group {}, and would then belong to {} and {}; \
             run the tool as that user and group",
            old.uid(),
            old.gid(),
            new.uid(),
            new.gid()
        );
        return Err(io::Error::new(io::ErrorKind::PermissionDenied, message));
    }
    file.set_permissions(old.permissions())
}

/// A temporary file, which goes when this does, unless it was put in place.
struct Temporary {
    path: PathBuf,
    in_place: bool,
}

impl Temporary {
    /// A new file beside the target. `create_new` opens no file, and follows no link,
    /// that someone else put there.
    fn create(target: &Path, mode: u32) -> io::Result<(Temporary, File)> {
        let path = target.with_file_name(temporary_name(target));
        let file = OpenOptions::new()
            .write(true)
            .create_new(true)
            .mode(mode)
            .open(&path)?;
        let in_place = false;
        Ok((Temporary { path, in_place }, file))
    }

    fn rename(mut self, target: &Path) -> io::Result<()> {
        fs::rename(&self.path, target)?;
        self.in_place = true;
        Ok(())
    }

    /// Gives the file the target's name, and takes its own away. If its own stays, that
    /// is told: a roll with two names is not changed, and a payload is to be in one place.
    fn link(mut self, target: &Path) -> io::Result<()> {
        fs::hard_link(&self.path, target).map_err(|error| not_linked(&error))?;
        self.in_place = true;
        fs::remove_file(&self.path).map_err(|error| {
            let path = self.path.display();
            let message = format!("the change is made, but {path} has to be removed: {error}");
            io::Error::new(error.kind(), message)
        })
    }
}

impl Drop for Temporary {
    fn drop(&mut self) {
        if !self.in_place {
            // A file that stays is in nobody's way, and there is no one left to tell.
            let _ = fs::remove_file(&self.path);
        }
    }
}

/// A file system without hard links says no more than that one is not permitted, so the
/// message says what it was about.
fn not_linked(error: &io::Error) -> io::Error {
    let message = match error.kind() {
        io::ErrorKind::AlreadyExists => "exists, and is not replaced".to_string(),
        _ => format!("cannot be made without a hard link: {error}"),
    };
    io::Error::new(error.kind(), message)
}

/// A name that nobody can foresee: the standard library seeds its hashers at random.
fn temporary_name(target: &Path) -> OsString {
    let random = RandomState::new().build_hasher().finish();
    let mut name = OsString::from(".");
    name.push(target.file_name().unwrap_or_default());
    name.push(format!(".{}.{random:016x}.tmp", process::id()));
    name
}
