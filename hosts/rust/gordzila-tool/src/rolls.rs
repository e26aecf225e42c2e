//! Rolls in files: the bytes of the C call, and nothing else.

use crate::failure::Failure;
use crate::lock::Lock;
use crate::options::ROLL;
use crate::replace;
use gordzila::{Reason, Right, Roll, OLD_ROLL_BYTES, ROLL_BYTES};
use std::fs::{self, File, Metadata};
use std::io::{self, Read};
use std::os::unix::fs::MetadataExt;
use std::path::Path;

/// The roll in a file.
pub fn read(path: &Path) -> Result<Roll, Failure> {
    let bytes = bytes_in(path).map_err(|error| Failure::file(ROLL, path, error))?;
    roll_of(path, &bytes)
}

/// Changes the roll in a file, unless the call on its bytes refuses, and gives it as it is
/// then.
pub fn change(
    path: &Path,
    call: impl FnOnce(&mut [u8]) -> Result<(), Reason>,
) -> Result<Roll, Failure> {
    replaced(path, |bytes| {
        let mut bytes = *roll_of(path, bytes)?.bytes();
        call(&mut bytes)?;
        roll_of(path, &bytes)
    })
}

/// Replaces the file of a roll from before version 0.6 by one of a roll as it is now, on
/// which all who are in standing have one highest right, and gives that roll.
pub fn convert(path: &Path, in_standing: Right) -> Result<Roll, Failure> {
    replaced(path, |bytes| {
        Roll::from_old_bytes(bytes, in_standing)
            .ok_or_else(|| Failure::file(ROLL, path, not_old(bytes.len())))
    })
}

/// Makes a file with the roll on which nobody was ever entered. A file that exists is
/// not replaced: if counts start anew, revoked grants open again.
pub fn make(path: &Path) -> Result<(), Failure> {
    let trouble = |error: io::Error| Failure::file(ROLL, path, error);
    let target = replace::new_target(path).map_err(trouble)?;
    let _lock = Lock::take(&target).map_err(trouble)?;
    replace::make(&target, Roll::empty().bytes(), 0o666).map_err(trouble)
}

/// Replaces a file by one with the roll that is made of its bytes, unless that fails, and
/// gives the roll. The lock is held from reading to writing, so that no other change gets
/// lost.
fn replaced(
    path: &Path,
    made: impl FnOnce(&[u8]) -> Result<Roll, Failure>,
) -> Result<Roll, Failure> {
    let trouble = |error: io::Error| Failure::file(ROLL, path, error);
    // The file itself, so that all who reach it by symbolic links take the same lock,
    // and no symbolic link is replaced by a file.
    let target = fs::canonicalize(path).map_err(trouble)?;
    let _lock = Lock::take(&target).map_err(trouble)?;
    let old = fs::metadata(&target).map_err(trouble)?;
    if let Some(why) = unfit(&old) {
        return Err(Failure::file(ROLL, path, why));
    }
    let roll = made(&bytes_in(&target).map_err(trouble)?)?;
    replace::replace(&target, roll.bytes(), &old).map_err(trouble)?;
    Ok(roll)
}

/// The roll that a file's bytes are, or why they are none.
fn roll_of(path: &Path, bytes: &[u8]) -> Result<Roll, Failure> {
    Roll::from_bytes(bytes).ok_or_else(|| Failure::file(ROLL, path, not_new(bytes.len())))
}

/// Why a file of so many bytes has no roll. If it has one from before version 0.6, there is
/// a way on, and the message says which.
fn not_new(length: usize) -> String {
    match length {
        OLD_ROLL_BYTES => format!(
            "{OLD_ROLL_BYTES} bytes, a roll from before version 0.6; \
             `gordzila roll convert` makes one of {ROLL_BYTES} bytes of it"
        ),
        _ => format!("not {ROLL_BYTES} bytes long"),
    }
}

/// Why a file of so many bytes has no roll from before version 0.6.
fn not_old(length: usize) -> String {
    match length {
        ROLL_BYTES => format!("it has {ROLL_BYTES} bytes already, and is not converted"),
        _ => format!("not {OLD_ROLL_BYTES} bytes long, as a roll from before version 0.6 is"),
    }
}

/// Why a file cannot be replaced, if it cannot. A withdrawal under one of several names
/// would leave the old roll under the others, where the revoked grants still open.
fn unfit(old: &Metadata) -> Option<&'static str> {
    if !old.is_file() {
        Some("not a regular file")
    } else if old.nlink() > 1 {
        Some("it has more than one name (hard links); the others would keep the old roll")
    } else {
        None
    }
}

/// A file's bytes, and one more than a roll has at most.
fn bytes_in(path: &Path) -> io::Result<Vec<u8>> {
    let mut bytes = Vec::new();
    File::open(path)?
        .take(ROLL_BYTES as u64 + 1)
        .read_to_end(&mut bytes)?;
    Ok(bytes)
}
