//! Pages and their payloads in files: the bytes of the C calls, and nothing else.

use crate::failure::Failure;
use crate::input;
use crate::options::{PAGE, PAYLOAD};
use crate::replace;
use gordzila::{PAGE_BYTES, PAYLOAD_BYTES};
use std::ffi::OsStr;
use std::path::Path;

/// Who may open a new file, before the umask: all, or the owner alone.
const ALL: u32 = 0o666;
const OWNER: u32 = 0o600;

/// The payload in a file or on standard input. Of one that is too long a byte more than it
/// may have is read, so that the library refuses it.
pub fn read_payload(name: &OsStr) -> Result<Vec<u8>, Failure> {
    input::read(PAYLOAD, name, PAYLOAD_BYTES + 1)
}

/// The page in a file or on standard input, likewise.
pub fn read_page(name: &OsStr) -> Result<Vec<u8>, Failure> {
    input::read(PAGE, name, PAGE_BYTES + 1)
}

/// Writes a page to a new file.
pub fn write_page(path: &Path, page: &[u8]) -> Result<(), Failure> {
    write(PAGE, path, page, ALL)
}

/// Writes a payload to a new file, which its owner alone may open: it was sealed.
pub fn write_payload(path: &Path, payload: &[u8]) -> Result<(), Failure> {
    write(PAYLOAD, path, payload, OWNER)
}

/// A file that exists is not replaced: it may be the only copy of another page.
fn write(option: &str, path: &Path, bytes: &[u8], mode: u32) -> Result<(), Failure> {
    replace::new_target(path)
        .and_then(|target| replace::make(&target, bytes, mode))
        .map_err(|error| Failure::file(option, path, error))
}
