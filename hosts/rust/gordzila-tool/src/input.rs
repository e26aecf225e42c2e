//! Files that are read, and standard input.

use crate::failure::Failure;
use std::ffi::OsStr;
use std::fs::File;
use std::io::{self, Read};
use std::path::Path;

/// The name that stands for standard input.
pub const STANDARD_INPUT: &str = "-";

/// The bytes in the file that an option names, or on standard input, and `most` of them at
/// most: no limit would let a file without end fill the memory.
pub fn read(option: &str, name: &OsStr, most: usize) -> Result<Vec<u8>, Failure> {
    let bytes = if name == STANDARD_INPUT {
        bytes_of(io::stdin(), most)
    } else {
        File::open(name).and_then(|file| bytes_of(file, most))
    };
    bytes.map_err(|error| Failure::file(option, shown(name), error))
}

/// What a message calls that file.
pub fn shown(name: &OsStr) -> &Path {
    Path::new(if name == STANDARD_INPUT {
        OsStr::new("standard input")
    } else {
        name
    })
}

fn bytes_of(source: impl Read, most: usize) -> io::Result<Vec<u8>> {
    let mut bytes = Vec::new();
    source.take(most as u64).read_to_end(&mut bytes)?;
    Ok(bytes)
}

#[cfg(test)]
mod tests {
    use super::bytes_of;

    #[test]
    fn no_more_is_read_than_is_said() {
        let bytes = [1, 2, 3, 4];
        for most in 0..=5 {
            let read = bytes_of(&bytes[..], most).unwrap();
            assert_eq!(read, bytes[..most.min(4)]);
        }
        assert_eq!(bytes_of(std::io::repeat(7), 600).unwrap(), [7; 600]);
    }
}
