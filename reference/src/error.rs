//! The reasons for which a request is refused.

use std::fmt;

/// Why a request was refused.
#[derive(Clone, Copy, Debug, PartialEq, Eq)]
pub enum Error {
    /// The key does not have 12, 18 or 24 bytes; holds its length.
    KeyLength(usize),
    /// The number of rounds is not one that Table 2 allows for this key length.
    Rounds { key_length: usize, rounds: usize },
    /// The block does not have 12 bytes; holds its length.
    BlockLength(usize),
    /// The list of subkeys has fewer than two members; holds its length.
    TooFewSubkeys(usize),
}

impl fmt::Display for Error {
    fn fmt(&self, out: &mut fmt::Formatter<'_>) -> fmt::Result {
        match self {
            Error::KeyLength(length) => {
                write!(
                    out,
                    "a key has 12, 18 or 24 bytes, but this one has {}",
                    length
                )
            }
            Error::Rounds { key_length, rounds } => write!(
                out,
                "{} rounds are not allowed with a key of {} bytes",
                rounds, key_length
            ),
            Error::BlockLength(length) => {
                write!(out, "a block has 12 bytes, but this one has {}", length)
            }
            Error::TooFewSubkeys(count) => {
                write!(
                    out,
                    "at least 2 subkeys are needed, but there are {}",
                    count
                )
            }
        }
    }
}

impl std::error::Error for Error {}
