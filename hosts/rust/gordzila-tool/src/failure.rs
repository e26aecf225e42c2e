//! Why the tool does not do what it is asked for, and its exit status then.

use gordzila::Reason;
use std::fmt;
use std::path::Path;

/// What a subcommand comes to: a text for standard output, or a failure.
pub type Answer = Result<String, Failure>;

/// Why the tool stops.
#[derive(Debug)]
pub enum Failure {
    /// The library refused.
    Refused(Reason),
    /// The words on the command line are wrong.
    Usage(String),
    /// A file, standard input or standard output cannot be used.
    Trouble(String),
}

impl Failure {
    /// Wrong words on the command line.
    pub fn usage(message: impl Into<String>) -> Failure {
        Failure::Usage(message.into())
    }

    /// A file that an option names cannot be used.
    pub fn file(option: &str, path: &Path, why: impl fmt::Display) -> Failure {
        Failure::Trouble(format!("{option}: {}: {why}", path.display()))
    }

    /// The exit status of the tool.
    pub fn status(&self) -> u8 {
        match self {
            Failure::Refused(_) => 1,
            Failure::Usage(_) | Failure::Trouble(_) => 2,
        }
    }
}

impl From<Reason> for Failure {
    fn from(reason: Reason) -> Failure {
        Failure::Refused(reason)
    }
}

impl fmt::Display for Failure {
    fn fmt(&self, formatter: &mut fmt::Formatter<'_>) -> fmt::Result {
        match self {
            Failure::Refused(reason) => {
                write!(formatter, "refused with {}: {reason}", reason.number())
            }
            Failure::Usage(message) => {
                write!(formatter, "gordzila: {message}; see `gordzila --help`")
            }
            Failure::Trouble(message) => write!(formatter, "gordzila: {message}"),
        }
    }
}
