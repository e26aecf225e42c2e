//! Printing what a subcommand did.

use crate::failure::Failure;
use std::io::{self, Write};

/// What a subcommand did, with the text that says so.
pub enum Done {
    /// It found something out, and changed nothing.
    Told(String),
    /// It changed a file, which stays so if the text gets lost.
    Changed(String),
}

/// Prints the text to standard output. Where it cannot be written, the failure says
/// whether a change is made.
pub fn print(done: Done) -> Result<(), Failure> {
    let (text, rest) = match done {
        Done::Told(text) => (text, ""),
        Done::Changed(text) => (text, ", but the change is made"),
    };
    let mut out = io::stdout();
    out.write_all(text.as_bytes())
        .and_then(|()| out.flush())
        .map_err(|error| Failure::Trouble(format!("standard output: {error}{rest}")))
}
