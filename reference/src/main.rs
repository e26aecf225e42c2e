//! Prints vectors of the reference implementation as plain text on standard
//! output. What each subcommand prints, and the order in which it draws its
//! inputs, stands at the top of `vectors.rs`, `routes.rs`, `grants.rs`, `zero.rs`,
//! `answers.rs`, `right_answers.rs`, `page_answers.rs` and `zero_answers.rs` and in
//! README.md.

#![forbid(unsafe_code)]

use std::ffi::OsString;
use std::io::{self, Write};
use std::process::ExitCode;

use curupira_reference::error::Error;
use curupira_reference::{answers, grants, routes, vectors, zero};

const USAGE: &str =
    "usage: reference sbox|layers|rounds|blocks|stages|constants|routes|grants|pages|zero|answers";

/// Exit status for bad usage.
const BAD_USAGE: u8 = 2;

/// Exit status if the vectors cannot be made or written.
const FAILURE: u8 = 1;

fn main() -> ExitCode {
    let arguments: Vec<OsString> = std::env::args_os().skip(1).collect();
    match subcommand(&arguments) {
        Some(make_text) => print(make_text()),
        None => {
            eprintln!("{}", USAGE);
            ExitCode::from(BAD_USAGE)
        }
    }
}

/// What makes the text of the subcommand, if there is exactly one argument and
/// it names one.
fn subcommand(arguments: &[OsString]) -> Option<fn() -> Result<String, Error>> {
    match arguments {
        [name] => match name.to_str()? {
            "sbox" => Some(|| Ok(vectors::sbox_text())),
            "layers" => Some(|| Ok(vectors::layers_text())),
            "rounds" => Some(vectors::rounds_text),
            "blocks" => Some(vectors::blocks_text),
            "stages" => Some(vectors::stages_text),
            "constants" => Some(vectors::constants_text),
            "routes" => Some(routes::routes_text),
            "grants" => Some(grants::grants_text),
            "pages" => Some(vectors::pages_text),
            "zero" => Some(zero::zero_text),
            "answers" => Some(answers::answers_text),
            _ => None,
        },
        _ => None,
    }
}

/// Writes the text, or says on standard error why there is none.
fn print(text: Result<String, Error>) -> ExitCode {
    let written = match text {
        Ok(text) => write(&text).map_err(|error| error.to_string()),
        Err(error) => Err(error.to_string()),
    };
    match written {
        Ok(()) => ExitCode::SUCCESS,
        Err(message) => {
            eprintln!("reference: {}", message);
            ExitCode::from(FAILURE)
        }
    }
}

/// Writes the text to standard output.
fn write(text: &str) -> io::Result<()> {
    let mut out = io::stdout();
    out.write_all(text.as_bytes())?;
    out.flush()
}
