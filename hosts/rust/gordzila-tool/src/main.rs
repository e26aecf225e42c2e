//! A command-line tool over the proved access-control library, for those who test and
//! support the store. It has no rule of its own: it reads options and files, makes its
//! calls, and prints what they answer.

#![deny(unsafe_code)]

mod commands;
mod failure;
mod grants;
mod help;
mod hex;
mod input;
mod lock;
mod options;
mod pages;
mod printing;
mod replace;
mod rolls;

use failure::{Answer, Failure};
use printing::{print, Done};
use std::env;
use std::ffi::OsString;
use std::io::{self, Write};
use std::process::ExitCode;

fn main() -> ExitCode {
    let words: Vec<OsString> = env::args_os().skip(1).collect();
    match done(&words).and_then(print) {
        Ok(()) => ExitCode::SUCCESS,
        Err(failure) => {
            // If standard error is closed too, the exit status still tells.
            let _ = writeln!(io::stderr(), "{failure}");
            ExitCode::from(failure.status())
        }
    }
}

/// Does what the words after the tool's name ask for.
fn done(words: &[OsString]) -> Result<Done, Failure> {
    let (first, rest) = words
        .split_first()
        .ok_or_else(|| Failure::usage("a subcommand is missing"))?;
    match first.to_str() {
        Some("help" | "--help") => help::wanted(rest).map(Done::Told),
        Some("--version") => version(rest).map(Done::Told),
        _ => commands::run(first, rest),
    }
}

fn version(rest: &[OsString]) -> Answer {
    if !rest.is_empty() {
        return Err(Failure::usage("--version stands alone"));
    }
    Ok(format!("gordzila {}\n", env!("CARGO_PKG_VERSION")))
}
