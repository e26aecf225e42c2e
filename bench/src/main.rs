//! Times the proved library beside C baselines, the independent Rust program and
//! ciphers of libtomcrypt.
//!
//! All are first compared on pseudo-random inputs; nothing is timed unless they
//! agree.

mod agreement;
mod cases;
mod interface;
mod others;
mod page;
mod question;
mod table;
mod timing;
mod walk;

use std::env;
use std::fs;
use std::process::ExitCode;

/// The times that every implementation is sampled, if the command line does not
/// say otherwise.
const SAMPLES: usize = 301;

fn main() -> ExitCode {
    let mut arguments = env::args().skip(1);
    let samples = match (arguments.next(), arguments.next()) {
        (None, _) => Some(SAMPLES),
        (Some(count), None) => count.parse().ok().filter(|&count| count > 0),
        _ => None,
    };
    let Some(samples) = samples else {
        eprintln!("usage: gordzila-bench [SAMPLES]");
        return ExitCode::from(2);
    };
    describe();
    if let Err(difference) = agreement::check() {
        eprintln!("the implementations differ: {difference}");
        return ExitCode::FAILURE;
    }
    println!();
    table::print(samples);
    ExitCode::SUCCESS
}

/// Prints what the figures depend on.
fn describe() {
    let lines = [
        ("machine", machine()),
        ("library", env!("BENCH_LIBRARY").to_string()),
        #[cfg(bench_before)]
        ("library before", env!("BENCH_LIBRARY_BEFORE").to_string()),
        ("plain C", env!("BENCH_PLAIN_C").to_string()),
        ("plain C, no SLP", env!("BENCH_PLAIN_SCALAR").to_string()),
        ("plain C, words", env!("BENCH_PLAIN_WORDS").to_string()),
        ("plain C, clang", env!("BENCH_PLAIN_CLANG").to_string()),
        (
            "plain C, words, clang",
            env!("BENCH_PLAIN_WORDS_CLANG").to_string(),
        ),
        ("table C", env!("BENCH_TABLE_C").to_string()),
        ("table C, no SLP", env!("BENCH_TABLE_SCALAR").to_string()),
        ("independent Rust", env!("BENCH_INDEPENDENT").to_string()),
        ("libtomcrypt", others::version()),
    ];
    for (name, text) in lines {
        println!("{name:<23}{text}");
    }
}

fn machine() -> String {
    let text = fs::read_to_string("/proc/cpuinfo").unwrap_or_default();
    text.lines()
        .find_map(|line| line.strip_prefix("model name"))
        .and_then(|rest| rest.split_once(':'))
        .map_or_else(
            || "unknown".to_string(),
            |(_, name)| name.trim().to_string(),
        )
}
