//! Tests of the wrapper against the header and against what the independent program
//! printed.

mod block_zero;
mod header;
mod highest;
mod holder_refusals;
mod holders;
mod lives;
mod pages;
mod queues;
mod readers;
mod refusals;
mod rights;
mod routes;
mod vectors;
mod zero;

use gordzila::SizeBlock;
use std::fs;
use std::path::Path;

/// A file of the repository.
fn repository_file(name: &str) -> String {
    let path = Path::new(env!("CARGO_MANIFEST_DIR"))
        .join("../../..")
        .join(name);
    fs::read_to_string(&path).unwrap_or_else(|error| panic!("{}: {error}", path.display()))
}

/// The bytes of hexadecimal digits.
fn bytes_of(digits: &str) -> Vec<u8> {
    assert!(digits.is_ascii() && digits.len() % 2 == 0, "{digits}");
    (0..digits.len())
        .step_by(2)
        .map(|at| u8::from_str_radix(&digits[at..at + 2], 16).unwrap())
        .collect()
}

/// The hexadecimal digits of bytes.
fn digits_of(bytes: &[u8]) -> String {
    bytes.iter().map(|byte| format!("{byte:02x}")).collect()
}

/// The 12 bytes of hexadecimal digits.
fn block_of(digits: &str) -> [u8; 12] {
    bytes_of(digits).try_into().unwrap()
}

fn number_of(digits: &str) -> u32 {
    digits.parse().unwrap()
}

/// The size block with a number that is not 0.
const fn block(number: u32) -> SizeBlock {
    match SizeBlock::new(number) {
        Some(block) => block,
        None => panic!("0 is no size block"),
    }
}
