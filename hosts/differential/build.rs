//! Says which archive the cases are run on. The Rust wrapper links it.

use std::env;
use std::fs;

/// Where `make library` leaves the archive, seen from this directory, unless
/// GORDZILA_ARCHIVE names another.
const ARCHIVE: &str = "../../target/staticlib/libcapi.a";

/// Hands the archive's length and checksum on to the program.
fn main() {
    println!("cargo:rerun-if-changed=build.rs");
    println!("cargo:rerun-if-env-changed=GORDZILA_ARCHIVE");
    let archive = env::var("GORDZILA_ARCHIVE").unwrap_or_else(|_| ARCHIVE.to_string());
    println!("cargo:rerun-if-changed={archive}");
    let bytes = fs::read(&archive).unwrap_or_else(|error| {
        panic!("{archive}: {error}; `make library` makes the archive, or set GORDZILA_ARCHIVE")
    });
    let (length, checksum) = (bytes.len(), fnv_1a(&bytes));
    println!(
        "cargo:rustc-env=DIFFERENTIAL_ARCHIVE=archive of {length} bytes, FNV-1a {checksum:016x}"
    );
}

/// A 64-bit checksum, to tell which archive a table was made with.
fn fnv_1a(bytes: &[u8]) -> u64 {
    bytes.iter().fold(0xcbf2_9ce4_8422_2325, |hash, &byte| {
        (hash ^ u64::from(byte)).wrapping_mul(0x0100_0000_01b3)
    })
}
