//! Links the library's archive.

use std::env;
use std::fs;
use std::path::{Path, PathBuf};

/// Where `make library` leaves the archive, seen from this package, unless
/// GORDZILA_ARCHIVE names another.
const ARCHIVE: &str = "../../../target/staticlib/libcapi.a";

fn main() {
    println!("cargo:rerun-if-changed=build.rs");
    let archive = archive();
    println!("cargo:rerun-if-changed={}", archive.display());
    link_copy(&archive, &PathBuf::from(variable("OUT_DIR")));
}

fn archive() -> PathBuf {
    println!("cargo:rerun-if-env-changed=GORDZILA_ARCHIVE");
    match env::var_os("GORDZILA_ARCHIVE") {
        Some(named) => PathBuf::from(named),
        None => Path::new(&variable("CARGO_MANIFEST_DIR")).join(ARCHIVE),
    }
}

/// Links a copy of the archive, so that its name and place do not matter.
fn link_copy(archive: &Path, out: &Path) {
    let bytes = fs::read(archive).unwrap_or_else(|error| {
        panic!(
            "{}: {error}; run `make library` first, or let GORDZILA_ARCHIVE name the archive",
            archive.display()
        )
    });
    fs::write(out.join("libgordzila.a"), bytes).expect("the archive can be copied");
    println!("cargo:rustc-link-search=native={}", out.display());
    println!("cargo:rustc-link-lib=static=gordzila");
}

/// What cargo sets.
fn variable(name: &str) -> String {
    env::var(name).unwrap_or_else(|error| panic!("{name}: {error}"))
}
