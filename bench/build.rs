//! Compiles the C baselines, and links them, the library's archive, that of an
//! earlier version, if one is named, and, if it is installed, libtomcrypt.

use std::env;
use std::fs;
use std::path::{Path, PathBuf};
use std::process::{Command, Stdio};

/// Where `make library` leaves the archive, seen from this directory, unless
/// GORDZILA_ARCHIVE names another.
const ARCHIVE: &str = "../target/staticlib/libcapi.a";

/// The compiler of the baselines, unless BENCH_CC names another.
const CC: &str = "gcc";

/// Its flags, unless BENCH_CFLAGS gives others. The instruction set is the one
/// that the archive is made for.
const CFLAGS: &str = "-O3 -march=x86-64";

/// The other compiler, for two more rows.
const CLANG: &str = "clang";

/// Keeps gcc from gathering the bytes of a state into vectors.
const NO_VECTORS: &str = "-fno-tree-slp-vectorize";

/// Has plain.c do the diffusion a row of four columns in a word at a time.
const WORDS: &str = "-DWORDS";

/// The flags that do not change the code.
const STRICT: [&str; 5] = ["-std=c11", "-Wall", "-Wextra", "-Wpedantic", "-Werror"];

/// The C files, and what they include.
const SOURCES: [&str; 9] = [
    "baseline.h",
    "before.c",
    "build.rs",
    "calls.h",
    "closing.h",
    "others.c",
    "others.h",
    "plain.c",
    "table.c",
];

/// What stands in front of every name of an earlier version, as in before.c.
const BEFORE: &str = "before_";

/// What an archive may take from the C library.
const FROM_C: [&str; 4] = ["memcmp", "memcpy", "memmove", "memset"];

/// Files that come and go with what may be missing, so that an installation is
/// noticed.
const OPTIONAL: [&str; 2] = ["/usr/bin/clang", "/usr/include/tomcrypt.h"];

fn main() {
    let out = PathBuf::from(variable("OUT_DIR"));
    for file in SOURCES.into_iter().chain(OPTIONAL) {
        println!("cargo:rerun-if-changed={file}");
    }
    link_baselines(&out);
    link_clang(&out);
    link_others(&out);
    link_library(&out);
    link_before(&out);
    println!("cargo:rustc-link-search=native={}", out.display());
    hand_on("INDEPENDENT", &independent());
}

/// The baselines that are always there.
fn link_baselines(out: &Path) {
    let compiler = setting("BENCH_CC", CC);
    let flags = setting("BENCH_CFLAGS", CFLAGS);
    let scalar = format!("{flags} {NO_VECTORS}");
    let words = format!("{flags} {WORDS}");
    link_baseline(out, "plain_c", "plain.c", &compiler, &flags);
    link_baseline(out, "plain_scalar", "plain.c", &compiler, &scalar);
    link_baseline(out, "plain_words", "plain.c", &compiler, &words);
    link_baseline(out, "table_c", "table.c", &compiler, &flags);
    link_baseline(out, "table_scalar", "table.c", &compiler, &scalar);
}

/// The baselines that clang compiles, if it is installed. Without it, BENCH_PLAIN_CLANG
/// and BENCH_PLAIN_WORDS_CLANG say so.
fn link_clang(out: &Path) {
    println!("cargo:rustc-check-cfg=cfg(bench_clang)");
    if has_clang() {
        let flags = setting("BENCH_CFLAGS", CFLAGS);
        let words = format!("{flags} {WORDS}");
        link_baseline(out, "plain_clang", "plain.c", CLANG, &flags);
        link_baseline(out, "plain_words_clang", "plain.c", CLANG, &words);
        println!("cargo:rustc-cfg=bench_clang");
    } else {
        for name in ["PLAIN_CLANG", "PLAIN_WORDS_CLANG"] {
            hand_on(name, "clang is not installed: this row is left out");
        }
    }
}

/// The ciphers of libtomcrypt, if its header and its library are there.
fn link_others(out: &Path) {
    println!("cargo:rustc-check-cfg=cfg(bench_tomcrypt)");
    if has_tomcrypt(out) {
        compile(out, "others", "others.c", CC, CFLAGS);
        println!("cargo:rustc-link-lib=dylib=tomcrypt");
        println!("cargo:rustc-cfg=bench_tomcrypt");
    }
}

/// Compiles a file, as the baseline of this name.
fn link_baseline(out: &Path, name: &str, source: &str, compiler: &str, flags: &str) {
    let named = format!("{flags} -DBASELINE={name}");
    compile(out, name, source, compiler, &named);
    let shown = format!("{}, {flags}", version(compiler));
    hand_on(&name.to_uppercase(), &shown);
}

/// Compiles a file to an archive of its own, and links it.
fn compile(out: &Path, name: &str, source: &str, compiler: &str, flags: &str) {
    let object = out.join(format!("{name}.o"));
    run(Command::new(compiler)
        .args(STRICT)
        .args(flags.split_whitespace())
        .args(["-c", source, "-o"])
        .arg(&object));
    let archive = out.join(format!("lib{name}.a"));
    run(Command::new("ar").arg("crs").arg(archive).arg(object));
    println!("cargo:rustc-link-lib=static={name}");
}

fn has_clang() -> bool {
    quiet(Command::new(CLANG).arg("--version"))
}

/// Whether a program that includes tomcrypt.h can be linked to libtomcrypt.
fn has_tomcrypt(out: &Path) -> bool {
    let source = out.join("probe.c");
    let text = "#include <tomcrypt.h>\nint main(void) { return aes_desc.test(); }\n";
    fs::write(&source, text).expect("the probe can be written");
    quiet(
        Command::new(CC)
            .arg(&source)
            .arg("-o")
            .arg(out.join("probe"))
            .arg("-ltomcrypt"),
    )
}

/// Links a copy of the archive, so that its name and place do not matter.
fn link_library(out: &Path) {
    let archive = setting("GORDZILA_ARCHIVE", ARCHIVE);
    println!("cargo:rerun-if-changed={archive}");
    let bytes = fs::read(&archive).unwrap_or_else(|error| {
        panic!("{archive}: {error}; `make library` makes the archive, or set GORDZILA_ARCHIVE")
    });
    fs::write(out.join("libgordzila.a"), &bytes).expect("the archive can be copied");
    println!("cargo:rustc-link-lib=static=gordzila");
    hand_on("LIBRARY", &described(&bytes));
}

/// The archive of an earlier version, if GORDZILA_BEFORE names one, as a baseline.
fn link_before(out: &Path) {
    println!("cargo:rustc-check-cfg=cfg(bench_before)");
    let Some(archive) = given("GORDZILA_BEFORE") else {
        return;
    };
    println!("cargo:rerun-if-changed={archive}");
    let bytes = fs::read(&archive).unwrap_or_else(|error| {
        panic!("{archive}: {error}; GORDZILA_BEFORE has to name an earlier version's archive")
    });
    let copy = out.join("libgordzila_before.a");
    fs::write(&copy, &bytes).expect("the archive can be copied");
    rename(&copy);
    let named = format!("{CFLAGS} -DBASELINE=library_before");
    compile(out, "library_before", "before.c", CC, &named);
    println!("cargo:rustc-link-lib=static=gordzila_before");
    hand_on("LIBRARY_BEFORE", &described(&bytes));
    println!("cargo:rustc-cfg=bench_before");
}

/// Sets the prefix in front of every name in an archive, and takes it from those of the
/// C library again. In one run objcopy would look for these before it sets the prefix.
fn rename(archive: &Path) {
    let prefix = format!("--prefix-symbols={BEFORE}");
    run(Command::new("objcopy").arg(prefix).arg(archive));
    let back = FROM_C.map(|name| format!("--redefine-sym={BEFORE}{name}={name}"));
    run(Command::new("objcopy").args(back).arg(archive));
}

/// An archive by its length and its checksum.
fn described(archive: &[u8]) -> String {
    let (length, checksum) = (archive.len(), fnv_1a(archive));
    format!("archive of {length} bytes, FNV-1a {checksum:016x}")
}

/// A 64-bit checksum, to tell which archive a table was made with.
fn fnv_1a(bytes: &[u8]) -> u64 {
    bytes.iter().fold(0xcbf2_9ce4_8422_2325, |hash, &byte| {
        (hash ^ u64::from(byte)).wrapping_mul(0x0100_0000_01b3)
    })
}

/// What the independent program is compiled with.
fn independent() -> String {
    let compiler = version(&variable("RUSTC"));
    let level = variable("OPT_LEVEL");
    let extra = variable("CARGO_ENCODED_RUSTFLAGS").replace('\x1f', " ");
    format!("{compiler}, opt-level={level} {extra}")
        .trim_end()
        .to_string()
}

/// Makes a text known to the program as the environment variable BENCH_NAME.
fn hand_on(name: &str, value: &str) {
    println!("cargo:rustc-env=BENCH_{name}={value}");
}

/// What an environment variable of the user sets, or what holds without it.
fn setting(name: &str, default: &str) -> String {
    given(name).unwrap_or_else(|| default.to_string())
}

/// What an environment variable of the user sets, if it is there.
fn given(name: &str) -> Option<String> {
    println!("cargo:rerun-if-env-changed={name}");
    env::var(name).ok()
}

/// What cargo sets.
fn variable(name: &str) -> String {
    env::var(name).unwrap_or_else(|error| panic!("{name}: {error}"))
}

/// The first line that a compiler prints about itself.
fn version(compiler: &str) -> String {
    let output = Command::new(compiler)
        .arg("--version")
        .output()
        .unwrap_or_else(|error| panic!("{compiler}: {error}"));
    let text = String::from_utf8_lossy(&output.stdout);
    text.lines().next().unwrap_or("unknown").to_string()
}

/// Runs a command that may fail, without its output, and says whether it did well.
fn quiet(command: &mut Command) -> bool {
    let status = command.stdout(Stdio::null()).stderr(Stdio::null()).status();
    matches!(status, Ok(status) if status.success())
}

fn run(command: &mut Command) {
    let status = command
        .status()
        .unwrap_or_else(|error| panic!("{command:?}: {error}"));
    assert!(status.success(), "{command:?}: {status}");
}
