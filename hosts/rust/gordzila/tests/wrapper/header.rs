//! The header is what the wrapper has to agree with: a declaration that differs would
//! be undefined behaviour, and no compiler would say so.

use crate::repository_file;
use gordzila::{
    Reason, Right, BLOCK_BYTES, HOLDER_BYTES, OLD_ROLL_BYTES, PAGE_BYTES, PAYLOAD_BYTES,
    QUEUE_MOST_GRANTS, ROLL_BYTES, SCRATCH_BYTES, STAGE_BYTES,
};

const HEADER: &str = "include/gordzila.h";
const DECLARATIONS: &str = "hosts/rust/gordzila/src/sys.rs";

#[test]
fn the_reasons_have_the_numbers_and_words_of_the_header() {
    let header = repository_file(HEADER);
    let mut found = 0;
    for line in header.lines().filter(|line| line.ends_with("*/")) {
        if let Some((number, words)) = numbered(line) {
            let reason = Reason::from_number(number).unwrap();
            assert_eq!(reason.to_string(), words);
            found += 1;
        }
    }
    assert_eq!(found, Reason::ALL.len());
}

/// The number and the comment of a line `NAME = NUMBER, /* words */`.
fn numbered(line: &str) -> Option<(u32, &str)> {
    let (_, rest) = line.split_once(" = ")?;
    let (number, comment) = rest.split_once("/*")?;
    let number = number.trim().trim_end_matches(',').parse().ok()?;
    Some((number, comment.trim_end_matches("*/").trim()))
}

#[test]
fn the_rights_and_lengths_are_those_of_the_header() {
    let header = repository_file(HEADER);
    let (reading, overwriting) = (Right::Reading.number(), Right::Overwriting.number());
    let longest_queue = QUEUE_MOST_GRANTS * BLOCK_BYTES;
    for text in [
        format!("GORDZILA_READING = {reading}, GORDZILA_OVERWRITING = {overwriting}"),
        format!("GORDZILA_BLOCK_BYTES = {BLOCK_BYTES}, GORDZILA_GRANT_BYTES = {BLOCK_BYTES} }}"),
        format!("GORDZILA_ROLL_BYTES = {ROLL_BYTES},"),
        format!("GORDZILA_ROLL_COUNTS_BYTES = {OLD_ROLL_BYTES} }}"),
        format!("GORDZILA_STAGE_BYTES = {STAGE_BYTES}, GORDZILA_SUBKEY_BYTES = {BLOCK_BYTES},"),
        format!("GORDZILA_HOLDER_BYTES = {HOLDER_BYTES} }}"),
        format!("GORDZILA_QUEUE_MOST_GRANTS = {QUEUE_MOST_GRANTS},"),
        format!("GORDZILA_LONGEST_QUEUE_BYTES = {longest_queue} }}"),
        format!("GORDZILA_PAGE_BYTES = {PAGE_BYTES}, GORDZILA_PAYLOAD_BYTES = {PAYLOAD_BYTES},"),
        format!("GORDZILA_SCRATCH_BYTES = {SCRATCH_BYTES} }}"),
    ] {
        assert!(header.contains(&text), "{text}");
    }
}

/// The package has the version of the library. The header tells first of the newest changes
/// for hosts, which move the second number.
#[test]
fn the_version_is_that_of_the_library_and_of_the_newest_changes() {
    let version = env!("CARGO_PKG_VERSION");
    assert_eq!(repository_file("VERSION").trim_end(), version);
    let (minor, _) = version.rsplit_once('.').unwrap();
    let header = repository_file(HEADER);
    let (_, newest) = header.split_once("\n * Changes in ").unwrap();
    assert!(
        newest.starts_with(&format!("{minor}.0, for hosts")),
        "{minor}"
    );
}

#[test]
fn the_declarations_are_those_of_the_header() {
    let header = in_c(&repository_file(HEADER));
    let declared = in_rust(&repository_file(DECLARATIONS));
    assert_eq!(header.len(), 21);
    assert_eq!(declared, header);
}

/// Each function of the header as its name, its parameters and the bits that it returns,
/// written as in Rust.
fn in_c(text: &str) -> Vec<String> {
    let returning = text.split("\nuint").skip(1);
    returning
        .map(|rest| {
            let (bits, rest) = rest.split_once("_t gordzila_").unwrap();
            let (name, list, _) = parts(rest, ");");
            signature(name, list.split(',').map(parameter_in_c), bits)
        })
        .collect()
}

/// `const uint8_t *key` as `key: *const u8`, and so on.
fn parameter_in_c(parameter: &str) -> String {
    let parameter = in_one_line(parameter);
    for (c, rust) in [
        ("const uint8_t *", "*const u8"),
        ("uint8_t *", "*mut u8"),
        ("size_t ", "usize"),
        ("uint32_t ", "u32"),
        ("uint16_t ", "u16"),
    ] {
        if let Some(name) = parameter.strip_prefix(c) {
            return format!("{name}: {rust}");
        }
    }
    panic!("a parameter that the test does not know: {parameter}")
}

/// Each declared function as its name, its parameters and the bits that it returns,
/// wherever its lines break.
fn in_rust(text: &str) -> Vec<String> {
    let declared = text.split("\n    fn gordzila_").skip(1);
    declared
        .map(|rest| {
            let rest = in_one_line(rest);
            let (name, list, rest) = parts(&rest, ") -> u");
            let (bits, _) = rest.split_once(';').unwrap();
            let parameters = list.split(',').map(|one| one.trim().to_string());
            signature(name, parameters.filter(|one| !one.is_empty()), bits)
        })
        .collect()
}

/// A text with one space for all white space between two words.
pub fn in_one_line(text: &str) -> String {
    text.split_whitespace().collect::<Vec<_>>().join(" ")
}

/// The name and the parameter list of a function, by what stands after them, and the rest.
fn parts<'a>(text: &'a str, after: &str) -> (&'a str, &'a str, &'a str) {
    let (name, rest) = text.split_once('(').unwrap();
    let (list, rest) = rest.split_once(after).unwrap();
    (name, list, rest)
}

fn signature(name: &str, parameters: impl Iterator<Item = String>, bits: &str) -> String {
    let parameters: Vec<String> = parameters.collect();
    format!("{name}({}) -> u{bits}", parameters.join(", "))
}

/// What differs in a type alone has to be seen.
#[test]
fn a_declaration_that_differs_is_told_apart() {
    let header = "\nuint64_t gordzila_one(uint8_t *out, size_t out_length, uint16_t n);";
    let declared = "\n    fn gordzila_one(\n        out: *mut u8,\n        \
                    out_length: usize,\n        n: u16,\n    ) -> u64;";
    assert_eq!(
        in_c(header),
        ["one(out: *mut u8, out_length: usize, n: u16) -> u64"]
    );
    assert_eq!(in_rust(declared), in_c(header));
    for (from, to) in [("u64", "u32"), ("n: u16", "n: u32"), ("*mut", "*const")] {
        assert_ne!(in_rust(&declared.replace(from, to)), in_c(header), "{to}");
    }
}
