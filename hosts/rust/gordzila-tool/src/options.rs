//! The options of a subcommand, and their values.

use crate::failure::Failure;
use crate::input::STANDARD_INPUT;
use crate::{grants, hex, pages, rolls};
use gordzila::{Right, Roll};
use std::ffi::{OsStr, OsString};
use std::fs::File;
use std::io::{self, Read};
use std::path::Path;

pub const KEY: &str = "--key";
pub const KEY_FILE: &str = "--key-file";
pub const FIRST_KEY: &str = "--first-key";
pub const FIRST_KEY_FILE: &str = "--first-key-file";
pub const SECOND_KEY: &str = "--second-key";
pub const SECOND_KEY_FILE: &str = "--second-key-file";
pub const ROUNDS: &str = "--rounds";
pub const ROLL: &str = "--roll";
pub const CONTRACTOR: &str = "--contractor";
pub const BLOCK: &str = "--block";
pub const RIGHT: &str = "--right";
pub const GRANT: &str = "--grant";
pub const GRANTS: &str = "--grants";
pub const PAGE_NUMBER: &str = "--page-number";
pub const PAYLOAD: &str = "--payload";
pub const PAGE: &str = "--page";
pub const STAGE: &str = "--stage";
pub const FROM: &str = "--from";
pub const TO: &str = "--to";

/// The longest key file that is read. A key has 48 digits at most; no limit would let a
/// file without end fill the memory.
const LONGEST_KEY_FILE: u64 = 4096;

/// The options that were given, each at most once, with their values.
pub struct Options {
    given: Vec<(&'static str, OsString)>,
}

impl Options {
    /// Reads words as options with values, in any order. Only the allowed options may
    /// occur.
    pub fn parse(words: &[OsString], allowed: &[&'static str]) -> Result<Options, Failure> {
        let mut options = Options { given: Vec::new() };
        let mut words = words.iter();
        while let Some(word) = words.next() {
            let name = allowed_name(word, allowed)?;
            if options.find(name).is_some() {
                return Err(Failure::usage(format!("{name} is given twice")));
            }
            let value = words
                .next()
                .filter(|value| !value.to_string_lossy().starts_with("--"))
                .ok_or_else(|| Failure::usage(format!("{name} needs a value")))?;
            options.given.push((name, value.clone()));
        }
        Ok(options)
    }

    /// The number that an option gives.
    pub fn number(&self, name: &str) -> Result<u32, Failure> {
        number_of(name, self.value(name)?)
    }

    /// The number of a page.
    pub fn page_number(&self) -> Result<u16, Failure> {
        let above = |_| wrong(PAGE_NUMBER, &format!("a number above {}", u16::MAX));
        self.number(PAGE_NUMBER)?.try_into().map_err(above)
    }

    /// The bytes that an option gives by hexadecimal digits.
    pub fn bytes(&self, name: &str) -> Result<Vec<u8>, Failure> {
        let digits = self.value(name)?.to_string_lossy();
        hex::bytes_of(digits.as_bytes()).map_err(|why| wrong(name, &why))
    }

    /// The number of the right. A number that is no right goes on to the library,
    /// which refuses it.
    pub fn right(&self) -> Result<u32, Failure> {
        let value = self.value(RIGHT)?;
        let named = [Right::Reading, Right::Overwriting]
            .into_iter()
            .find(|right| value.to_str() == Some(&right.to_string()));
        match named {
            Some(right) => Ok(right.number()),
            None => number_of(RIGHT, value)
                .map_err(|_| wrong(RIGHT, "not `reading`, `overwriting`, 1 or 2")),
        }
    }

    /// The key, from the command line or from a file.
    pub fn key(&self) -> Result<Vec<u8>, Failure> {
        self.key_by(KEY, KEY_FILE)
    }

    /// The two keys of pages, each likewise.
    pub fn page_keys(&self) -> Result<[Vec<u8>; 2], Failure> {
        Ok([
            self.key_by(FIRST_KEY, FIRST_KEY_FILE)?,
            self.key_by(SECOND_KEY, SECOND_KEY_FILE)?,
        ])
    }

    /// The key that one of two options gives: by digits, or by the name of a file.
    fn key_by(&self, digits: &str, file: &str) -> Result<Vec<u8>, Failure> {
        match (self.find(digits), self.find(file)) {
            (Some(_), None) => self.bytes(digits),
            (None, Some(path)) => key_in(file, Path::new(path)),
            (Some(_), Some(_)) => Err(Failure::usage(format!(
                "{digits} and {file} are given, and only one may be"
            ))),
            (None, None) => Err(Failure::usage(format!("{digits} or {file} is missing"))),
        }
    }

    /// The roll in the file that the option names.
    pub fn roll(&self) -> Result<Roll, Failure> {
        rolls::read(self.roll_path()?)
    }

    /// The bytes of the grants in the file that the option names, or on standard input.
    pub fn grants(&self) -> Result<Vec<u8>, Failure> {
        grants::read(self.value(GRANTS)?)
    }

    /// The payload in the file that the option names, or on standard input.
    pub fn payload(&self) -> Result<Vec<u8>, Failure> {
        pages::read_payload(self.value(PAYLOAD)?)
    }

    /// The page in the file that the option names, or on standard input.
    pub fn page(&self) -> Result<Vec<u8>, Failure> {
        pages::read_page(self.value(PAGE)?)
    }

    /// The name of a file that is to be written. Standard output has the line that is
    /// printed, and so cannot have the bytes.
    pub fn new_file(&self, name: &str) -> Result<&Path, Failure> {
        match self.value(name)? {
            value if value == STANDARD_INPUT => {
                Err(wrong(name, "not to standard output; name a new file"))
            }
            value => Ok(Path::new(value)),
        }
    }

    /// The name of the roll's file.
    pub fn roll_path(&self) -> Result<&Path, Failure> {
        self.value(ROLL).map(Path::new)
    }

    fn value(&self, name: &str) -> Result<&OsStr, Failure> {
        self.find(name)
            .ok_or_else(|| Failure::usage(format!("{name} is missing")))
    }

    fn find(&self, name: &str) -> Option<&OsStr> {
        self.given
            .iter()
            .find(|(given, _)| *given == name)
            .map(|(_, value)| value.as_os_str())
    }
}

/// The allowed option that a word is. The message leaves out what may stand after `=`,
/// because it may be a key.
fn allowed_name(word: &OsStr, allowed: &[&'static str]) -> Result<&'static str, Failure> {
    let found = allowed.iter().find(|name| word == OsStr::new(name));
    found.copied().ok_or_else(|| {
        let word = word.to_string_lossy();
        let name = word.split('=').next().unwrap_or_default();
        Failure::usage(if name == word {
            format!("`{name}` is no option of this subcommand")
        } else {
            format!("`{name}=` is no option; a value is a word of its own")
        })
    })
}

/// A decimal number. Nothing is cut: what a call cannot take is an error here.
fn number_of(name: &str, value: &OsStr) -> Result<u32, Failure> {
    let digits = value.to_string_lossy();
    if digits.is_empty() || !digits.bytes().all(|digit| digit.is_ascii_digit()) {
        return Err(wrong(name, "not a decimal number"));
    }
    digits
        .parse()
        .map_err(|_| wrong(name, &format!("a number above {}", u32::MAX)))
}

fn key_in(option: &str, path: &Path) -> Result<Vec<u8>, Failure> {
    let text = text_in(path).map_err(|error| Failure::file(option, path, error))?;
    if text.len() as u64 > LONGEST_KEY_FILE {
        return Err(Failure::file(option, path, "too long for a key"));
    }
    hex::bytes_of(trimmed(&text)).map_err(|why| Failure::file(option, path, why))
}

/// A file's bytes, and one more than the limit at most.
fn text_in(path: &Path) -> io::Result<Vec<u8>> {
    let mut text = Vec::new();
    File::open(path)?
        .take(LONGEST_KEY_FILE + 1)
        .read_to_end(&mut text)?;
    Ok(text)
}

/// A text without the white space around it.
pub fn trimmed(text: &[u8]) -> &[u8] {
    let is_mark = |byte: &u8| !byte.is_ascii_whitespace();
    let start = text.iter().position(is_mark).unwrap_or(text.len());
    let end = text
        .iter()
        .rposition(is_mark)
        .map_or(start, |last| last + 1);
    &text[start..end]
}

fn wrong(name: &str, why: &str) -> Failure {
    Failure::usage(format!("{name}: {why}"))
}

#[cfg(test)]
mod tests {
    use super::{number_of, trimmed, Options, BLOCK, RIGHT};
    use std::ffi::{OsStr, OsString};

    fn parse(words: &[&str]) -> Option<Options> {
        let words: Vec<OsString> = words.iter().map(OsString::from).collect();
        Options::parse(&words, &[BLOCK, RIGHT]).ok()
    }

    #[test]
    fn options_stand_in_any_order() {
        for words in [
            ["--block", "5", "--right", "reading"],
            ["--right", "1", "--block", "5"],
        ] {
            let options = parse(&words).unwrap();
            assert_eq!(options.number(BLOCK).unwrap(), 5);
            assert_eq!(options.right().unwrap(), 1);
        }
    }

    #[test]
    fn unknown_repeated_and_valueless_options_are_refused() {
        for words in [
            &["--key", "00"][..],
            &["--block=5"],
            &["block", "5"],
            &["--block"],
            &["--block", "--right"],
            &["--block", "5", "--block", "5"],
            &[""],
        ] {
            assert!(parse(words).is_none(), "{words:?}");
        }
    }

    #[test]
    fn numbers_are_decimal_and_not_cut() {
        let number = |text: &str| number_of(BLOCK, OsStr::new(text)).ok();
        assert_eq!(number("0"), Some(0));
        assert_eq!(number("007"), Some(7));
        assert_eq!(number("4294967295"), Some(u32::MAX));
        for wrong in [
            "4294967296",
            "99999999999999999999",
            "-1",
            "+1",
            "",
            " 1",
            "0x1",
            "1e3",
        ] {
            assert_eq!(number(wrong), None, "{wrong}");
        }
    }

    #[test]
    fn a_right_is_a_word_or_a_number() {
        let right = |text: &str| parse(&["--right", text]).unwrap().right().ok();
        assert_eq!(right("reading"), Some(1));
        assert_eq!(right("overwriting"), Some(2));
        assert_eq!(right("2"), Some(2));
        assert_eq!(right("3"), Some(3));
        for wrong in ["Reading", "read", "", "4294967297"] {
            assert_eq!(right(wrong), None, "{wrong}");
        }
    }

    #[test]
    fn white_space_around_a_key_is_left_out() {
        assert_eq!(trimmed(b" \t00 11\r\n"), b"00 11");
        assert_eq!(trimmed(b"0011"), b"0011");
        assert_eq!(trimmed(b" \n"), b"");
        assert_eq!(trimmed(b""), b"");
    }
}
