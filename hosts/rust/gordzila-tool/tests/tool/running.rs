//! What the tests share: running the tool, and a directory for each test.

use gordzila::{seal_page, PageKeys, SizeBlock};
use std::ffi::OsStr;
use std::fs::{self, File};
use std::io::Write;
use std::path::{Path, PathBuf};
use std::process::{self, Command, Output, Stdio};
use std::thread;

pub const TOOL: &str = env!("CARGO_BIN_EXE_gordzila");

/// A key of 12 bytes, for 10 or 11 rounds.
pub const KEY: &str = "000102030405060708090a0b";

/// Another key of 12 bytes.
pub const OTHER_KEY: &str = "0f1e2d3c4b5a69788796a5b4";

/// The two as keys of pages.
pub const PAGE_KEYS: PageKeys<'static> = PageKeys {
    first: &[0, 1, 2, 3, 4, 5, 6, 7, 8, 9, 10, 11],
    second: &[
        0x0f, 0x1e, 0x2d, 0x3c, 0x4b, 0x5a, 0x69, 0x78, 0x87, 0x96, 0xa5, 0xb4,
    ],
};

/// Page 4 of size block 300 under these keys with 10 rounds.
pub fn sealed(payload: &[u8]) -> [u8; 512] {
    let block = SizeBlock::new(300).unwrap();
    seal_page(PAGE_KEYS, 10, block, 4, payload).unwrap()
}

/// What a run of the tool came to.
#[derive(Debug, PartialEq, Eq)]
pub struct Run {
    pub status: Option<i32>,
    pub out: String,
    pub err: String,
}

impl From<Output> for Run {
    fn from(output: Output) -> Run {
        Run {
            status: output.status.code(),
            out: String::from_utf8(output.stdout).unwrap(),
            err: String::from_utf8(output.stderr).unwrap(),
        }
    }
}

impl Run {
    /// What it printed; it has to be done.
    #[track_caller]
    pub fn done(self) -> String {
        assert_eq!((self.status, self.err.as_str()), (Some(0), ""), "{self:?}");
        self.out
    }

    /// The number with which it was refused.
    #[track_caller]
    pub fn refused(self) -> u32 {
        assert_eq!((self.status, self.out.as_str()), (Some(1), ""), "{self:?}");
        let rest = self.err.strip_prefix("refused with ").unwrap();
        let (number, words) = rest.trim_end().split_once(": ").unwrap();
        let number = number.parse().unwrap();
        let reason = gordzila::Reason::from_number(number).unwrap();
        assert_eq!(words, reason.to_string());
        number
    }

    /// Sees that it ended with status 2 and a message that has these words.
    #[track_caller]
    pub fn stopped(self, words: &str) {
        assert_eq!((self.status, self.out.as_str()), (Some(2), ""), "{self:?}");
        assert!(self.err.starts_with("gordzila: "), "{self:?}");
        assert!(self.err.contains(words), "{words}: {self:?}");
        assert_eq!(self.err.lines().count(), 1, "{self:?}");
    }
}

/// Runs the tool with words.
pub fn run<S: AsRef<OsStr>>(words: &[S]) -> Run {
    Command::new(TOOL).args(words).output().unwrap().into()
}

/// Runs the tool with words and a text on standard input, which it may leave unread.
pub fn run_fed<S: AsRef<OsStr>>(words: &[S], text: &[u8]) -> Run {
    let mut command = Command::new(TOOL);
    command.args(words).stdin(Stdio::piped());
    let mut child = command
        .stdout(Stdio::piped())
        .stderr(Stdio::piped())
        .spawn()
        .unwrap();
    let mut input = child.stdin.take().unwrap();
    thread::scope(|scope| {
        scope.spawn(move || input.write_all(text));
        child.wait_with_output().unwrap().into()
    })
}

/// Runs the tool with words, where nothing can be written to standard output.
pub fn run_unheard<S: AsRef<OsStr>>(words: &[S]) -> Run {
    let full = File::options().write(true).open("/dev/full").unwrap();
    let output = Command::new(TOOL).args(words).stdout(full).output();
    output.unwrap().into()
}

/// Runs the tool with the words of a line.
pub fn line(line: &str) -> Run {
    run(&line.split_whitespace().collect::<Vec<_>>())
}

/// A new directory for one test, which goes with this.
pub struct Room(PathBuf);

impl Room {
    pub fn new(name: &str) -> Room {
        let path = Path::new(env!("CARGO_TARGET_TMPDIR")).join(format!("{name}-{}", process::id()));
        fs::create_dir_all(&path).unwrap();
        Room(path)
    }

    pub fn path(&self, name: &str) -> PathBuf {
        self.0.join(name)
    }

    /// A file with these bytes.
    pub fn file(&self, name: &str, bytes: &[u8]) -> PathBuf {
        let path = self.path(name);
        fs::write(&path, bytes).unwrap();
        path
    }

    /// A file with a roll of these contractors and counts. They may overwrite.
    pub fn roll(&self, counts: &[(usize, u16)]) -> PathBuf {
        let entries: Vec<(usize, u16, u8)> =
            counts.iter().map(|&(n, count)| (n, count, 2)).collect();
        self.roll_with(&entries)
    }

    /// A file with a roll of these contractors, counts and highest rights.
    pub fn roll_with(&self, entries: &[(usize, u16, u8)]) -> PathBuf {
        let mut bytes = empty_roll();
        for &(contractor, count, highest) in entries {
            put_count(&mut bytes, contractor, count);
            bytes[399 + contractor] = highest;
        }
        self.file("roll", &bytes)
    }

    /// A file with a roll of these contractors and counts, as it was before version 0.6.
    pub fn old_roll(&self, counts: &[(usize, u16)]) -> PathBuf {
        let mut bytes = [0; 400];
        for &(contractor, count) in counts {
            put_count(&mut bytes, contractor, count);
        }
        self.file("old", &bytes)
    }

    /// The names of the files in it, in order.
    pub fn names(&self) -> Vec<String> {
        let entries = fs::read_dir(&self.0).unwrap();
        let mut names: Vec<String> = entries
            .map(|entry| entry.unwrap().file_name().into_string().unwrap())
            .collect();
        names.sort();
        names
    }
}

impl Drop for Room {
    fn drop(&mut self) {
        let _ = fs::remove_dir_all(&self.0);
    }
}

/// The bytes of the empty roll: 200 counts of 0, two bytes each, and 200 rights of 1.
pub fn empty_roll() -> [u8; 600] {
    let mut bytes = [0; 600];
    bytes[400..].fill(1);
    bytes
}

fn put_count(roll: &mut [u8], contractor: usize, count: u16) {
    let at = 2 * (contractor - 1);
    roll[at..at + 2].copy_from_slice(&count.to_be_bytes());
}

/// Runs a subcommand with `--roll` and other options.
pub fn on_roll(subcommand: &str, roll: &Path, options: &str) -> Run {
    let mut words: Vec<&OsStr> = subcommand.split(' ').map(OsStr::new).collect();
    words.extend([OsStr::new("--roll"), roll.as_os_str()]);
    words.extend(options.split_whitespace().map(OsStr::new));
    run(&words)
}
