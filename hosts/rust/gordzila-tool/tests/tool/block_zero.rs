//! Size block 0: what a user of the tool sees of it, and the calls about it in the stored
//! output of the independent program. reference/README.md says what the lines of `zero` are.
//! The old grants and the old pages are those that it prints: no call makes them any more.

use crate::running::{on_roll, run, Room, Run, KEY, OTHER_KEY};
use std::fs;
use std::path::{Path, PathBuf};

/// How many lines a life has.
const LINES: usize = 33;

/// Which lives are lived: one of each key length. The wrapper's tests have them all.
const LIVES: [usize; 3] = [0, 2, 6];

/// The bytes of hexadecimal digits.
fn bytes_of(digits: &str) -> Vec<u8> {
    (0..digits.len())
        .step_by(2)
        .map(|at| u8::from_str_radix(&digits[at..at + 2], 16).unwrap())
        .collect()
}

fn digits_of(bytes: &[u8]) -> String {
    bytes.iter().map(|byte| format!("{byte:02x}")).collect()
}

/// The words of a line, some of which are names of files.
fn words(line: &str) -> Run {
    run(&line.split_whitespace().collect::<Vec<_>>())
}

#[test]
fn a_blank_form_is_refused_in_these_words() {
    let room = Room::new("blank");
    let roll = room.roll(&[(7, 1)]);
    let (grants, payload) = (room.file("grants", KEY.as_bytes()), room.file("panel", b""));
    let (before, page) = (fs::read(&roll).unwrap(), room.path("page"));
    let key = format!("--key {KEY} --rounds 10 --block 0 --right 2");
    let keys = format!("--first-key {KEY} --second-key {OTHER_KEY} --rounds 10 --block 0");
    let files = [&grants, &payload, &page].map(|path| path.to_str().unwrap());
    let [grants, payload, page] = files;
    for run in [
        on_roll("issue", &roll, &format!("{key} --contractor 7")),
        on_roll("check", &roll, &format!("{key} --grant {KEY}")),
        on_roll("queue", &roll, &format!("{key} --grants {grants}")),
        words(&format!(
            "seal {keys} --page-number 4 --payload {payload} --page {page}"
        )),
    ] {
        assert_eq!((run.status, &run.out[..]), (Some(1), ""), "{run:?}");
        assert_eq!(run.err, "refused with 14: size block number 0 asked for\n");
    }
    assert_eq!(fs::read(&roll).unwrap(), before);
    assert_eq!(room.names(), ["grants", "panel", "roll"]);
}

/// Every way to write 0 is 0, and numbers with bytes of 0 in them are not.
#[test]
fn only_0_is_size_block_0() {
    let room = Room::new("not-blank");
    let roll = room.roll(&[(7, 1)]);
    let asked = |block: &str| format!("--key {KEY} --rounds 10 --block {block} --right 2");
    for block in ["0", "00", "0000000000000"] {
        let issued = on_roll("issue", &roll, &format!("{} --contractor 7", asked(block)));
        assert_eq!(issued.refused(), 14, "{block}");
    }
    for block in ["1", "01", "256", "65536", "16777216", "4294967295"] {
        let issued = on_roll("issue", &roll, &format!("{} --contractor 7", asked(block)));
        let check = |asked| {
            let options = format!("{asked} --grant {}", issued.out.trim_end());
            on_roll("check", &roll, &options)
        };
        assert_eq!(
            check(asked(block)).done(),
            "opens: contractor 7, overwriting\n"
        );
        assert_eq!(check(asked("0")).refused(), 14);
    }
}

/// The keys, rounds, contractor and page number of a life, its roll, its grants and pages,
/// and the payload that it seals. What is old has the first place, what is new the second.
struct Life<'a> {
    keys: [&'a str; 2],
    rounds: &'a str,
    contractor: &'a str,
    page_number: &'a str,
    room: Room,
    roll: PathBuf,
    grants: [String; 2],
}

#[test]
fn size_block_0_is_as_with_the_independent_program() {
    let stored = Path::new(env!("CARGO_MANIFEST_DIR")).join("../../c/zero.log");
    let text = fs::read_to_string(stored).unwrap();
    let lines: Vec<&str> = text.lines().collect();
    for number in LIVES {
        let lines = &lines[LINES * number..LINES * (number + 1)];
        let payload = lines[LINES - 1].rsplit_once(' ').unwrap().1;
        let mut life = Life::new(lines[0], payload, Room::new(&format!("zero-{number}")));
        for line in &lines[1..] {
            assert_eq!(life.again(line), *line, "{}", lines[0]);
        }
        // These by the rules, and not by what is stored: the old grant of someone in its
        // standing, asked for 0 and for the size block of the new one, and the old page.
        assert!(lines[8].starts_with("check old 0 ") && lines[8].ends_with(" 14 0 0"));
        assert!(lines[9].starts_with("check old ") && lines[9].ends_with(" 9 0 0"));
        assert!(lines[31].starts_with("open old 0 0 "), "{}", lines[31]);
    }
}

impl<'a> Life<'a> {
    /// From its first line and the 492 bytes that its pages open to.
    fn new(line: &'a str, opened: &str, room: Room) -> Life<'a> {
        let fields: Vec<&str> = line.split(' ').collect();
        let used: usize = fields[8].parse().unwrap();
        let roll = room.path("roll");
        on_roll("roll make", &roll, "").done();
        room.file("payload", &bytes_of(opened)[..used]);
        Life {
            keys: [fields[1], fields[2]],
            rounds: fields[3],
            contractor: fields[4],
            page_number: fields[7],
            room,
            roll,
            grants: [String::new(), String::new()],
        }
    }

    /// The line with what the tool makes of the calls that it tells of.
    fn again(&mut self, line: &str) -> String {
        let fields: Vec<&str> = line.split(' ').collect();
        match fields[..] {
            ["old", grant] => {
                self.grants[0] = grant.to_string();
                line.to_string()
            }
            ["oldpage", page] => {
                self.room.file("old", &bytes_of(page));
                line.to_string()
            }
            ["enter" | "right", highest, _] => {
                let options = format!("--contractor {} --right {highest}", self.contractor);
                let run = on_roll(fields[0], &self.roll, &options);
                format!("{} {highest} {}", fields[0], number(run))
            }
            ["withdraw", _] => {
                let options = format!("--contractor {}", self.contractor);
                let run = on_roll("withdraw", &self.roll, &options);
                format!("withdraw {}", number(run))
            }
            ["issue", size, asked, ..] => self.issue(size, asked),
            ["check", of, size, asked, ..] => self.check(of, size, asked),
            ["queue", size, asked, ..] => self.queue(size, asked),
            ["entry", ..] => self.entry(),
            ["seal", size, ..] => self.seal(size),
            ["open", of, ..] => self.open(of),
            _ => panic!("{line}"),
        }
    }

    /// Options of the calls on a grant.
    fn asked(&self, size: &str, asked: &str) -> String {
        let (key, rounds) = (self.keys[0], self.rounds);
        format!("--key {key} --rounds {rounds} --block {size} --right {asked}")
    }

    /// The name of a file of the life.
    fn file(&self, name: &str) -> String {
        self.room.path(name).to_str().unwrap().to_string()
    }

    /// A grant that is issued is the new one.
    fn issue(&mut self, size: &str, asked: &str) -> String {
        let options = format!(
            "{} --contractor {}",
            self.asked(size, asked),
            self.contractor
        );
        let run = on_roll("issue", &self.roll, &options);
        match run.status {
            Some(0) => {
                self.grants[1] = run.done().trim_end().to_string();
                format!("issue {size} {asked} 0 {}", self.grants[1])
            }
            _ => format!("issue {size} {asked} {}", run.refused()),
        }
    }

    fn check(&self, of: &str, size: &str, asked: &str) -> String {
        let grant = &self.grants[usize::from(of == "new")];
        let options = format!("{} --grant {grant}", self.asked(size, asked));
        let run = on_roll("check", &self.roll, &options);
        let told = match run.status {
            Some(0) => {
                let right = ["reading", "overwriting"][usize::from(asked == "2")];
                let opens = format!("opens: contractor {}, {right}\n", self.contractor);
                assert_eq!(run.done(), opens);
                format!("0 {} {asked}", self.contractor)
            }
            _ => format!("{} 0 0", run.refused()),
        };
        format!("check {of} {size} {asked} {told}")
    }

    /// Where the queue is refused there is no verdict, and the bytes would stay 255.
    fn queue(&self, size: &str, asked: &str) -> String {
        let grants = self.room.file("grants", self.grants.join("\n").as_bytes());
        let files = format!("--grants {}", grants.display());
        let options = format!("{} {files}", self.asked(size, asked));
        let run = on_roll("queue", &self.roll, &options);
        let told = match run.status {
            Some(0) => {
                let verdicts = "1: refused with 9: grant for another size block\n2: opens\n";
                assert_eq!(run.done(), verdicts);
                "0 9 0".to_string()
            }
            _ => format!("{} 255 255", run.refused()),
        };
        format!("queue {size} {asked} {told}")
    }

    fn entry(&self) -> String {
        let listed = on_roll("roll list", &self.roll, "").done();
        let start = format!("contractor {}, count ", self.contractor);
        let rest = listed.trim_end().strip_prefix(&start).unwrap();
        let (count, right) = rest.split_once(", ").unwrap();
        let figure = 1 + usize::from(right == "overwriting");
        format!("entry {count} {figure}")
    }

    fn seal(&self, size: &str) -> String {
        let [first, second] = self.keys;
        let (rounds, number) = (self.rounds, self.page_number);
        let keys = format!("--first-key {first} --second-key {second} --rounds {rounds}");
        let numbers = format!("--block {size} --page-number {number}");
        let files = format!(
            "--payload {} --page {}",
            self.file("payload"),
            self.file("new")
        );
        let run = words(&format!("seal {keys} {numbers} {files}"));
        match run.status {
            Some(0) => {
                let told = self.told(size);
                assert_eq!(run.done(), format!("sealed: {told}"));
                let page = fs::read(self.file("new")).unwrap();
                format!("seal {size} 0 {}", digits_of(&page))
            }
            _ => format!("seal {size} {}", run.refused()),
        }
    }

    /// What is printed of a page of the life.
    fn told(&self, size: &str) -> String {
        let used = fs::read(self.file("payload")).unwrap().len();
        format!(
            "size block {size}, page {}, {used} bytes\n",
            self.page_number
        )
    }

    /// The payload is written without its unused bytes, which the line has.
    fn open(&self, of: &str) -> String {
        let [first, second] = self.keys;
        let keys = format!(
            "--first-key {first} --second-key {second} --rounds {}",
            self.rounds
        );
        let opened = self.file(&format!("{of}-opened"));
        let files = format!("--page {} --payload {opened}", self.file(of));
        let printed = words(&format!("open {keys} {files}")).done();
        let rest = printed.strip_prefix("opened: size block ").unwrap();
        let size = rest.split_once(',').unwrap().0;
        assert_eq!(printed, format!("opened: {}", self.told(size)));
        let mut payload = fs::read(opened).unwrap();
        let (number, used) = (self.page_number, payload.len());
        payload.resize(492, 0);
        format!("open {of} 0 {size} {number} {used} {}", digits_of(&payload))
    }
}

fn number(run: Run) -> u32 {
    match run.status {
        Some(0) => 0,
        _ => run.refused(),
    }
}
