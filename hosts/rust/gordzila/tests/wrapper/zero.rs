//! The calls about size block 0, against the stored output of the independent program
//! (reference/README.md, `zero`). Old grants and old pages are those that it makes: no call
//! of the library makes them any more.

use crate::pages::{header, page_of};
use crate::{bytes_of, digits_of, number_of, repository_file};
use gordzila::{encipher, raw, Opened, PageKeys, Reason, Roll};

/// What the independent program prints for `zero`, and some of what it prints for `answers`.
const STORED: &str = "hosts/c/zero.log";

/// How many lives there are: one of each key length and round count.
const LIVES: usize = 12;

/// How many lines a life has.
const LINES: usize = 33;

/// What a life has to come to by the rules, after its first line: `CONTRACTOR`, `BLOCK` and
/// `RIGHT` stand for those of the life, and grants, pages and payloads are left out.
const BY_THE_RULES: &str = "\
old
issue 0 RIGHT 14
check old 0 RIGHT 14 0 0
check old BLOCK RIGHT 9 0 0
enter RIGHT 0
issue 0 RIGHT 14
issue BLOCK RIGHT 0
check old 0 RIGHT 14 0 0
check old BLOCK RIGHT 9 0 0
check new 0 RIGHT 14 0 0
check new BLOCK RIGHT 0 CONTRACTOR RIGHT
queue 0 RIGHT 14 255 255
queue BLOCK RIGHT 0 9 0
right 1 0
issue 0 2 14
check old 0 2 14 0 0
check old BLOCK 2 9 0 0
withdraw 0
issue 0 RIGHT 14
check old 0 RIGHT 14 0 0
check old BLOCK RIGHT 9 0 0
check new BLOCK RIGHT 20 0 0
enter RIGHT 0
check old 0 RIGHT 14 0 0
check old BLOCK RIGHT 9 0 0
check new BLOCK RIGHT 23 0 0
entry 3 RIGHT
seal 0 14
seal BLOCK 0
oldpage
open old 0 0 NUMBER USED
open new 0 BLOCK NUMBER USED
";

/// A life's keys, round count, contractor, right, page number and payload, its roll, and what
/// of its grants and pages is known so far.
struct Life {
    first: Vec<u8>,
    second: Vec<u8>,
    rounds: u32,
    contractor: u32,
    right: u8,
    page_number: u16,
    payload: Vec<u8>,
    roll: Roll,
    grants: [[u8; 12]; 2],
    pages: [Vec<u8>; 2],
}

/// The lines of the lives. Those after them are of other kinds, and are left to the host in C.
fn stored() -> Vec<String> {
    let text = repository_file(STORED);
    let mut lines: Vec<String> = text.lines().map(str::to_string).collect();
    let others = lines.split_off(LIVES * LINES);
    assert!(others.iter().all(|line| !line.starts_with("zero ")));
    lines
}

#[test]
fn size_block_0_is_as_with_the_independent_program() {
    for lines in stored().chunks(LINES) {
        let mut life = Life::new(&lines[0], lines[LINES - 1].rsplit_once(' ').unwrap().1);
        for line in &lines[1..] {
            assert_eq!(life.again(line), *line, "{}", lines[0]);
        }
    }
}

#[test]
fn the_lives_follow_the_rules() {
    for lines in stored().chunks(LINES) {
        let fields: Vec<&str> = lines[0].split(' ').collect();
        let expected = ["CONTRACTOR", "BLOCK", "RIGHT", "NUMBER", "USED"]
            .iter()
            .zip(&fields[4..])
            .fold(BY_THE_RULES.to_string(), |rules, (name, field)| {
                rules.replace(name, field)
            });
        let bare = lines[1..].iter().map(|line| without_bytes(line));
        assert!(bare.eq(expected.lines()), "{}", lines[0]);
    }
}

/// A line without the bytes that stand at the end of it, if some do.
fn without_bytes(line: &str) -> &str {
    match line.rsplit_once(' ') {
        Some((rest, last)) if last.len() >= 24 => rest,
        _ => line,
    }
}

/// Which of two a word names: `old` or `new`.
fn which(word: &str) -> usize {
    ["old", "new"]
        .iter()
        .position(|&name| name == word)
        .unwrap()
}

impl Life {
    /// From its first line and the 492 bytes that its pages open to.
    fn new(line: &str, opened: &str) -> Life {
        let fields: Vec<&str> = line.split(' ').collect();
        let used: usize = fields[8].parse().unwrap();
        Life {
            first: bytes_of(fields[1]),
            second: bytes_of(fields[2]),
            rounds: number_of(fields[3]),
            contractor: number_of(fields[4]),
            right: fields[6].parse().unwrap(),
            page_number: fields[7].parse().unwrap(),
            payload: bytes_of(opened)[..used].to_vec(),
            roll: Roll::empty(),
            grants: [[0; 12]; 2],
            pages: [vec![], vec![]],
        }
    }

    fn keys(&self) -> PageKeys<'_> {
        PageKeys {
            first: &self.first,
            second: &self.second,
        }
    }

    /// The line with what the calls that it tells of come to now.
    fn again(&mut self, line: &str) -> String {
        let fields: Vec<&str> = line.split(' ').collect();
        match fields[..] {
            ["old", _] => self.old_grant(),
            ["oldpage", _] => self.old_page(),
            ["enter", highest, _] => self.change("enter", highest, raw::enter_number),
            ["right", highest, _] => self.change("right", highest, raw::change_right_number),
            ["withdraw", _] => {
                let withdrawn = self.roll.withdraw(self.contractor);
                format!("withdraw {}", number(withdrawn))
            }
            ["issue", size, asked, ..] => self.issue(size, asked),
            ["check", of, size, asked, ..] => self.check(of, size, asked),
            ["queue", size, asked, ..] => self.queue(size, asked),
            ["entry", ..] => self.entry(),
            ["seal", size, ..] => self.seal(size),
            ["open", of, ..] => self.open(of),
            _ => panic!("{line}"),
        }
    }

    /// By the rule on plain bytes: to the contractor at count 1, for size block 0.
    fn old_grant(&mut self) -> String {
        let contractor = self.contractor as u8;
        let plain = [
            0, contractor, 0, 1, 0, 0, 0, 0, self.right, 0x47, 0x52, 0x44,
        ];
        self.grants[0] = encipher(&self.first, self.rounds, &plain).unwrap();
        format!("old {}", digits_of(&self.grants[0]))
    }

    /// By the rule on pages, for size block 0.
    fn old_page(&mut self) -> String {
        let header = header(0, self.page_number, self.payload.len() as u16);
        let page = page_of(self.keys(), self.rounds, header, &self.payload);
        self.pages[0] = page.to_vec();
        format!("oldpage {}", digits_of(&page))
    }

    fn change(
        &mut self,
        name: &str,
        highest: &str,
        call: fn(&mut [u8], u32, u32) -> u32,
    ) -> String {
        let mut bytes = *self.roll.bytes();
        let number = call(&mut bytes, self.contractor, number_of(highest));
        self.roll = Roll::from_bytes(&bytes).unwrap();
        format!("{name} {highest} {number}")
    }

    /// A grant that is issued is the new one.
    fn issue(&mut self, size: &str, asked: &str) -> String {
        let (block, right, mut grant) = (number_of(size), number_of(asked), [0; 12]);
        let (key, roll) = (&self.first, self.roll.bytes());
        match raw::issue(
            key,
            self.rounds,
            roll,
            self.contractor,
            block,
            right,
            &mut grant,
        ) {
            Ok(()) => {
                self.grants[1] = grant;
                format!("issue {size} {asked} 0 {}", digits_of(&grant))
            }
            Err(reason) => format!("issue {size} {asked} {}", reason.number()),
        }
    }

    fn check(&self, of: &str, size: &str, asked: &str) -> String {
        let (block, right, grant) = (number_of(size), number_of(asked), self.grants[which(of)]);
        let roll = self.roll.bytes();
        let told = match raw::check(&self.first, self.rounds, roll, &grant, block, right) {
            Ok(Opened { contractor, right }) => format!("0 {contractor} {}", right.number()),
            Err(reason) => format!("{} 0 0", reason.number()),
        };
        format!("check {of} {size} {asked} {told}")
    }

    fn queue(&self, size: &str, asked: &str) -> String {
        let (block, right, mut answers) = (number_of(size), number_of(asked), [255; 2]);
        let (grants, roll) = (self.grants.concat(), self.roll.bytes());
        let (key, rounds) = (&self.first, self.rounds);
        let number =
            raw::check_queue_number(key, rounds, roll, &grants, block, right, &mut answers);
        let [old, new] = answers;
        format!("queue {size} {asked} {number} {old} {new}")
    }

    fn entry(&self) -> String {
        let count = self.roll.count(self.contractor).unwrap();
        let highest = self.roll.highest_right(self.contractor).unwrap();
        format!("entry {count} {}", highest.number())
    }

    /// A page that is sealed is the new one.
    fn seal(&mut self, size: &str) -> String {
        let (scratch, mut page) = (&mut [0; 576], [0; 512]);
        let (block, number, payload) = (number_of(size), self.page_number, &self.payload);
        match raw::seal_page(
            self.keys(),
            self.rounds,
            block,
            number,
            payload,
            scratch,
            &mut page,
        ) {
            Ok(()) => {
                self.pages[1] = page.to_vec();
                format!("seal {size} 0 {}", digits_of(&page))
            }
            Err(reason) => format!("seal {size} {}", reason.number()),
        }
    }

    fn open(&self, of: &str) -> String {
        let (page, scratch, mut out) = (&self.pages[which(of)], &mut [0; 576], [0; 492]);
        let opened = raw::open_page(self.keys(), self.rounds, page, scratch, &mut out).unwrap();
        let (block, number, used) = (opened.size_block, opened.page_number, opened.used);
        let payload = digits_of(&out);
        format!("open {of} 0 {block} {number} {used} {payload}")
    }
}

fn number(result: Result<(), Reason>) -> u32 {
    result.map_or_else(Reason::number, |()| 0)
}
