//! The first lives in the stored output of the independent program, lived by the tool.
//! reference/README.md says what the lines are.

use crate::running::{on_roll, Room, Run};
use std::fs;
use std::path::{Path, PathBuf};

/// How many lines a life has.
const LINES: usize = 45;

/// Which lives are lived: some of each key length and of each right. All of them would
/// start the tool some thousand times; the wrapper's tests have them all.
const LIVES: [usize; 6] = [0, 1, 2, 8, 24, 47];

/// The key, rounds, contractor, size block and right of a life, and its roll.
struct Life<'a> {
    key: &'a str,
    rounds: &'a str,
    contractor: &'a str,
    block: u32,
    right: u32,
    roll: PathBuf,
}

#[test]
fn the_tool_answers_as_the_independent_program_does() {
    let stored = Path::new(env!("CARGO_MANIFEST_DIR")).join("../../../crates/grant_life/stdout");
    let text = fs::read_to_string(stored).unwrap();
    let lines: Vec<&str> = text.lines().collect();
    for number in LIVES {
        let room = Room::new(&format!("stored-{number}"));
        let lines = &lines[LINES * number..LINES * (number + 1)];
        let life = Life::new(lines[0], room.path("roll"));
        let lived = life.lived();
        assert_eq!(lived, lines[1..], "{}", lines[0]);
        // These by the rules, and not by what is stored: the check of grant A for the other
        // right, and after the second demotion those of grant C for either right.
        assert_eq!(lived[6], life.other_right(), "{}", lines[0]);
        let look = format!("check 1 0 {} 1", life.contractor);
        assert_eq!(lived[17..19], ["check 2 25 0 0", &look], "{}", lines[0]);
    }
}

impl<'a> Life<'a> {
    fn new(line: &'a str, roll: PathBuf) -> Life<'a> {
        let fields: Vec<&str> = line.split(' ').collect();
        on_roll("roll make", &roll, "").done();
        Life {
            key: fields[1],
            rounds: fields[2],
            contractor: fields[3],
            block: fields[4].parse().unwrap(),
            right: fields[5].parse().unwrap(),
            roll,
        }
    }

    /// The lines after the first.
    fn lived(&self) -> Vec<String> {
        let right = self.right;
        let mut lines = vec![self.issue(right), self.change("right", 2)];
        lines.extend([self.change("enter", right), self.issue(right)]);
        let a = grant_in(&lines[3]);
        lines.push(self.check(&a, right));
        lines.push(self.check_for(&a, self.block + 1, right));
        lines.extend([self.check(&a, 3 - right), self.issue(3 - right)]);
        lines.push(self.change("right", 1));
        lines.extend([self.check(&a, 2), self.check(&a, 1), self.issue(2)]);
        lines.extend([self.change("right", 2), self.check(&a, right)]);
        lines.push(self.issue(2));
        let c = grant_in(&lines[14]);
        lines.extend([self.check(&c, 2), self.change("right", 1)]);
        lines.extend([self.check(&c, 2), self.check(&c, 1)]);
        lines.extend([self.change("right", 3), self.change("enter", right)]);
        lines.extend([self.withdraw(), self.check(&a, right), self.withdraw()]);
        lines.extend([self.change("right", 1), self.change("enter", right)]);
        lines.extend([self.check(&a, right), self.check(&c, 2), self.issue(right)]);
        let b = grant_in(&lines[28]);
        lines.extend([self.check(&b, right), self.check(&a, right)]);
        lines.push(self.check(&b, 2));
        for at in 0..12 {
            let line = self.check(&damaged(&b, at), right);
            let checked = format!("check {right}");
            lines.push(line.replacen(&checked, &format!("damaged {at}"), 1));
        }
        lines
    }

    /// What a check for the other right than the grant's has to be: an overwriting grant
    /// opens for reading, and a reading grant does not for overwriting.
    fn other_right(&self) -> String {
        match self.right {
            2 => format!("check 1 0 {} 1", self.contractor),
            _ => "check 2 10 0 0".to_string(),
        }
    }

    fn change(&self, subcommand: &str, highest: u32) -> String {
        let options = format!("--contractor {} --right {highest}", self.contractor);
        let run = on_roll(subcommand, &self.roll, &options);
        format!("{subcommand} {highest} {}", number(run))
    }

    fn withdraw(&self) -> String {
        let options = format!("--contractor {}", self.contractor);
        let run = on_roll("withdraw", &self.roll, &options);
        format!("withdraw {}", number(run))
    }

    fn issue(&self, right: u32) -> String {
        let contractor = self.contractor;
        let options = format!(
            "{} --contractor {contractor}",
            self.asked(self.block, right)
        );
        let run = on_roll("issue", &self.roll, &options);
        match run.status {
            Some(0) => format!("issue {right} 0 {}", run.done().trim_end()),
            _ => format!("issue {right} {}", run.refused()),
        }
    }

    fn check(&self, grant: &str, right: u32) -> String {
        self.check_for(grant, self.block, right)
    }

    fn check_for(&self, grant: &str, block: u32, right: u32) -> String {
        let options = format!("{} --grant {grant}", self.asked(block, right));
        let run = on_roll("check", &self.roll, &options);
        match run.status {
            Some(0) => format!("check {right} 0 {}", opened(&run.done())),
            _ => format!("check {right} {} 0 0", run.refused()),
        }
    }

    fn asked(&self, block: u32, right: u32) -> String {
        let (key, rounds) = (self.key, self.rounds);
        format!("--key {key} --rounds {rounds} --block {block} --right {right}")
    }
}

/// The contractor and the right that a check printed, as the stored lines have them.
fn opened(printed: &str) -> String {
    let rest = printed.strip_prefix("opens: contractor ").unwrap();
    let (contractor, right) = rest.trim_end().split_once(", ").unwrap();
    let right = match right {
        "reading" => 1,
        "overwriting" => 2,
        _ => panic!("{printed}"),
    };
    format!("{contractor} {right}")
}

fn number(run: Run) -> u32 {
    match run.status {
        Some(0) => 0,
        _ => run.refused(),
    }
}

/// The grant in a line `issue ASKED 0 GRANT`.
fn grant_in(line: &str) -> String {
    line.rsplit_once(" 0 ").unwrap().1.to_string()
}

/// A grant with one byte xored with 1.
fn damaged(grant: &str, at: usize) -> String {
    let byte = u8::from_str_radix(&grant[2 * at..2 * at + 2], 16).unwrap() ^ 1;
    format!("{}{byte:02x}{}", &grant[..2 * at], &grant[2 * at + 2..])
}
