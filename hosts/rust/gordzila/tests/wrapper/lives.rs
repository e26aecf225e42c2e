//! The roll and the grants, against the stored output of the independent program.

use crate::{block, block_of, bytes_of, digits_of, number_of, repository_file};
use gordzila::{check, check_queue, issue, raw, Opened, Reason, Right, Roll, SizeBlock};
use Right::{Overwriting, Reading};

/// How many lines a life has.
const LINES: usize = 45;

/// What a life with the right to overwrite has to come to by the rules, up to the damaged
/// grants: `CONTRACTOR` stands for its contractor, and each grant is left out.
const BY_THE_RULES: &str = "\
issue 2 20
right 2 20
enter 2 0
issue 2 0
check 2 0 CONTRACTOR 2
check 2 9 0 0
check 1 0 CONTRACTOR 1
issue 1 0
right 1 0
check 2 25 0 0
check 1 0 CONTRACTOR 1
issue 2 25
right 2 0
check 2 0 CONTRACTOR 2
issue 2 0
check 2 0 CONTRACTOR 2
right 1 0
check 2 25 0 0
check 1 0 CONTRACTOR 1
right 3 7
enter 2 21
withdraw 0
check 2 20 0 0
withdraw 20
right 1 20
enter 2 0
check 2 23 0 0
check 2 23 0 0
issue 2 0
check 2 0 CONTRACTOR 2
check 2 23 0 0
check 2 0 CONTRACTOR 2
";

/// The same for a life with the right to read.
const BY_THE_RULES_FOR_READING: &str = "\
issue 1 20
right 2 20
enter 1 0
issue 1 0
check 1 0 CONTRACTOR 1
check 1 9 0 0
check 2 10 0 0
issue 2 25
right 1 0
check 2 10 0 0
check 1 0 CONTRACTOR 1
issue 2 25
right 2 0
check 1 0 CONTRACTOR 1
issue 2 0
check 2 0 CONTRACTOR 2
right 1 0
check 2 25 0 0
check 1 0 CONTRACTOR 1
right 3 7
enter 1 21
withdraw 0
check 1 20 0 0
withdraw 20
right 1 20
enter 1 0
check 1 23 0 0
check 2 23 0 0
issue 1 0
check 1 0 CONTRACTOR 1
check 1 23 0 0
check 2 10 0 0
";

/// A life's key, rounds, contractor, size block and right, and its roll.
struct Life {
    key: Vec<u8>,
    rounds: u32,
    contractor: u32,
    block: SizeBlock,
    right: Right,
    roll: Roll,
}

/// The lines of the lives, 48 times as many as one has.
fn stored() -> Vec<String> {
    let text = repository_file("crates/grant_life/stdout");
    let lines: Vec<String> = text.lines().map(str::to_string).collect();
    assert_eq!(lines.len(), 48 * LINES);
    lines
}

#[test]
fn lives_are_those_of_the_independent_program() {
    for lines in stored().chunks(LINES) {
        assert_eq!(Life::new(&lines[0]).lived(), lines[1..], "{}", lines[0]);
    }
}

#[test]
fn the_lives_follow_the_rules() {
    let (mut overwriting, mut reading) = (0, 0);
    for lines in stored().chunks(LINES) {
        let life = Life::new(&lines[0]);
        let expected = match life.right {
            Overwriting => BY_THE_RULES,
            Reading => BY_THE_RULES_FOR_READING,
        };
        let expected = expected.replace("CONTRACTOR", &life.contractor.to_string());
        let without_grants = lines[1..33].iter().map(|line| without_grant(line));
        assert!(without_grants.eq(expected.lines()), "{}", lines[0]);
        overwriting += u32::from(life.right == Overwriting);
        reading += u32::from(life.right == Reading);
    }
    assert!(overwriting > 0 && reading > 0);
}

/// The last lines of a life are checks on one roll, of grant B, of grant A and of B with one
/// byte changed: in one queue they get the same verdicts.
#[test]
fn a_queue_says_what_the_independent_program_says_one_by_one() {
    for lines in stored().chunks(LINES) {
        let mut life = Life::new(&lines[0]);
        for call in [Life::enter, Life::withdraw, Life::enter] {
            assert!(call(&mut life).ends_with(" 0"));
        }
        let (a, b) = (grant_in(&lines[4]), grant_in(&lines[29]));
        let mut pile = vec![b, a];
        pile.extend((0..b.len()).map(|at| damaged(b, at)));
        let one_by_one = lines[30..32].iter().chain(&lines[33..]);
        let expected: Vec<u32> = one_by_one.map(|line| refusal_in(line)).collect();
        assert_eq!(life.queued(&pile, life.right), expected, "{}", lines[0]);
        assert_eq!(expected[..2], [0, 23], "{}", lines[0]);
    }
}

/// On the roll of someone who was demoted, grant A and grant C, which is for overwriting.
#[test]
fn a_queue_of_someone_demoted_says_so_too() {
    for lines in stored().chunks(LINES) {
        let mut life = Life::new(&lines[0]);
        life.enter();
        assert_eq!(life.change_right(1), "right 1 0");
        let pile = [grant_in(&lines[4]), grant_in(&lines[15])];
        for (right, a, c) in [
            (Overwriting, &lines[10], &lines[18]),
            (Reading, &lines[11], &lines[19]),
        ] {
            let expected = [refusal_in(a), refusal_in(c)];
            assert_eq!(life.queued(&pile, right), expected, "{}", lines[0]);
        }
        assert_eq!(refusal_in(&lines[18]), 25, "{}", lines[0]);
    }
}

/// A line without the grant that stands at the end of it, if one does.
fn without_grant(line: &str) -> &str {
    match line.rsplit_once(' ') {
        Some((rest, last)) if last.len() == 24 => rest,
        _ => line,
    }
}

/// The number of the refusal in a line `check ASKED NUMBER ...` or `damaged BYTE NUMBER ...`.
fn refusal_in(line: &str) -> u32 {
    number_of(line.split(' ').nth(2).unwrap())
}

/// A grant with one byte changed.
fn damaged(mut grant: [u8; 12], at: usize) -> [u8; 12] {
    grant[at] ^= 1;
    grant
}

impl Life {
    fn new(line: &str) -> Life {
        let fields: Vec<&str> = line.split(' ').collect();
        Life {
            key: bytes_of(fields[1]),
            rounds: number_of(fields[2]),
            contractor: number_of(fields[3]),
            block: block(number_of(fields[4])),
            right: Right::from_number(number_of(fields[5])).unwrap(),
            roll: Roll::empty(),
        }
    }

    /// The lines after the first, in the order that reference/README.md has for them.
    fn lived(mut self) -> Vec<String> {
        let right = self.right;
        let mut lines = vec![self.issue(right), self.change_right(2), self.enter()];
        lines.push(self.issue(right));
        let a = grant_in(&lines[3]);
        lines.push(self.check(&a, right));
        lines.push(self.check_for(&a, block(self.block.number() + 1), right));
        lines.extend([self.check(&a, other(right)), self.issue(other(right))]);
        lines.push(self.change_right(1));
        lines.extend([self.check(&a, Overwriting), self.check(&a, Reading)]);
        lines.extend([self.issue(Overwriting), self.change_right(2)]);
        lines.extend([self.check(&a, right), self.issue(Overwriting)]);
        let c = grant_in(&lines[14]);
        lines.extend([self.check(&c, Overwriting), self.change_right(1)]);
        lines.extend([self.check(&c, Overwriting), self.check(&c, Reading)]);
        lines.extend([self.change_right(3), self.enter(), self.withdraw()]);
        lines.extend([self.check(&a, right), self.withdraw()]);
        lines.extend([self.change_right(1), self.enter(), self.check(&a, right)]);
        lines.extend([self.check(&c, Overwriting), self.issue(right)]);
        let b = grant_in(&lines[28]);
        lines.extend([self.check(&b, right), self.check(&a, right)]);
        lines.push(self.check(&b, Overwriting));
        for at in 0..b.len() {
            let line = self.check(&damaged(b, at), right);
            lines.push(line.replacen(
                &format!("check {}", right.number()),
                &format!("damaged {at}"),
                1,
            ));
        }
        lines
    }

    /// With the right of the life as the highest.
    fn enter(&mut self) -> String {
        let entered = number(self.roll.enter(self.contractor, self.right));
        format!("enter {} {entered}", self.right.number())
    }

    /// To any number: the raw call takes those that are no right.
    fn change_right(&mut self, highest: u32) -> String {
        let changed = match Right::from_number(highest) {
            Some(right) => number(self.roll.change_right(self.contractor, right)),
            None => {
                let mut bytes = *self.roll.bytes();
                raw::change_right_number(&mut bytes, self.contractor, highest)
            }
        };
        format!("right {highest} {changed}")
    }

    fn withdraw(&mut self) -> String {
        format!("withdraw {}", number(self.roll.withdraw(self.contractor)))
    }

    fn issue(&self, right: Right) -> String {
        let (contractor, block, asked) = (self.contractor, self.block, right.number());
        match issue(&self.key, self.rounds, &self.roll, contractor, block, right) {
            Ok(grant) => format!("issue {asked} 0 {}", digits_of(&grant)),
            Err(reason) => format!("issue {asked} {}", reason.number()),
        }
    }

    /// The verdicts of a queue, as numbers.
    fn queued(&self, pile: &[[u8; 12]], right: Right) -> Vec<u32> {
        let verdicts = check_queue(&self.key, self.rounds, &self.roll, pile, self.block, right);
        verdicts.unwrap().into_iter().map(number).collect()
    }

    fn check(&self, grant: &[u8], right: Right) -> String {
        self.check_for(grant, self.block, right)
    }

    fn check_for(&self, grant: &[u8], block: SizeBlock, right: Right) -> String {
        let asked = right.number();
        match check(&self.key, self.rounds, &self.roll, grant, block, right) {
            Ok(Opened { contractor, right }) => {
                format!("check {asked} 0 {contractor} {}", right.number())
            }
            Err(reason) => format!("check {asked} {} 0 0", reason.number()),
        }
    }
}

fn number(result: Result<(), Reason>) -> u32 {
    result.map_or_else(Reason::number, |()| 0)
}

fn other(right: Right) -> Right {
    match right {
        Reading => Overwriting,
        Overwriting => Reading,
    }
}

/// The grant in a line `issue ASKED 0 GRANT`.
fn grant_in(line: &str) -> [u8; 12] {
    block_of(line.rsplit_once(" 0 ").unwrap().1)
}
