//! The log of calls on a roll and of checks of grants, as plain text. The roll and
//! the grants are those of `roll.rs`.
//!
//! `grants` has one generator that starts from seed 1. It takes key lengths 12,
//! 18, 24 in this order, for each its round counts upward (10..11, 14..17,
//! 18..23), and for each of these does this 4 times: draw KEY (12, 18 or 24
//! bytes), draw a byte x, draw BLOCK (4 bytes, big end first), draw a byte y, print
//! a life. The contractor is 1 + x mod 200, and the right is 1 + y mod 2. No BLOCK that is
//! drawn is 0, nor is the next one after any; the calls for 0 are in `zero.rs`.
//!
//! A life is a fixed list of calls on a new roll, all for this contractor, with one
//! line for each. Where nothing else is said, an entering, an issue and a check have the
//! right of the life.
//!
//! - An issue and a change to 2 before the contractor is entered; enter; an issue, which
//!   gives grant A; grant A checked for its block and right, for the next block, and for
//!   the other right; an issue for the other right.
//! - A change to 1; grant A checked for 2 and for 1; an issue for 2; a change to 2; grant
//!   A checked; an issue for 2, which gives grant C; grant C checked for 2; a change to 1;
//!   grant C checked for 2 and for 1.
//! - A change to 3, which is no right; enter again; withdraw; grant A checked; withdraw
//!   again; a change to 1.
//! - Enter; grant A checked; grant C checked for 2; an issue, which gives grant B; grant B
//!   checked; grant A checked; grant B checked for 2.
//! - Grant B checked 12 times, each time with another byte damaged: the byte is xored
//!   with 1.

use crate::cipher::allowed_rounds;
use crate::error::Error;
use crate::generator::Generator;
use crate::roll::{Accepted, Refusal, Roll, OVERWRITING, READING};
use crate::vectors::{add_line, draw_number, hex, KEY_LENGTHS, SEED};

/// How many lives there are for each key length and number of rounds.
const LIVES_PER_ROUNDS: usize = 4;

/// The number of a call that is not refused.
const DONE: u8 = 0;

/// A number that is no right.
const NO_RIGHT: u8 = 3;

/// What a damaged byte of a grant is xored with.
const DAMAGE: u8 = 1;

/// What is drawn for a life.
struct Life {
    key: Vec<u8>,
    rounds: usize,
    contractor: u16,
    block: u32,
    right: u8,
}

/// The lives for every key length and every number of rounds in Table 2 (section
/// 3.9).
pub fn grants_text() -> Result<String, Error> {
    let mut generator = Generator::new(SEED);
    let mut text = String::new();
    for key_length in KEY_LENGTHS {
        for rounds in allowed_rounds(key_length)? {
            for _ in 0..LIVES_PER_ROUNDS {
                let life = draw_life(&mut generator, key_length, rounds);
                text.push_str(&life_text(&life));
            }
        }
    }
    Ok(text)
}

/// A life drawn from the generator: the key, one byte for the contractor, four for
/// the size block, one for the right.
fn draw_life(generator: &mut Generator, key_length: usize, rounds: usize) -> Life {
    Life {
        key: generator.bytes(key_length),
        rounds,
        contractor: 1 + u16::from(generator.byte() % 200),
        block: draw_number(generator, 4),
        right: 1 + generator.byte() % 2,
    }
}

/// The lines for one life.
fn life_text(life: &Life) -> String {
    let mut log = Log::new(life);
    let grant_a = enter_first(&mut log, life);
    let grant_c = demote_and_raise(&mut log, life, &grant_a);
    withdraw(&mut log, life, &grant_a);
    let grant_b = enter_again(&mut log, life, &grant_a, &grant_c);
    for position in 0..grant_b.len() {
        log.check_damaged(&grant_b, position);
    }
    log.text
}

/// The calls up to the first change of right in standing. Grant A is returned.
fn enter_first(log: &mut Log, life: &Life) -> Vec<u8> {
    let other_right = 3 - life.right;
    log.issue(life.right);
    log.change_right(OVERWRITING);
    log.enter(life.right);
    let grant_a = log.issue(life.right);
    log.check(&grant_a, life.block, life.right);
    log.check(&grant_a, life.block.wrapping_add(1), life.right);
    log.check(&grant_a, life.block, other_right);
    log.issue(other_right);
    grant_a
}

/// The changes of right in standing, from reading to overwriting and back to reading.
/// Grant C, which is issued in between, is returned.
fn demote_and_raise(log: &mut Log, life: &Life, grant_a: &[u8]) -> Vec<u8> {
    log.change_right(READING);
    log.check(grant_a, life.block, OVERWRITING);
    log.check(grant_a, life.block, READING);
    log.issue(OVERWRITING);
    log.change_right(OVERWRITING);
    log.check(grant_a, life.block, life.right);
    let grant_c = log.issue(OVERWRITING);
    log.check(&grant_c, life.block, OVERWRITING);
    log.change_right(READING);
    log.check(&grant_c, life.block, OVERWRITING);
    log.check(&grant_c, life.block, READING);
    grant_c
}

/// The withdrawal, with refused calls on both sides of it.
fn withdraw(log: &mut Log, life: &Life, grant_a: &[u8]) {
    log.change_right(NO_RIGHT);
    log.enter(life.right);
    log.withdraw();
    log.check(grant_a, life.block, life.right);
    log.withdraw();
    log.change_right(READING);
}

/// The second standing, in which the grants of the first are old. Grant B is returned.
fn enter_again(log: &mut Log, life: &Life, grant_a: &[u8], grant_c: &[u8]) -> Vec<u8> {
    log.enter(life.right);
    log.check(grant_a, life.block, life.right);
    log.check(grant_c, life.block, OVERWRITING);
    let grant_b = log.issue(life.right);
    log.check(&grant_b, life.block, life.right);
    log.check(grant_a, life.block, life.right);
    log.check(&grant_b, life.block, OVERWRITING);
    grant_b
}

/// The roll of a life, and the lines for the calls that were made on it.
struct Log<'a> {
    life: &'a Life,
    roll: Roll,
    text: String,
}

impl<'a> Log<'a> {
    /// A new roll, and the line for the life.
    fn new(life: &'a Life) -> Self {
        let mut text = String::new();
        add_line(
            &mut text,
            &[
                "life",
                &hex(&life.key),
                &life.rounds.to_string(),
                &life.contractor.to_string(),
                &life.block.to_string(),
                &life.right.to_string(),
            ],
        );
        Log {
            life,
            roll: Roll::new(),
            text,
        }
    }

    /// Enters the contractor with a highest right, and adds the line for it.
    fn enter(&mut self, right: u8) {
        let number = number_of(&self.roll.enter(self.life.contractor, right));
        add_line(&mut self.text, &["enter", &right.to_string(), &number]);
    }

    /// Changes the highest right of the contractor, and adds the line for it.
    fn change_right(&mut self, right: u8) {
        let number = number_of(&self.roll.change_right(self.life.contractor, right));
        add_line(&mut self.text, &["right", &right.to_string(), &number]);
    }

    /// Withdraws the contractor, and adds the line for it.
    fn withdraw(&mut self) {
        let number = number_of(&self.roll.withdraw(self.life.contractor));
        add_line(&mut self.text, &["withdraw", &number]);
    }

    /// Issues a grant of a right, and adds the line for it. It returns the grant, or no
    /// bytes if the issue is refused.
    fn issue(&mut self, right: u8) -> Vec<u8> {
        let life = self.life;
        let (key, rounds) = (&life.key, life.rounds);
        let issued = self
            .roll
            .issue(key, rounds, life.contractor, life.block, right);
        let number = number_of(&issued);
        let asked = right.to_string();
        match issued {
            Ok(grant) => {
                add_line(&mut self.text, &["issue", &asked, &number, &hex(&grant)]);
                grant
            }
            Err(_) => {
                add_line(&mut self.text, &["issue", &asked, &number]);
                Vec::new()
            }
        }
    }

    /// Checks a grant, and adds the line for it.
    fn check(&mut self, grant: &[u8], block: u32, right: u8) {
        let fields = self.answer(grant, block, right);
        add_line(&mut self.text, &["check", &right.to_string(), &fields]);
    }

    /// Checks a grant of the life with the byte at the position damaged, and adds
    /// the line for it.
    fn check_damaged(&mut self, grant: &[u8], position: usize) {
        let mut damaged = grant.to_vec();
        damaged[position] ^= DAMAGE;
        let fields = self.answer(&damaged, self.life.block, self.life.right);
        add_line(&mut self.text, &["damaged", &position.to_string(), &fields]);
    }

    /// The last three fields of the line for a check of a grant.
    fn answer(&self, grant: &[u8], block: u32, right: u8) -> String {
        let life = self.life;
        let checked = self.roll.check(&life.key, life.rounds, grant, block, right);
        answer_of(&checked)
    }
}

/// The fields for the answer to a check: its number, and the contractor and the
/// right asked for if it is not refused, and otherwise 0 and 0.
pub(crate) fn answer_of(checked: &Result<Accepted, Refusal>) -> String {
    let (contractor, right) = match checked {
        Ok(accepted) => (accepted.contractor, accepted.right),
        Err(_) => (0, 0),
    };
    format!("{} {} {}", number_of(checked), contractor, right)
}

/// The field for the number of a call: 0, or the number of the reason for which it
/// is refused.
pub(crate) fn number_of<T>(result: &Result<T, Refusal>) -> String {
    match result {
        Ok(_) => DONE.to_string(),
        Err(refusal) => refusal.number().to_string(),
    }
}
