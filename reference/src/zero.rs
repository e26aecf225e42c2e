//! The log of calls about size block 0, as plain text. The roll and the grants are those
//! of `roll.rs`, the pages those of `pages.rs`.
//!
//! `zero` has one generator that starts from seed 1. It takes key lengths 12, 18, 24 in
//! this order, for each its round counts upward (10..11, 14..17, 18..23), and for each of
//! these does this once: draw FIRST and then SECOND (12, 18 or 24 bytes each), draw a byte
//! for each of x, y, z and w, draw PAGENO (2 bytes, big end first), draw two bytes u and v,
//! draw as many bytes as USED for the payload, print the lines. The contractor is 1 + x mod
//! 200, the right is 1 + y mod 2, BLOCK is (1 + w mod 255) times 256 to the power of z mod
//! 4, and USED is (256u + v) mod 493. So BLOCK has one byte that is not zero, and is not 0.
//!
//! Each life has an old grant and an old page for size block 0, as they were made before 14
//! was a reason. The old grant has the contractor, count 1 and the right. The lines are a
//! fixed list of calls on a new roll, all for this contractor and, where nothing else is
//! said, for the right of the life. A call for 0 and for BLOCK is two calls, in this order.
//!
//! - An issue for 0 and the old grant checked for 0 and for BLOCK, before the contractor is
//!   entered.
//! - Enter; an issue for 0 and for BLOCK, which gives the new grant; the old grant checked
//!   for 0 and for BLOCK; the new grant checked for 0 and for BLOCK; both in one queue for 0
//!   and for BLOCK.
//! - A change to 1; for right 2 an issue for 0 and the old grant checked for 0 and for
//!   BLOCK.
//! - Withdraw; an issue for 0; the old grant checked for 0 and for BLOCK; the new grant
//!   checked for BLOCK.
//! - Enter; the old grant checked for 0 and for BLOCK; the new grant checked for BLOCK; the
//!   entry of the contractor.
//! - A sealing for 0 and for BLOCK, which gives the new page; the old page and the new page
//!   opened.

use crate::cipher::allowed_rounds;
use crate::error::Error;
use crate::generator::Generator;
use crate::grants::{answer_of, number_of};
use crate::page_answers::number_of as number_of_page;
use crate::pages::{old_zero_page, open, seal, PAGE_LENGTH, PAYLOAD_LENGTH, SCRATCH_LENGTH};
use crate::roll::{old_zero_grant, Roll, OVERWRITING, READING, ZERO_BLOCK};
use crate::vectors::{add_line, draw_number, hex, KEY_LENGTHS, SEED};
use crate::zero_answers::opened_fields;

/// The count in the old grant: that of a contractor who was entered once.
const OLD_COUNT: u16 = 1;

/// What lent bytes have before a call. It is the number of no reason.
const UNWRITTEN: u8 = 0xFF;

/// What is drawn for a life.
struct Life {
    first: Vec<u8>,
    second: Vec<u8>,
    rounds: usize,
    contractor: u16,
    block: u32,
    right: u8,
    page_number: u16,
    payload: Vec<u8>,
}

/// Which of the two grants or of the two pages is meant.
#[derive(Clone, Copy)]
enum Which {
    Old,
    New,
}

impl Which {
    /// The word for it.
    fn word(self) -> &'static str {
        match self {
            Which::Old => "old",
            Which::New => "new",
        }
    }
}

/// The lives for every key length and every number of rounds in Table 2 (section 3.9), one
/// each.
pub fn zero_text() -> Result<String, Error> {
    let mut generator = Generator::new(SEED);
    let mut text = String::new();
    for key_length in KEY_LENGTHS {
        for rounds in allowed_rounds(key_length)? {
            let life = draw_life(&mut generator, key_length, rounds);
            text.push_str(&life_text(&life));
        }
    }
    Ok(text)
}

/// A life drawn from the generator.
fn draw_life(generator: &mut Generator, key_length: usize, rounds: usize) -> Life {
    let first = generator.bytes(key_length);
    let second = generator.bytes(key_length);
    let [x, y, z, w] = [(); 4].map(|_| generator.byte());
    let page_number = draw_number(generator, 2) as u16;
    let used = draw_number(generator, 2) as usize % (PAYLOAD_LENGTH + 1);
    Life {
        first,
        second,
        rounds,
        contractor: 1 + u16::from(x % 200),
        block: (1 + u32::from(w % 255)) * 256_u32.pow(u32::from(z % 4)),
        right: 1 + y % 2,
        page_number,
        payload: generator.bytes(used),
    }
}

/// The lines for one life.
fn life_text(life: &Life) -> String {
    let mut log = Log::new(life);
    let right = life.right;
    log.issue(ZERO_BLOCK, right);
    log.check_for_both(Which::Old, right);
    enter_and_demote(&mut log, right);
    withdraw_and_enter(&mut log, right);
    log.add_entry();
    seal_and_open(&mut log);
    log.text
}

/// The first standing. Both grants are there from here on.
fn enter_and_demote(log: &mut Log, right: u8) {
    log.enter(right);
    log.issue(ZERO_BLOCK, right);
    log.issue(log.life.block, right);
    log.check_for_both(Which::Old, right);
    log.check_for_both(Which::New, right);
    log.queue(ZERO_BLOCK);
    log.queue(log.life.block);
    log.change_right(READING);
    log.issue(ZERO_BLOCK, OVERWRITING);
    log.check_for_both(Which::Old, OVERWRITING);
}

/// The end of the first standing, and the second one, in which both grants have an
/// earlier count.
fn withdraw_and_enter(log: &mut Log, right: u8) {
    log.withdraw();
    log.issue(ZERO_BLOCK, right);
    log.check_for_both(Which::Old, right);
    log.check(Which::New, log.life.block, right);
    log.enter(right);
    log.check_for_both(Which::Old, right);
    log.check(Which::New, log.life.block, right);
}

/// The pages: one that is not sealed any more, one that is, and an old one.
fn seal_and_open(log: &mut Log) {
    log.seal(ZERO_BLOCK);
    let new_page = log.seal(log.life.block);
    let old_page = log.add_old_page();
    log.open(Which::Old, &old_page);
    log.open(Which::New, &new_page);
}

/// The roll of a life, the two grants, and the lines for the calls that were made.
struct Log<'a> {
    life: &'a Life,
    roll: Roll,
    old_grant: Vec<u8>,
    new_grant: Vec<u8>,
    text: String,
}

impl<'a> Log<'a> {
    /// A new roll, the line for the life, and the line for the old grant. The new grant
    /// is not issued yet.
    fn new(life: &'a Life) -> Self {
        let (key, rounds) = (&life.first, life.rounds);
        let old_grant = old_zero_grant(key, rounds, life.contractor, OLD_COUNT, life.right);
        let old_grant = old_grant.expect("the key and the rounds are allowed");
        let mut text = String::new();
        add_line(
            &mut text,
            &[
                "zero",
                &hex(&life.first),
                &hex(&life.second),
                &life.rounds.to_string(),
                &life.contractor.to_string(),
                &life.block.to_string(),
                &life.right.to_string(),
                &life.page_number.to_string(),
                &life.payload.len().to_string(),
            ],
        );
        add_line(&mut text, &["old", &hex(&old_grant)]);
        Log {
            life,
            roll: Roll::new(),
            old_grant,
            new_grant: Vec::new(),
            text,
        }
    }

    /// Enters the contractor with a highest right, and adds the line for it.
    fn enter(&mut self, right: u8) {
        let number = number_of(&self.roll.enter(self.life.contractor, right));
        add_line(&mut self.text, &["enter", &right.to_string(), &number]);
    }

    /// Changes the highest right of the contractor, and adds the line for it.
    fn change_right(&mut self, right: u8) {
        let number = number_of(&self.roll.change_right(self.life.contractor, right));
        add_line(&mut self.text, &["right", &right.to_string(), &number]);
    }

    /// Withdraws the contractor, and adds the line for it.
    fn withdraw(&mut self) {
        let number = number_of(&self.roll.withdraw(self.life.contractor));
        add_line(&mut self.text, &["withdraw", &number]);
    }

    /// Issues a grant of a right on a size block, and adds the line for it. A grant that
    /// is issued becomes the new grant.
    fn issue(&mut self, block: u32, right: u8) {
        let life = self.life;
        let (key, rounds) = (&life.first, life.rounds);
        let issued = self.roll.issue(key, rounds, life.contractor, block, right);
        let mut fields = format!("{} {} {}", block, right, number_of(&issued));
        if let Ok(grant) = issued {
            fields = format!("{} {}", fields, hex(&grant));
            self.new_grant = grant;
        }
        add_line(&mut self.text, &["issue", &fields]);
    }

    /// Checks a grant for 0 and for the size block of the life.
    fn check_for_both(&mut self, which: Which, right: u8) {
        self.check(which, ZERO_BLOCK, right);
        self.check(which, self.life.block, right);
    }

    /// Checks a grant, and adds the line for it.
    fn check(&mut self, which: Which, block: u32, right: u8) {
        let life = self.life;
        let grant = match which {
            Which::Old => &self.old_grant,
            Which::New => &self.new_grant,
        };
        let checked = self
            .roll
            .check(&life.first, life.rounds, grant, block, right);
        let asked = format!("{} {}", block, right);
        let fields = ["check", which.word(), &asked, &answer_of(&checked)];
        add_line(&mut self.text, &fields);
    }

    /// Checks both grants in one queue, the old one first, for the right of the life, and
    /// adds the line for it.
    fn queue(&mut self, block: u32) {
        let life = self.life;
        let grants = [&self.old_grant[..], &self.new_grant].concat();
        let mut answers = [UNWRITTEN; 2];
        let (key, rounds, right) = (&life.first, life.rounds, life.right);
        let roll = &self.roll;
        let called = roll.check_queue(key, rounds, &grants, block, right, &mut answers);
        let fields = format!("{} {} {}", block, right, number_of(&called));
        let [old, new] = answers.map(|answer| answer.to_string());
        add_line(&mut self.text, &["queue", &fields, &old, &new]);
    }

    /// Adds the line for the entry of the contractor.
    fn add_entry(&mut self) {
        let known = "there is such a contractor";
        let count = self.roll.count(self.life.contractor).expect(known);
        let figure = self.roll.figure(self.life.contractor).expect(known);
        let fields = ["entry", &count.to_string(), &figure.to_string()];
        add_line(&mut self.text, &fields);
    }

    /// Seals the payload for a size block, and adds the line for it. It returns what is in
    /// the output thereafter.
    fn seal(&mut self, block: u32) -> Vec<u8> {
        let life = self.life;
        let mut scratch = [UNWRITTEN; SCRATCH_LENGTH];
        let mut page = vec![UNWRITTEN; PAGE_LENGTH];
        let sealed = seal(
            &life.first,
            &life.second,
            life.rounds,
            block,
            life.page_number,
            &life.payload,
            &mut scratch,
            &mut page,
        );
        let mut fields = format!("{} {}", block, number_of_page(&sealed));
        if sealed.is_ok() {
            fields = format!("{} {}", fields, hex(&page));
        }
        add_line(&mut self.text, &["seal", &fields]);
        page
    }

    /// The old page, which has the page number and the payload of the life. The line for it
    /// is added.
    fn add_old_page(&mut self) -> Vec<u8> {
        let life = self.life;
        let page = old_zero_page(
            &life.first,
            &life.second,
            life.rounds,
            life.page_number,
            &life.payload,
        );
        let page = page.expect("the keys, the rounds and the payload are allowed");
        add_line(&mut self.text, &["oldpage", &hex(&page)]);
        page
    }

    /// Opens a page, and adds the line for it.
    fn open(&mut self, which: Which, page: &[u8]) {
        let life = self.life;
        let mut scratch = [UNWRITTEN; SCRATCH_LENGTH];
        let mut out = [UNWRITTEN; PAYLOAD_LENGTH];
        let (first, second) = (&life.first, &life.second);
        let opened = open(first, second, life.rounds, page, &mut scratch, &mut out);
        let fields = opened_fields(&opened, &out);
        add_line(&mut self.text, &["open", which.word(), &fields]);
    }
}
