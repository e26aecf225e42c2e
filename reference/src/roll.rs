//! The roll of contractors, and the grants that are issued from it. Neither is in
//! the paper; what they do stands below and in README.md.
//!
//! The roll has an entry for each of the contractors 1 to 200: a count of 16 bits, and
//! a figure of 8 bits for the contractor's highest right. In an empty roll all counts
//! are 0 and all figures are 1. A contractor is in standing if the count is odd and
//! below 65,535. The highest right is overwriting if the figure is 2, and reading if it
//! is anything else. These are the calls, with the numbers of the reasons for which each
//! is refused. Of several reasons that hold, the first in this order is given. A refused
//! call changes nothing.
//!
//! - enter: adds 1 to a contractor's count and stores the right given as the figure; 6,
//!   7, 21, 22.
//! - change of right: stores the right given as the figure; 6, 7, 20.
//! - withdraw: adds 1 to a contractor's count and stores 1 as the figure; 6, 20.
//! - issue: answers a grant with the contractor's count; 1, 2, 4, 6, 7, 14, 20, 25.
//! - check: answers the contractor in a grant and the right asked for, asked for one
//!   size block and one right; 1, 2, 3, 7, 14, 8, 9, 10, 20, 23, 25.
//! - queue: writes an answer for each of 0 to 64 grants, all asked for one size block
//!   and one right; 1, 2, 3, 4, 7, 14.
//!
//! An overwriting grant opens its size block for reading too. A reading grant does
//! not overwrite; to ask that of it is reason 10. Reason 25 compares the right asked
//! for, not the one in the grant, with the contractor's highest right now. So an
//! overwriting grant of a contractor who may only read still opens for reading.
//!
//! Nobody may ask for size block 0, which is reason 14. It looks at the number asked for
//! and at nothing else, so that it is tried before a grant is deciphered. Grants were
//! issued for 0 before there was this reason. They are not rewritten, and their plain
//! bytes are those of a whole grant still; but they open nothing: asked for 0 it is 14,
//! and asked for any other size block it is 9. `old_zero_grant` makes such a grant.
//!
//! A grant is one block of 12 bytes: the plain bytes, enciphered under the key and
//! the number of rounds. Number 4, for an output that is too short, does not occur in
//! an issue: a grant is returned and not written to a place that the caller chose.
//!
//! A queue is its grants one after the other, 12 bytes each and at most 768 in all.
//! Any other length is reason 3. The caller lends at least one byte for each grant;
//! fewer are reason 4. The answer for a grant is 0 if it opens, and otherwise the
//! number with which a check of this grant alone is refused. No answer is 14: the size
//! block is the same for all grants, so that the whole call is refused for it. Lent bytes
//! past the answers stay.
//!
//! A roll in bytes is the counts of the contractors in order, that of contractor 1
//! first, two bytes each, big end first, and then the figures in the same order, one
//! byte each. A whole roll has 600 bytes, of which the last 200 are the figures.

use crate::cipher::{allowed_rounds, decrypt, encrypt};

/// How many contractors there are; they have the numbers from 1 on.
pub const CONTRACTORS: usize = 200;

/// The right to read.
pub const READING: u8 = 1;

/// The right to overwrite.
pub const OVERWRITING: u8 = 2;

/// The number of bytes that the counts take in a roll in bytes. The figures follow them.
const COUNTS_LENGTH: usize = 2 * CONTRACTORS;

/// The number of bytes in a whole roll.
const ROLL_LENGTH: usize = COUNTS_LENGTH + CONTRACTORS;

/// The number of bytes in a grant, plain or enciphered.
const GRANT_LENGTH: usize = 12;

/// The greatest number of grants in a queue.
const MOST_IN_QUEUE: usize = 64;

/// The answer in a queue for a grant that opens.
const OPENS: u8 = 0;

/// The last bytes of every plain grant.
const MARK: [u8; 3] = [0x47, 0x52, 0x44];

/// The number of the size block that nobody may ask for.
pub const ZERO_BLOCK: u32 = 0;

/// The least count at which nobody is entered any more.
const FULL: u16 = 65_534;

/// Why a call is refused. The value of each is its number.
#[derive(Clone, Copy, Debug, PartialEq, Eq)]
pub enum Refusal {
    /// The key does not have 12, 18 or 24 bytes.
    KeyLength = 1,
    /// The number of rounds is not one that Table 2 allows for the key.
    Rounds = 2,
    /// The grant does not have 12 bytes, or the queue is not one of 0 to 64 grants of
    /// 12 bytes.
    GrantLength = 3,
    /// Fewer bytes are lent for the answers than there are grants in the queue.
    ShortAnswers = 4,
    /// The contractor is outside 1 to 200.
    NoSuchContractor = 6,
    /// The right asked for or given is neither reading nor overwriting.
    NoSuchRight = 7,
    /// The deciphered bytes have a wrong mark, contractor or right.
    NoGrant = 8,
    /// The grant is for another size block.
    OtherBlock = 9,
    /// Overwriting is asked of a reading grant.
    ReadingOnly = 10,
    /// Size block 0 is asked for.
    ZeroBlock = 14,
    /// The contractor is not in standing.
    NotInStanding = 20,
    /// The contractor to be entered is in standing.
    InStanding = 21,
    /// The contractor to be entered has a count of 65,534 or 65,535.
    Full = 22,
    /// The count in the grant is not the one in the roll.
    OtherCount = 23,
    /// The right asked for is above the contractor's highest right.
    AboveHighest = 25,
}

impl Refusal {
    /// The number of the reason.
    pub fn number(self) -> u8 {
        self as u8
    }
}

/// What the plain bytes of a grant say.
#[derive(Clone, Copy, Debug, PartialEq, Eq)]
pub struct Grant {
    /// The contractor who has the grant.
    pub contractor: u16,
    /// The contractor's count when the grant was issued.
    pub count: u16,
    /// The number of the size block.
    pub block: u32,
    /// The right, reading or overwriting.
    pub right: u8,
}

impl Grant {
    /// The plain bytes, each number big end first: 2 for the contractor, 2 for the
    /// count, 4 for the size block, 1 for the right, 3 for the mark.
    pub fn plain_bytes(&self) -> Vec<u8> {
        let mut bytes = Vec::with_capacity(GRANT_LENGTH);
        bytes.extend(self.contractor.to_be_bytes());
        bytes.extend(self.count.to_be_bytes());
        bytes.extend(self.block.to_be_bytes());
        bytes.push(self.right);
        bytes.extend(MARK);
        bytes
    }

    /// What deciphered bytes say. They are no grant if they are not 12, or if the
    /// mark, the contractor or the right is wrong. Any count and any size block
    /// will do, also size block 0, for which grants were issued once.
    pub fn from_plain_bytes(bytes: &[u8]) -> Result<Self, Refusal> {
        let grant = match *bytes {
            [a, b, c, d, e, f, g, h, right, x, y, z] if [x, y, z] == MARK => Grant {
                contractor: u16::from_be_bytes([a, b]),
                count: u16::from_be_bytes([c, d]),
                block: u32::from_be_bytes([e, f, g, h]),
                right,
            },
            _ => return Err(Refusal::NoGrant),
        };
        if place_of(grant.contractor).is_ok() && is_right(grant.right) {
            Ok(grant)
        } else {
            Err(Refusal::NoGrant)
        }
    }

    /// The plain bytes, enciphered. It is refused for 1 and 2 only: the grant may be any,
    /// also one that is never issued.
    pub fn enciphered(&self, key: &[u8], rounds: usize) -> Result<Vec<u8>, Refusal> {
        check_key_and_rounds(key, rounds)?;
        let enciphered = encrypt(key, rounds, &self.plain_bytes());
        Ok(enciphered.expect("the key, the rounds and the block are allowed"))
    }
}

/// An old grant for size block 0: one that was issued before 14 was a reason, to a
/// contractor who had this count then, and is in a cache still. `Roll::issue` makes none
/// any more. It is refused for 1 and 2 only, because nothing else is known of that time.
pub fn old_zero_grant(
    key: &[u8],
    rounds: usize,
    contractor: u16,
    count: u16,
    right: u8,
) -> Result<Vec<u8>, Refusal> {
    let grant = Grant {
        contractor,
        count,
        block: ZERO_BLOCK,
        right,
    };
    grant.enciphered(key, rounds)
}

/// What an accepted check answers.
#[derive(Clone, Copy, Debug, PartialEq, Eq)]
pub struct Accepted {
    /// The contractor who has the grant.
    pub contractor: u16,
    /// The right that was asked for.
    pub right: u8,
}

/// The roll: a count and a figure for each contractor.
#[derive(Clone, Debug, PartialEq, Eq)]
pub struct Roll {
    /// The counts, that of contractor 1 first.
    counts: [u16; CONTRACTORS],
    /// The figures for the highest rights, that of contractor 1 first. They are kept as
    /// they were handed over, because a figure stays until a call writes its entry.
    figures: [u8; CONTRACTORS],
}

impl Roll {
    /// An empty roll, in which all counts are zero and nobody may more than read.
    pub fn new() -> Self {
        Roll::with_entries([0; CONTRACTORS], [READING; CONTRACTORS])
    }

    /// A roll with the given counts and figures, those of contractor 1 first.
    pub fn with_entries(counts: [u16; CONTRACTORS], figures: [u8; CONTRACTORS]) -> Self {
        Roll { counts, figures }
    }

    /// The roll that 600 bytes stand for: first the counts, then the figures. Any other
    /// number of bytes gives none. Any count and any figure will do.
    pub fn from_bytes(bytes: &[u8]) -> Option<Self> {
        if bytes.len() != ROLL_LENGTH {
            return None;
        }
        let (counts, figures) = bytes.split_at(COUNTS_LENGTH);
        let counts = counts_from_bytes(counts)?.try_into().ok()?;
        let figures = figures.try_into().ok()?;
        Some(Roll::with_entries(counts, figures))
    }

    /// The 600 bytes of the roll: first the counts, then the figures.
    pub fn to_bytes(&self) -> Vec<u8> {
        let mut bytes = counts_to_bytes(&self.counts);
        bytes.extend(self.figures);
        bytes
    }

    /// The count of a contractor.
    pub fn count(&self, contractor: u16) -> Result<u16, Refusal> {
        Ok(self.counts[place_of(contractor)?])
    }

    /// The figure for the highest right of a contractor, as it is stored.
    pub fn figure(&self, contractor: u16) -> Result<u8, Refusal> {
        Ok(self.figures[place_of(contractor)?])
    }

    /// Enters a contractor who is not in standing, with a highest right.
    pub fn enter(&mut self, contractor: u16, right: u8) -> Result<(), Refusal> {
        let place = place_of(contractor)?;
        check_right(right)?;
        if in_standing(self.counts[place]) {
            return Err(Refusal::InStanding);
        }
        if self.counts[place] >= FULL {
            return Err(Refusal::Full);
        }
        self.counts[place] += 1;
        self.figures[place] = right;
        Ok(())
    }

    /// Changes the highest right of a contractor who is in standing. The right that is
    /// held already will do. The count stays, so that grants from before the change are
    /// still of this standing.
    pub fn change_right(&mut self, contractor: u16, right: u8) -> Result<(), Refusal> {
        let place = place_of(contractor)?;
        check_right(right)?;
        check_standing(self.counts[place])?;
        self.figures[place] = right;
        Ok(())
    }

    /// Withdraws a contractor who is in standing. The highest right becomes reading, as
    /// in an empty roll.
    pub fn withdraw(&mut self, contractor: u16) -> Result<(), Refusal> {
        let place = place_of(contractor)?;
        check_standing(self.counts[place])?;
        self.counts[place] += 1;
        self.figures[place] = READING;
        Ok(())
    }

    /// A grant of a right on a size block other than 0 for a contractor in standing whose
    /// highest right is not below it, with the contractor's count now, enciphered.
    pub fn issue(
        &self,
        key: &[u8],
        rounds: usize,
        contractor: u16,
        block: u32,
        right: u8,
    ) -> Result<Vec<u8>, Refusal> {
        check_key_and_rounds(key, rounds)?;
        let count = self.count(contractor)?;
        check_right(right)?;
        check_block(block)?;
        check_standing(count)?;
        check_highest(self.figure(contractor)?, right)?;
        let grant = Grant {
            contractor,
            count,
            block,
            right,
        };
        grant.enciphered(key, rounds)
    }

    /// Whether an enciphered grant may be used for the right asked for on the size
    /// block asked for.
    pub fn check(
        &self,
        key: &[u8],
        rounds: usize,
        enciphered: &[u8],
        block: u32,
        right: u8,
    ) -> Result<Accepted, Refusal> {
        check_key_and_rounds(key, rounds)?;
        if enciphered.len() != GRANT_LENGTH {
            return Err(Refusal::GrantLength);
        }
        check_right(right)?;
        check_block(block)?;
        let plain = decrypt(key, rounds, enciphered);
        let plain = plain.expect("the key, the rounds and the block are allowed");
        let grant = Grant::from_plain_bytes(&plain)?;
        self.check_grant(&grant, block, right)
    }

    /// Checks the grants of a queue one by one, all for the same right on the same
    /// size block, and writes the answer for each, the first grant's first. If the
    /// whole call is refused, no answer is written: all reasons for that are looked at
    /// before the first grant is.
    pub fn check_queue(
        &self,
        key: &[u8],
        rounds: usize,
        grants: &[u8],
        block: u32,
        right: u8,
        answers: &mut [u8],
    ) -> Result<(), Refusal> {
        check_key_and_rounds(key, rounds)?;
        if !queue_length(grants.len()) {
            return Err(Refusal::GrantLength);
        }
        if answers.len() < grants.len() / GRANT_LENGTH {
            return Err(Refusal::ShortAnswers);
        }
        check_right(right)?;
        check_block(block)?;
        for (grant, answer) in grants.chunks(GRANT_LENGTH).zip(answers) {
            *answer = match self.check(key, rounds, grant, block, right) {
                Ok(_) => OPENS,
                Err(refusal) => refusal.number(),
            };
        }
        Ok(())
    }

    /// The part of a check that comes after deciphering. Both rights, the one in the
    /// grant and the one asked for, are reading or overwriting by now.
    fn check_grant(&self, grant: &Grant, block: u32, right: u8) -> Result<Accepted, Refusal> {
        if grant.block != block {
            return Err(Refusal::OtherBlock);
        }
        if !covers(grant.right, right) {
            return Err(Refusal::ReadingOnly);
        }
        let count = self.count(grant.contractor)?;
        check_standing(count)?;
        if grant.count != count {
            return Err(Refusal::OtherCount);
        }
        check_highest(self.figure(grant.contractor)?, right)?;
        Ok(Accepted {
            contractor: grant.contractor,
            right,
        })
    }
}

impl Default for Roll {
    fn default() -> Self {
        Roll::new()
    }
}

/// The counts of contractors 1, 2, ... read from the bytes that a roll has for them, two
/// for each. An odd number of bytes gives none. Not only all 200 can be read.
pub fn counts_from_bytes(bytes: &[u8]) -> Option<Vec<u16>> {
    if bytes.len() % 2 == 0 {
        let counts = bytes.chunks(2).map(|pair| joined(pair[0], pair[1]));
        Some(counts.collect())
    } else {
        None
    }
}

/// The count that two bytes stand for, big end first.
fn joined(high: u8, low: u8) -> u16 {
    256 * u16::from(high) + u16::from(low)
}

/// The counts of contractors 1, 2, ... written as a roll has them in bytes, two for each.
/// Not only all 200 can be written.
pub fn counts_to_bytes(counts: &[u16]) -> Vec<u8> {
    counts
        .iter()
        .flat_map(|count| count.to_be_bytes())
        .collect()
}

/// Whether a queue can have this many bytes: those of 0 to 64 whole grants.
pub fn queue_length(bytes: usize) -> bool {
    bytes % GRANT_LENGTH == 0 && bytes <= MOST_IN_QUEUE * GRANT_LENGTH
}

/// Whether a contractor with this count is in standing.
pub fn in_standing(count: u16) -> bool {
    count % 2 == 1 && count < 65_535
}

/// Refuses a count with which a contractor is not in standing.
fn check_standing(count: u16) -> Result<(), Refusal> {
    if in_standing(count) {
        Ok(())
    } else {
        Err(Refusal::NotInStanding)
    }
}

/// Where the count and the figure of a contractor are, from 0 on.
fn place_of(contractor: u16) -> Result<usize, Refusal> {
    match usize::from(contractor) {
        number @ 1..=CONTRACTORS => Ok(number - 1),
        _ => Err(Refusal::NoSuchContractor),
    }
}

/// Whether a byte is the number of a right.
fn is_right(right: u8) -> bool {
    right == READING || right == OVERWRITING
}

/// Whether a grant with the right `granted` may be used for the right `asked`.
/// Overwriting covers overwriting and reading, and reading covers reading. A number
/// that is no right covers nothing and is covered by nothing.
pub fn covers(granted: u8, asked: u8) -> bool {
    match granted {
        OVERWRITING => asked == OVERWRITING || asked == READING,
        READING => asked == READING,
        _ => false,
    }
}

/// The highest right that a figure means: overwriting for 2, and reading for any other.
pub fn highest(figure: u8) -> u8 {
    if figure == OVERWRITING {
        OVERWRITING
    } else {
        READING
    }
}

/// Whether the right asked for is not above the highest that a figure means. `asked` is
/// reading or overwriting.
pub fn within(figure: u8, asked: u8) -> bool {
    asked <= highest(figure)
}

/// Refuses a right that is above the highest that a figure means.
fn check_highest(figure: u8, asked: u8) -> Result<(), Refusal> {
    if within(figure, asked) {
        Ok(())
    } else {
        Err(Refusal::AboveHighest)
    }
}

/// Refuses a byte that is not the number of a right.
fn check_right(right: u8) -> Result<(), Refusal> {
    if is_right(right) {
        Ok(())
    } else {
        Err(Refusal::NoSuchRight)
    }
}

/// Whether a size block may be asked for: any but 0.
pub fn may_be_asked_for(block: u32) -> bool {
    block != ZERO_BLOCK
}

/// Refuses a size block that may not be asked for.
fn check_block(block: u32) -> Result<(), Refusal> {
    if may_be_asked_for(block) {
        Ok(())
    } else {
        Err(Refusal::ZeroBlock)
    }
}

/// Refuses a key of a wrong length, then a number of rounds that Table 2 (section
/// 3.9) does not allow for the key.
fn check_key_and_rounds(key: &[u8], rounds: usize) -> Result<(), Refusal> {
    let allowed = allowed_rounds(key.len()).map_err(|_| Refusal::KeyLength)?;
    if allowed.contains(&rounds) {
        Ok(())
    } else {
        Err(Refusal::Rounds)
    }
}
