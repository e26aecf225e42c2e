//! What a check is asked: a key, a roll, a grant or a queue of them, a size block and
//! a right.

use curupira_reference::generator::Generator;
use curupira_reference::roll::{Grant, Roll, CONTRACTORS, OVERWRITING};

use crate::interface::LIBRARY;

/// Figures for highest rights. The first stands for overwriting, all others for reading.
const FIGURES: [u8; 5] = [OVERWRITING, 1, 0, 3, 255];

/// The entries of a roll, that of contractor 1 first: a count and a figure for each.
pub struct Entries {
    pub counts: [u16; CONTRACTORS],
    pub figures: [u8; CONTRACTORS],
}

impl Entries {
    /// Counts of which about half are in standing, and figures of every kind.
    pub fn draw(generator: &mut Generator) -> Self {
        Entries {
            counts: [(); CONTRACTORS].map(|()| draw_number(generator, 2) as u16),
            figures: [(); CONTRACTORS].map(|()| draw_figure(generator)),
        }
    }

    /// The bytes of the roll: the counts, two bytes each, and then the figures.
    pub fn bytes(&self) -> Vec<u8> {
        let counts = self.counts.iter().flat_map(|count| count.to_be_bytes());
        counts.chain(self.figures).collect()
    }
}

#[derive(Clone, Debug)]
pub struct Question {
    pub key: Vec<u8>,
    pub rounds: u32,
    pub roll: Vec<u8>,
    /// A grant, or the grants of a queue, one after the other.
    pub grants: Vec<u8>,
    pub size_block: u32,
    pub right: u32,
}

impl Question {
    /// A question to which the answer is that the grant opens. It is for overwriting, so that
    /// the highest right is looked at.
    pub fn that_opens(generator: &mut Generator, key_length: usize, rounds: u32) -> Self {
        let mut entries = Entries::draw(generator);
        let grant = draw_grant(generator, &mut entries, OVERWRITING);
        let key = generator.bytes(key_length);
        Question {
            grants: enciphered(&key, rounds, &grant.plain_bytes()),
            key,
            rounds,
            roll: entries.bytes(),
            size_block: grant.block,
            right: u32::from(grant.right),
        }
    }

    /// A queue of so many grants that all open for overwriting.
    pub fn queue_that_opens(
        generator: &mut Generator,
        key_length: usize,
        rounds: u32,
        grants: usize,
    ) -> Self {
        let mut entries = Entries::draw(generator);
        let key = generator.bytes(key_length);
        let size_block = draw_number(generator, 4);
        let draw = |_| {
            let mut grant = draw_grant(generator, &mut entries, OVERWRITING);
            grant.block = size_block;
            enciphered(&key, rounds, &grant.plain_bytes())
        };
        let grants = (0..grants).flat_map(draw).collect();
        Question {
            key,
            rounds,
            roll: entries.bytes(),
            grants,
            size_block,
            right: u32::from(OVERWRITING),
        }
    }

    /// The roll as the independent program has it, if the bytes are as many as a
    /// roll has.
    pub fn independent_roll(&self) -> Option<Roll> {
        Roll::from_bytes(&self.roll)
    }

    /// What the independent program answers, as the number that the C call gives.
    /// It takes a right of one byte.
    pub fn independent_answer(&self, roll: &Roll) -> Option<u32> {
        let right = u8::try_from(self.right).ok()?;
        let rounds = self.rounds as usize;
        let checked = roll.check(&self.key, rounds, &self.grants, self.size_block, right);
        Some(match checked {
            Ok(accepted) => 1000 * u32::from(accepted.right) + u32::from(accepted.contractor),
            Err(refusal) => u32::from(refusal.number()),
        })
    }

    /// The same for a queue, with what it writes to the answers.
    pub fn independent_queue(&self, roll: &Roll, answers: &mut [u8]) -> Option<u32> {
        let right = u8::try_from(self.right).ok()?;
        let rounds = self.rounds as usize;
        let (grants, size_block) = (&self.grants, self.size_block);
        let checked = roll.check_queue(&self.key, rounds, grants, size_block, right, answers);
        Some(match checked {
            Ok(()) => 0,
            Err(refusal) => u32::from(refusal.number()),
        })
    }
}

/// A right: reading or overwriting.
pub fn draw_right(generator: &mut Generator) -> u8 {
    1 + generator.byte() % OVERWRITING
}

/// A figure that stands for overwriting about half of the time.
fn draw_figure(generator: &mut Generator) -> u8 {
    let drawn = usize::from(generator.byte() % 8);
    FIGURES[drawn.saturating_sub(3)]
}

/// A figure that stands for reading.
pub fn draw_low_figure(generator: &mut Generator) -> u8 {
    FIGURES[1 + usize::from(generator.byte() % 4)]
}

/// A grant of a right for a contractor who is in standing on the roll, or is put there. For
/// overwriting they are raised.
pub fn draw_grant(generator: &mut Generator, entries: &mut Entries, right: u8) -> Grant {
    let contractor = 1 + u16::from(generator.byte()) % CONTRACTORS as u16;
    let place = usize::from(contractor) - 1;
    let count = &mut entries.counts[place];
    *count = (*count | 1).min(65_533);
    if right == OVERWRITING {
        entries.figures[place] = OVERWRITING;
    }
    Grant {
        contractor,
        count: *count,
        block: draw_number(generator, 4),
        right,
    }
}

/// A number of so many bytes, big end first.
pub fn draw_number(generator: &mut Generator, bytes: usize) -> u32 {
    (0..bytes).fold(0, |number, _| number << 8 | u32::from(generator.byte()))
}

/// Plain bytes of a grant, enciphered.
pub fn enciphered(key: &[u8], rounds: u32, plain: &[u8]) -> Vec<u8> {
    let mut grant = vec![0; 12];
    let number = LIBRARY.encipher(key, rounds, plain, &mut grant);
    assert_eq!(number, 0, "the size is allowed");
    grant
}
