//! What is walked: a key holder in the bytes that are lent, and the stage to walk it to.

use curupira_reference::holder::{holder_bytes, HOLDER_LENGTH};

pub const HOLDER_BYTES: usize = HOLDER_LENGTH;
pub const STAGE_BYTES: usize = HOLDER_BYTES - 2;

/// A walk of a whole holder.
#[derive(Clone)]
pub struct Walk {
    /// The holder before the walk.
    pub start: [u8; HOLDER_BYTES],
    /// The number of the stage that is walked to.
    pub to: u32,
    /// What the walk answers.
    pub answer: u32,
}

// A key has as many stages as bytes, 6t. Both walks are as long as there are in their
// direction, and go over the seam between the last stage and stage 0.
impl Walk {
    /// Forward from the last stage but one, 3t steps.
    pub fn forward(key: &[u8]) -> Self {
        let (turn, half) = (key.len(), key.len() / 2);
        Walk {
            start: holder_at(key, turn - 2),
            to: half as u32 - 2,
            answer: 1000 + half as u32,
        }
    }

    /// Back from stage 1, 3t - 1 steps.
    pub fn back(key: &[u8]) -> Self {
        let half = key.len() / 2;
        Walk {
            start: holder_at(key, 1),
            to: half as u32 + 2,
            answer: 2000 + half as u32 - 1,
        }
    }
}

/// The holder of a key at one of its stages, by the independent program.
pub fn holder_at(key: &[u8], stage: usize) -> [u8; HOLDER_BYTES] {
    let holder = holder_bytes(key, stage).expect("the key's length is allowed");
    holder.try_into().expect("a holder has 26 bytes")
}
