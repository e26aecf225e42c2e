//! A key holder in bytes that the caller lends. It is not in the paper; what it
//! does stands below and in README.md.
//!
//! A lent holder has 26 bytes: the key length, the number of the stage, then 24
//! bytes, which are those of the stage and zero bytes past the key's length. It is
//! whole if
//!
//! - the key length is 12, 18 or 24;
//! - the number of the stage is below 6t, which is the key length;
//! - all bytes past the key's length are zero.
//!
//! These are the calls, with the numbers of the reasons for which each is refused.
//! Of several reasons that hold, the first in this order is given. A refused call
//! changes no byte.
//!
//! - make: a holder of a key, at stage 0, in the first 26 of the bytes lent; what
//!   stands after them stays; 1, 4.
//! - forward: to the next stage, and to stage 0 after the last; 24.
//! - back: to the stage before, and to the last after stage 0; 24.
//! - walk: to the stage of a given number, counted as in `routes.rs`; 24, 5.
//! - subkey: the subkey of the stage, in the first 12 bytes of the output; what
//!   stands after them stays, and so does the holder; 24, 4.
//!
//! A call answers the number of the refusal. If it is not refused, a walk answers
//! 1,000 plus its steps forward or 2,000 plus its steps back, and any other call 0.
//!
//! Away from stage 0 the key is not in the holder. To go from one stage to another,
//! the steps of the schedule that led to the one are undone, one by one down to the
//! key, and the other is computed from the key. It is the same for a step forward,
//! for the closing step from the last stage to stage 0, for a step back, and for a
//! walk of any number of steps.

use crate::error::Error;
use crate::matrix::Matrix;
use crate::routes::{place_back, place_forward, walk, Way, FULL_LENGTH};
use crate::schedule::{cipher_key, key_of_stage, key_stage, select};

/// The number of bytes in a lent holder.
pub const HOLDER_LENGTH: usize = 2 + FULL_LENGTH;

/// The number of bytes in a subkey.
const SUBKEY_LENGTH: usize = 12;

/// The answer of a call that is not refused and is no walk.
const DONE: u32 = 0;

/// What a walk forward answers, but for its steps.
const WALKED_FORWARD: u32 = 1_000;

/// What a walk back answers, but for its steps.
const WALKED_BACK: u32 = 2_000;

/// Why a call is refused. The value of each is its number.
#[derive(Clone, Copy, Debug, PartialEq, Eq)]
pub enum Refusal {
    /// The key does not have 12, 18 or 24 bytes.
    KeyLength = 1,
    /// Too few bytes are lent for what is to be written.
    TooShort = 4,
    /// There is no stage of this number.
    NoSuchStage = 5,
    /// The lent bytes are not 26, or they are no whole holder.
    NoHolder = 24,
}

impl Refusal {
    /// The number of the reason.
    pub fn number(self) -> u32 {
        self as u32
    }
}

/// What a whole lent holder says.
struct Holder {
    /// The number of the stage.
    place: usize,
    /// The bytes of the stage, as many as the key has.
    stage: Vec<u8>,
}

impl Holder {
    /// What lent bytes say, if they are 26 and a whole holder.
    fn from_bytes(lent: &[u8]) -> Result<Self, Refusal> {
        if lent.len() != HOLDER_LENGTH {
            return Err(Refusal::NoHolder);
        }
        let length = usize::from(lent[0]);
        let place = usize::from(lent[1]);
        if !is_key_length(length) || place >= length {
            return Err(Refusal::NoHolder);
        }
        let (stage, rest) = lent[2..].split_at(length);
        if rest.iter().any(|byte| *byte != 0) {
            return Err(Refusal::NoHolder);
        }
        Ok(Holder {
            place,
            stage: stage.to_vec(),
        })
    }

    /// The 26 bytes that say this.
    fn to_bytes(&self) -> Vec<u8> {
        let mut bytes = vec![self.stage.len() as u8, self.place as u8];
        bytes.extend(&self.stage);
        bytes.resize(HOLDER_LENGTH, 0);
        bytes
    }

    /// The number of stages, 6t, which is also the key length.
    fn turn(&self) -> usize {
        self.stage.len()
    }

    /// The holder of the same key at another place.
    fn moved(&self, place: usize) -> Self {
        let stage = match self.turn() {
            12 => stage_from::<4>(&self.stage, self.place, place),
            18 => stage_from::<6>(&self.stage, self.place, place),
            _ => stage_from::<8>(&self.stage, self.place, place),
        };
        Holder { place, stage }
    }

    /// The 12 bytes of the subkey of the stage (section 3.8).
    fn subkey(&self) -> Vec<u8> {
        match self.turn() {
            12 => select(&matrix_of::<4>(&self.stage)).to_bytes(),
            18 => select(&matrix_of::<6>(&self.stage)).to_bytes(),
            _ => select(&matrix_of::<8>(&self.stage)).to_bytes(),
        }
    }
}

/// Whether a key can have this many bytes (section 3.5).
fn is_key_length(length: usize) -> bool {
    length == 12 || length == 18 || length == 24
}

/// The matrix of N columns that the bytes of a stage stand for.
fn matrix_of<const N: usize>(stage: &[u8]) -> Matrix<N> {
    Matrix::from_bytes(stage).expect("a stage of N columns has 3N bytes")
}

/// The bytes of stage `to` of the key of N columns whose stage `from` has the given
/// bytes.
fn stage_from<const N: usize>(stage: &[u8], from: usize, to: usize) -> Vec<u8> {
    let key: Matrix<N> = key_of_stage(&matrix_of(stage), from);
    key_stage(&key, to).to_bytes()
}

/// The 26 bytes of a holder of a key of 12, 18 or 24 bytes at the stage of the given
/// number, which is below the key length. The stage is computed straight from the
/// key.
pub fn holder_bytes(key: &[u8], place: usize) -> Result<Vec<u8>, Error> {
    let stage = match key.len() {
        12 => key_stage(&cipher_key::<4>(key)?, place).to_bytes(),
        18 => key_stage(&cipher_key::<6>(key)?, place).to_bytes(),
        24 => key_stage(&cipher_key::<8>(key)?, place).to_bytes(),
        other => return Err(Error::KeyLength(other)),
    };
    Ok(Holder { place, stage }.to_bytes())
}

/// Makes a holder of a key, at stage 0.
pub fn make(key: &[u8], lent: &mut [u8]) -> u32 {
    if !is_key_length(key.len()) {
        return Refusal::KeyLength.number();
    }
    if lent.len() < HOLDER_LENGTH {
        return Refusal::TooShort.number();
    }
    let holder = Holder {
        place: 0,
        stage: key.to_vec(),
    };
    lent[..HOLDER_LENGTH].copy_from_slice(&holder.to_bytes());
    DONE
}

/// Steps forward.
pub fn forward(lent: &mut [u8]) -> u32 {
    step(lent, place_forward)
}

/// Steps back.
pub fn back(lent: &mut [u8]) -> u32 {
    step(lent, place_back)
}

/// Steps to the place that the rule gives for 6t and the place before.
fn step(lent: &mut [u8], rule: fn(usize, usize) -> usize) -> u32 {
    match Holder::from_bytes(lent) {
        Ok(holder) => {
            let place = rule(holder.turn(), holder.place);
            lent.copy_from_slice(&holder.moved(place).to_bytes());
            DONE
        }
        Err(refusal) => refusal.number(),
    }
}

/// Walks to the stage of the given number, which may be any.
pub fn walk_to(destination: usize, lent: &mut [u8]) -> u32 {
    let holder = match Holder::from_bytes(lent) {
        Ok(holder) => holder,
        Err(refusal) => return refusal.number(),
    };
    if destination >= holder.turn() {
        return Refusal::NoSuchStage.number();
    }
    let walked = walk(holder.turn(), holder.place, destination);
    lent.copy_from_slice(&holder.moved(destination).to_bytes());
    let way = match walked.way {
        Way::Forward => WALKED_FORWARD,
        Way::Back => WALKED_BACK,
    };
    way + walked.steps as u32
}

/// Gives the subkey of the stage.
pub fn subkey(lent: &[u8], output: &mut [u8]) -> u32 {
    let holder = match Holder::from_bytes(lent) {
        Ok(holder) => holder,
        Err(refusal) => return refusal.number(),
    };
    if output.len() < SUBKEY_LENGTH {
        return Refusal::TooShort.number();
    }
    output[..SUBKEY_LENGTH].copy_from_slice(&holder.subkey());
    DONE
}
