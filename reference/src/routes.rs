//! The log of lists of calls on a key holder, as plain text. A key holder is not
//! in the paper; what it does stands below and in README.md.
//!
//! A holder has a key of 6t bytes and is at a place, which is the number of a key
//! stage, 0 to 6t - 1. It starts at place 0. These are the calls:
//!
//! - forward: the place becomes one more, and 0 after 6t - 1.
//! - back: the place becomes one less, and 6t - 1 after 0.
//! - walk to d: refused with number 5 if d >= 6t, so that the place stays.
//!   Otherwise the place becomes d, by at most 3t steps one way or the other.
//! - subkey: answers the subkey of the stage at the place, which stays.
//!
//! No stage is kept from one call to the next: a place is a number and no more,
//! and the stage at a place is computed from the key each time it is needed.
//!
//! `routes` has one generator that starts from seed 1. It takes key lengths 12,
//! 18, 24 in this order and for each does this 4 times: draw KEY (12, 18 or 24
//! bytes), draw 200 calls, print the log of these calls. For a call it draws two
//! bytes x and y: x mod 8 is 0 or 1 for forward, 2 or 3 for back, 4 for subkey,
//! and 5, 6 or 7 for walk to y mod 32.

use crate::error::Error;
use crate::generator::Generator;
use crate::matrix::Matrix;
use crate::schedule::{cipher_key, key_stage, select};
use crate::vectors::{add_line, hex, matrix_hex, KEY_LENGTHS, SEED};

/// How many keys of each length there are.
const KEYS_PER_LENGTH: usize = 4;

/// How many calls there are with each key.
const CALLS_PER_KEY: usize = 200;

/// The number of a call that is not refused.
const DONE: u8 = 0;

/// The number with which a walk to a place that there is not is refused.
const NO_SUCH_PLACE: u8 = 5;

/// The number of bytes to which a stage is filled up: those of the longest key.
pub(crate) const FULL_LENGTH: usize = 24;

/// A call on a key holder.
#[derive(Clone, Copy, Debug, PartialEq, Eq)]
pub enum Call {
    /// To the next stage.
    Forward,
    /// To the stage before.
    Back,
    /// To the stage of this number.
    Walk(usize),
    /// Asks for the subkey of the stage at the place.
    Subkey,
}

/// The way in which a holder walks.
#[derive(Clone, Copy, Debug, PartialEq, Eq)]
pub enum Way {
    /// To the stages of greater numbers, and from the last one to stage 0.
    Forward,
    /// To the stages of smaller numbers, and from stage 0 to the last one.
    Back,
}

impl Way {
    /// The word for the way in the log.
    pub(crate) fn word(self) -> &'static str {
        match self {
            Way::Forward => "forward",
            Way::Back => "back",
        }
    }
}

/// What a walk reports, and the place after it.
#[derive(Clone, Copy, Debug, PartialEq, Eq)]
pub struct Walked {
    /// 0, or the number with which the walk is refused.
    pub number: u8,
    /// How many steps the walk takes.
    pub steps: usize,
    /// The way of these steps.
    pub way: Way,
    /// The place after the walk.
    pub place: usize,
}

/// The place one forward from the given one, where `turn` is 6t.
pub fn place_forward(turn: usize, place: usize) -> usize {
    (place + 1) % turn
}

/// The place one back from the given one, where `turn` is 6t.
pub fn place_back(turn: usize, place: usize) -> usize {
    (place + turn - 1) % turn
}

/// A walk from a place below `turn`, which is 6t, to a destination that may be
/// any number. With f = (destination - place) mod 6t it takes f steps forward if
/// f <= 3t and otherwise 6t - f steps back.
pub fn walk(turn: usize, place: usize, destination: usize) -> Walked {
    if destination >= turn {
        return Walked {
            number: NO_SUCH_PLACE,
            steps: 0,
            way: Way::Forward,
            place,
        };
    }
    let f = (destination + turn - place) % turn;
    let (steps, way) = if f <= turn / 2 {
        (f, Way::Forward)
    } else {
        (turn - f, Way::Back)
    };
    Walked {
        number: DONE,
        steps,
        way,
        place: destination,
    }
}

/// The logs of pseudo-random calls for keys of every length.
pub fn routes_text() -> Result<String, Error> {
    let mut generator = Generator::new(SEED);
    let mut text = String::new();
    for key_length in KEY_LENGTHS {
        for _ in 0..KEYS_PER_LENGTH {
            let key = generator.bytes(key_length);
            let calls = draw_calls(&mut generator);
            text.push_str(&route_text(&key, &calls)?);
        }
    }
    Ok(text)
}

/// The calls for one key, drawn one after the other.
fn draw_calls(generator: &mut Generator) -> Vec<Call> {
    (0..CALLS_PER_KEY).map(|_| draw_call(generator)).collect()
}

/// A call drawn from the generator. It takes two bytes, whatever the call.
fn draw_call(generator: &mut Generator) -> Call {
    let x = generator.byte();
    let y = generator.byte();
    match x % 8 {
        0 | 1 => Call::Forward,
        2 | 3 => Call::Back,
        4 => Call::Subkey,
        _ => Call::Walk(usize::from(y % 32)),
    }
}

/// The log of a list of calls on a new holder of a key of 12, 18 or 24 bytes.
pub fn route_text(key: &[u8], calls: &[Call]) -> Result<String, Error> {
    match key.len() {
        12 => Ok(route_text_of::<4>(&cipher_key(key)?, calls)),
        18 => Ok(route_text_of::<6>(&cipher_key(key)?, calls)),
        24 => Ok(route_text_of::<8>(&cipher_key(key)?, calls)),
        other => Err(Error::KeyLength(other)),
    }
}

/// The log for a key of N = 2t columns: the line route, one line for each call,
/// and the lines holder and straight.
fn route_text_of<const N: usize>(key: &Matrix<N>, calls: &[Call]) -> String {
    let mut text = String::new();
    add_line(&mut text, &["route", &matrix_hex(key)]);
    let mut place = 0;
    for call in calls {
        place = add_call_line(&mut text, key, place, *call);
    }
    add_last_lines(&mut text, key, place);
    text
}

/// The line for one call on a holder at the given place. It returns the place
/// after the call.
fn add_call_line<const N: usize>(
    text: &mut String,
    key: &Matrix<N>,
    place: usize,
    call: Call,
) -> usize {
    let turn = 3 * N;
    let done = DONE.to_string();
    match call {
        Call::Forward => {
            let after = place_forward(turn, place);
            add_line(text, &["forward", &done, &after.to_string()]);
            after
        }
        Call::Back => {
            let after = place_back(turn, place);
            add_line(text, &["back", &done, &after.to_string()]);
            after
        }
        Call::Walk(destination) => {
            let walked = walk(turn, place, destination);
            add_walk_line(text, destination, &walked);
            walked.place
        }
        Call::Subkey => {
            let subkey = matrix_hex(&select(&key_stage(key, place)));
            add_line(text, &["subkey", &done, &subkey, &place.to_string()]);
            place
        }
    }
}

/// The line for a walk to the given destination.
fn add_walk_line(text: &mut String, destination: usize, walked: &Walked) {
    add_line(
        text,
        &[
            "walk",
            &destination.to_string(),
            &walked.number.to_string(),
            &walked.steps.to_string(),
            walked.way.word(),
            &walked.place.to_string(),
        ],
    );
}

/// The lines for what the holder has after all calls, and for the stage at its
/// place computed straight from the key. Here it is the same stage.
fn add_last_lines<const N: usize>(text: &mut String, key: &Matrix<N>, place: usize) {
    let length = (3 * N).to_string();
    let stage = full_stage_hex(&key_stage(key, place));
    let done = DONE.to_string();
    let place = place.to_string();
    add_line(text, &["holder", &length, &place, &stage]);
    add_line(text, &["straight", &done, &length, &place, &stage]);
}

/// A stage as hexadecimal digits, by columns, filled up with zero bytes to 24.
fn full_stage_hex<const N: usize>(stage: &Matrix<N>) -> String {
    let mut bytes = stage.to_bytes();
    bytes.resize(FULL_LENGTH, 0);
    hex(&bytes)
}
