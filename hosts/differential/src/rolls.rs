//! Rolls as bytes, and as the independent program has them.

use curupira_reference::roll::{Roll, CONTRACTORS};

/// The bytes of a roll.
pub const ROLL_BYTES: usize = 600;

/// Where the figures begin, which stand for highest rights: after the counts.
pub const FIGURES: usize = 400;

/// The count of a contractor from 1 to 200: two bytes, big end first.
pub fn count(roll: &[u8], contractor: u32) -> u16 {
    let place = 2 * (contractor as usize - 1);
    u16::from_be_bytes([roll[place], roll[place + 1]])
}

/// Gives a contractor from 1 to 200 another count.
pub fn set_count(roll: &mut [u8], contractor: u32, count: u16) {
    let place = 2 * (contractor as usize - 1);
    roll[place..place + 2].copy_from_slice(&count.to_be_bytes());
}

/// The figure of a contractor from 1 to 200: one byte.
pub fn figure(roll: &[u8], contractor: u32) -> u8 {
    roll[FIGURES + contractor as usize - 1]
}

/// Gives a contractor from 1 to 200 another figure.
pub fn set_figure(roll: &mut [u8], contractor: u32, figure: u8) {
    roll[FIGURES + contractor as usize - 1] = figure;
}

/// Whether a number is that of a contractor.
pub fn is_contractor(contractor: u32) -> bool {
    (1..=CONTRACTORS as u32).contains(&contractor)
}

/// Whether a contractor with this count is in standing.
pub fn in_standing(count: u16) -> bool {
    count % 2 == 1 && count != u16::MAX
}

/// Whether a figure stands for overwriting. Every other one stands for reading only.
pub fn may_overwrite(figure: u8) -> bool {
    figure == 2
}

/// A roll on which nobody was ever entered: every count is 0, and every figure is 1.
pub fn empty() -> Vec<u8> {
    let mut roll = vec![0; FIGURES];
    roll.resize(ROLL_BYTES, 1);
    roll
}

/// The roll of the independent program with these 600 bytes. It reads them itself, so that it has
/// its own opinion on where an entry stands.
pub fn model(roll: &[u8]) -> Roll {
    Roll::from_bytes(roll).expect("a roll has 600 bytes")
}
