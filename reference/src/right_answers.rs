//! The worked answers about the entries of the roll and their highest rights, as plain
//! text. They stand among those of `answers.rs`, at the places that are named there.
//!
//! - `empty LENGTH BYTE BYTE BYTE BYTE`: how many bytes an empty roll has, and its bytes
//!   0, 399, 400 and 599. These are the first and the last byte of its counts, and the
//!   first and the last of its figures.
//! - `entry CONTRACTOR COUNT FIGURE HIGHEST`: what the roll whose byte i is i mod 251 has
//!   for a contractor, and the highest right that the figure means.
//! - `placed CONTRACTOR COUNT FIGURE BYTE BYTE BYTE`: of an empty roll in which the
//!   contractor's entry was given this count and this figure, the two bytes of the count
//!   in the order of their places, and the byte of the figure.
//! - `highest FIGURE ASKED YES`: 1 or 0, whether the right ASKED is not above the highest
//!   that the figure means.
//! - `changed CALL CONTRACTOR RIGHT COUNT FIGURE NUMBER COUNT FIGURE`: the number NUMBER of
//!   the call `enter`, `right` or `withdraw`, and what the contractor's entry is before it
//!   and after it. RIGHT is the right that is given, and `-` for `withdraw`, which is given
//!   none. All other entries are those of an empty roll.

use crate::grants::number_of;
use crate::roll::{highest, within, Refusal, Roll, CONTRACTORS, OVERWRITING, READING};
use crate::vectors::add_line;

/// The places in an empty roll whose bytes are printed.
const EMPTY_PLACES: [usize; 4] = [0, 399, 400, 599];

/// The contractors whose entries are read. The figure of 105 is 2. The count of 126 takes
/// bytes 250 and 251, where the bytes of the roll start anew.
const READ: [u16; 5] = [1, 2, 105, 126, 200];

/// The entries that are placed in an empty roll: the contractor, the count, the figure.
const PLACED: [(u16, u16, u8); 3] = [(1, 258, 2), (2, 772, 255), (200, 65_534, 2)];

/// The figures that are compared with both rights.
const FIGURES: [u8; 5] = [0, 1, 2, 3, 255];

/// A call that writes an entry of the roll, with the right that is given to it.
enum Call {
    Enter(u8),
    Right(u8),
    Withdraw,
}

/// The calls on an entry: the call, the contractor, and the count and the figure before.
/// Rights 0 and 3 are none.
const CHANGED: [(Call, u16, u16, u8); 25] = [
    (Call::Enter(READING), 7, 0, 1),
    (Call::Enter(OVERWRITING), 7, 0, 1),
    (Call::Enter(READING), 7, 2, 255),
    (Call::Enter(OVERWRITING), 7, 2, 255),
    (Call::Enter(0), 7, 2, 255),
    (Call::Enter(3), 7, 2, 255),
    (Call::Enter(OVERWRITING), 7, 1, 255),
    (Call::Enter(OVERWRITING), 7, 65_534, 3),
    (Call::Enter(OVERWRITING), 7, 65_535, 3),
    (Call::Right(READING), 200, 1, 1),
    (Call::Right(OVERWRITING), 200, 1, 1),
    (Call::Right(READING), 200, 1, 2),
    (Call::Right(OVERWRITING), 200, 1, 2),
    (Call::Right(READING), 200, 1, 255),
    (Call::Right(OVERWRITING), 200, 1, 255),
    (Call::Right(OVERWRITING), 200, 65_533, 1),
    (Call::Right(0), 200, 1, 3),
    (Call::Right(3), 200, 1, 2),
    (Call::Right(OVERWRITING), 200, 0, 3),
    (Call::Right(OVERWRITING), 200, 2, 3),
    (Call::Right(OVERWRITING), 200, 65_535, 3),
    (Call::Withdraw, 1, 1, 2),
    (Call::Withdraw, 1, 1, 255),
    (Call::Withdraw, 1, 65_533, 2),
    (Call::Withdraw, 1, 2, 2),
];

impl Call {
    /// The fields for the name of the call and for the right that is given to it.
    fn fields(&self) -> (&'static str, String) {
        match self {
            Call::Enter(right) => ("enter", right.to_string()),
            Call::Right(right) => ("right", right.to_string()),
            Call::Withdraw => ("withdraw", String::from("-")),
        }
    }

    /// Makes the call for a contractor.
    fn make(&self, roll: &mut Roll, contractor: u16) -> Result<(), Refusal> {
        match self {
            Call::Enter(right) => roll.enter(contractor, *right),
            Call::Right(right) => roll.change_right(contractor, *right),
            Call::Withdraw => roll.withdraw(contractor),
        }
    }
}

/// An empty roll in which one contractor's entry was given a count and a figure.
pub(crate) fn roll_with_entry(contractor: u16, count: u16, figure: u8) -> Roll {
    let place = usize::from(contractor) - 1;
    let mut counts = [0; CONTRACTORS];
    let mut figures = [READING; CONTRACTORS];
    counts[place] = count;
    figures[place] = figure;
    Roll::with_entries(counts, figures)
}

/// The line for an empty roll.
pub(crate) fn add_empty_line(text: &mut String) {
    let bytes = Roll::new().to_bytes();
    let length = bytes.len().to_string();
    let [a, b, c, d] = EMPTY_PLACES.map(|place| bytes[place].to_string());
    add_line(text, &["empty", &length, &a, &b, &c, &d]);
}

/// The lines for the entries of a roll that is read from bytes.
pub(crate) fn add_entry_lines(text: &mut String) {
    let bytes: Vec<u8> = (0..251).cycle().take(600).collect();
    let roll = Roll::from_bytes(&bytes).expect("a roll has 600 bytes");
    for contractor in READ {
        let (count, figure) = entry_of(&roll, contractor);
        add_line(
            text,
            &[
                "entry",
                &contractor.to_string(),
                &count.to_string(),
                &figure.to_string(),
                &highest(figure).to_string(),
            ],
        );
    }
}

/// The count and the figure of a contractor.
fn entry_of(roll: &Roll, contractor: u16) -> (u16, u8) {
    let count = roll.count(contractor);
    let figure = roll.figure(contractor);
    let known = "there is such a contractor";
    (count.expect(known), figure.expect(known))
}

/// The lines for entries that are written to bytes.
pub(crate) fn add_placed_lines(text: &mut String) {
    for (contractor, count, figure) in PLACED {
        let bytes = roll_with_entry(contractor, count, figure).to_bytes();
        let place = usize::from(contractor) - 1;
        add_line(
            text,
            &[
                "placed",
                &contractor.to_string(),
                &count.to_string(),
                &figure.to_string(),
                &bytes[2 * place].to_string(),
                &bytes[2 * place + 1].to_string(),
                &bytes[400 + place].to_string(),
            ],
        );
    }
}

/// The lines for figures and rights asked for.
pub(crate) fn add_highest_lines(text: &mut String) {
    for figure in FIGURES {
        for asked in [READING, OVERWRITING] {
            let yes = if within(figure, asked) { "1" } else { "0" };
            let [figure, asked] = [figure, asked].map(|byte| byte.to_string());
            add_line(text, &["highest", &figure, &asked, yes]);
        }
    }
}

/// The lines for calls that write an entry, or are refused and leave it.
pub(crate) fn add_changed_lines(text: &mut String) {
    for (call, contractor, count, figure) in CHANGED {
        let mut roll = roll_with_entry(contractor, count, figure);
        let number = number_of(&call.make(&mut roll, contractor));
        let (name, right) = call.fields();
        let (count_after, figure_after) = entry_of(&roll, contractor);
        add_line(
            text,
            &[
                "changed",
                name,
                &contractor.to_string(),
                &right,
                &count.to_string(),
                &figure.to_string(),
                &number,
                &count_after.to_string(),
                &figure_after.to_string(),
            ],
        );
    }
}
