//! Worked answers to fixed questions, as plain text. Nothing is drawn from a
//! generator: all inputs stand in this file, in `right_answers.rs`,
//! `page_answers.rs` and `zero_answers.rs`, and in README.md.
//!
//! The keys are the first 12, the first 18 and all 24 bytes of KEY. The lines come
//! in this order:
//!
//! - `limits L LEAST MOST`: the least and the greatest number of rounds for keys of
//!   L bytes.
//! - `roll BYTES COUNT ...`: the counts of contractors 1, 2, ... in the first bytes of a
//!   roll.
//! - `rollbytes COUNT ... BYTES`: the first bytes of a roll that has these counts.
//! - `empty`, `entry` and `placed`: what these lines are stands at the top of
//!   `right_answers.rs`.
//! - `block BYTES ROW0 ROW1 ROW2`: the rows of the state that a block stands for.
//! - `stage KEY s STAGE SUBKEY`: stage s of a key and its subkey, for s = 1, 2 and
//!   6t - 1.
//! - `closing L SUM`: what the 6t - 1 steps of the schedule make of the zero key of
//!   L bytes.
//! - `constant L s BYTES`: the constant of step s for keys of L bytes, for s = 0, 1,
//!   6t - 1, 6t, 6t + 1 and 65.
//! - `list KEY R LIST`, `turned KEY R TURNED`: the subkeys 0 to R, and the
//!   decryption keys of Theorem 1.
//! - `plain CONTRACTOR COUNT BLOCK RIGHT BYTES`: the plain bytes of a grant.
//! - `covers GRANTED ASKED YES`: 1 or 0, whether a grant with the right GRANTED may be
//!   used for the right ASKED, for all of 0 to 3, ASKED being the faster one.
//! - `highest`: see the top of `right_answers.rs`.
//! - `judged PLAIN COUNT FIGURE BLOCK RIGHT NUMBER CONTRACTOR ANSWERED`: what a check says
//!   of a grant with the plain bytes PLAIN, asked for a size block and a right, where the
//!   roll has COUNT and FIGURE for the contractor in PLAIN.
//! - `walk L FROM TO STEPS WAY`: what a walk of a holder of a key of L bytes reports.
//! - `lent KEY s BYTES`: the 26 bytes of a lent holder of a key at stage s, for s = 0,
//!   1 and 6t - 1.
//! - `walked L FROM TO ANSWER`: the number that a walk of a lent holder answers, for
//!   the same walks, then for one to 6t from 0 for each key.
//! - `broken BYTES ANSWER`: the number that a step forward on lent bytes answers.
//! - `standing COUNT yes|no`: whether a contractor with this count is in standing.
//! - `changed`: see the top of `right_answers.rs`.
//! - `queued LENGTH yes|no`: whether so many bytes are those of a queue of grants.
//! - `queue KEY ROUNDS COUNT,COUNT,... FIGURE,FIGURE,... GRANTS BLOCK RIGHT ANSWER ANSWER
//!   ...`: the answers for the enciphered grants of a queue, in their order, asked for a
//!   size block and a right, where the roll has these counts and these figures for
//!   contractors 1, 2, ..., and count 0 and figure 1 for all later ones.
//! - `order CALL A B GIVEN`: the number with which a call is refused for which the
//!   reasons A and B hold, and no reason that comes before A.
//! - the lines for sealed pages, which stand at the top of `page_answers.rs`.
//! - the lines about size block 0, which stand at the top of `zero_answers.rs`.
//!
//! A and B are neighbours in the order of the reasons for a call. Some neighbours
//! have no line:
//!
//! - Enter has the order 6, 7, 21, 22, but 21 and 22 do not hold together: with count
//!   65,534 or 65,535, which is reason 22, a contractor is not in standing. So there is
//!   a line for 7 and 22 instead, next to the one for 7 and 21.
//! - Issue has the order 1, 2, 4, 6, 7, 14, 20, 25, but no input for reason 4, an output
//!   that is too short, because it returns the grant. So 6 comes next to 2.
//!
//! The reasons 6 and 20 of withdraw do hold together: a contractor without a count
//! is not in standing. So do the reasons 3 and 4 of a queue: 65 grants are too many,
//! and 64 bytes are too few for their answers.
//!
//! The grants of `judged` are all for contractor 7, with count 1 and size block 300.
//!
//! The two lines `queue` have the same five grants, all for size block 300. Overwriting
//! is asked for in the first, reading in the second.
//!
//! The whole holders of `broken` stand last; they are at stage 6t - 1. The bytes of
//! the lines before come from these by a single change each, but for those without
//! any byte.

use crate::cipher::{allowed_rounds, decryption_keys, encrypt, state_of};
use crate::error::Error;
use crate::grants::{answer_of, number_of};
use crate::holder::{forward, holder_bytes, walk_to};
use crate::matrix::Matrix;
use crate::page_answers::add_page_answers;
use crate::right_answers::{
    add_changed_lines, add_empty_line, add_entry_lines, add_highest_lines, add_placed_lines,
    roll_with_entry,
};
use crate::roll::{
    counts_from_bytes, counts_to_bytes, covers, in_standing, queue_length, Grant, Roll,
    CONTRACTORS, OVERWRITING, READING, ZERO_BLOCK,
};
use crate::routes::walk;
use crate::schedule::{cipher_key, closing_sum, key_stage, round_subkeys, select};
use crate::vectors::{add_constant_line, add_line, hex, list_hex, matrix_hex, KEY_LENGTHS};
use crate::zero_answers::add_zero_answers;

/// The key of 24 bytes. The others are its first 12 and its first 18.
pub(crate) const KEY: [u8; 24] = [
    0x0F, 0x1E, 0x2D, 0x3C, 0x4B, 0x5A, 0x69, 0x78, 0x87, 0x96, 0xA5, 0xB4, 0xC3, 0xD2, 0xE1, 0xF0,
    0x01, 0x12, 0x23, 0x34, 0x45, 0x56, 0x67, 0x70,
];

/// The length of the key for the list of subkeys and for the calls that are
/// refused.
pub(crate) const SHORT: usize = 12;

/// The number of rounds with this key.
pub(crate) const ROUNDS: usize = 10;

/// The first bytes of a roll, from which counts are read.
const ROLL_READ: [u8; 8] = [0x01, 0x02, 0x03, 0x04, 0xFF, 0xFE, 0x00, 0x01];

/// The counts that are written as the first bytes of a roll.
const ROLL_WRITTEN: [u16; 4] = [1, 256, 4_660, 65_534];

/// The block whose rows are printed.
const BLOCK: [u8; 12] = [0, 1, 2, 3, 4, 5, 6, 7, 8, 9, 10, 11];

/// The grants whose plain bytes are printed.
const GRANTS: [Grant; 2] = [
    Grant {
        contractor: 200,
        count: 4_661,
        block: 16_909_060,
        right: READING,
    },
    Grant {
        contractor: 7,
        count: 1,
        block: 300,
        right: OVERWRITING,
    },
];

/// The checks that are judged: the right in the grant, the contractor's count and figure
/// in the roll, and the size block and the right that are asked for. Rights 0 and 3 are
/// none.
const JUDGED: [(u8, u16, u8, u32, u8); 20] = [
    (OVERWRITING, 1, 2, 300, READING),
    (OVERWRITING, 1, 2, 300, OVERWRITING),
    (READING, 1, 2, 300, READING),
    (READING, 1, 2, 300, OVERWRITING),
    (OVERWRITING, 1, 2, 301, READING),
    (OVERWRITING, 2, 2, 300, READING),
    (OVERWRITING, 3, 2, 300, READING),
    (3, 1, 2, 300, READING),
    (3, 1, 2, 300, OVERWRITING),
    (0, 1, 2, 300, READING),
    (OVERWRITING, 1, 0, 300, OVERWRITING),
    (OVERWRITING, 1, 1, 300, OVERWRITING),
    (OVERWRITING, 1, 3, 300, OVERWRITING),
    (OVERWRITING, 1, 255, 300, OVERWRITING),
    (OVERWRITING, 1, 0, 300, READING),
    (OVERWRITING, 1, 1, 300, READING),
    (OVERWRITING, 1, 255, 300, READING),
    (READING, 1, 1, 300, OVERWRITING),
    (OVERWRITING, 3, 1, 300, OVERWRITING),
    (OVERWRITING, 2, 1, 300, OVERWRITING),
];

/// The walks: the key length, and the places from which and to which they go.
const WALKS: [(usize, usize, usize); 11] = [
    (12, 0, 0),
    (12, 0, 6),
    (12, 0, 7),
    (12, 11, 0),
    (12, 0, 11),
    (18, 0, 9),
    (18, 0, 10),
    (24, 0, 12),
    (24, 0, 13),
    (24, 23, 1),
    (24, 1, 23),
];

/// The counts with which a contractor is or is not in standing.
const COUNTS: [u16; 7] = [0, 1, 2, 65_532, 65_533, 65_534, 65_535];

/// The numbers of bytes that are or are not those of a queue.
const QUEUE_LENGTHS: [usize; 11] = [0, 1, 11, 12, 13, 24, 756, 767, 768, 769, 780];

/// The counts of contractors 1, 2 and 3 in the roll of the queue that is answered.
pub(crate) const QUEUE_COUNTS: [u16; 3] = [1, 2, 3];

/// The figures of these contractors. Only contractor 1 may overwrite.
pub(crate) const QUEUE_FIGURES: [u8; 3] = [2, 1, 255];

/// The grants of this queue: the contractor, the count, the size block and the right.
const QUEUE: [(u16, u16, u32, u8); 5] = [
    (1, 1, 300, OVERWRITING),
    (1, 1, 300, READING),
    (2, 2, 300, OVERWRITING),
    (3, 1, 300, OVERWRITING),
    (3, 3, 300, OVERWRITING),
];

/// What the bytes lent for answers have before: no number of an answer.
pub(crate) const UNWRITTEN: u8 = 0xFF;

/// The pairs of reasons for entering.
const ENTER_PAIRS: [[u8; 2]; 3] = [[6, 7], [7, 21], [7, 22]];

/// The pairs of reasons for a change of right.
const CHANGE_PAIRS: [[u8; 2]; 2] = [[6, 7], [7, 20]];

/// The pairs of reasons for a withdrawal.
const WITHDRAW_PAIRS: [[u8; 2]; 1] = [[6, 20]];

/// The pairs of reasons for an issue.
const ISSUE_PAIRS: [[u8; 2]; 6] = [[1, 2], [2, 6], [6, 7], [7, 14], [14, 20], [20, 25]];

/// The pairs of reasons for a check.
const CHECK_PAIRS: [[u8; 2]; 10] = [
    [1, 2],
    [2, 3],
    [3, 7],
    [7, 14],
    [14, 8],
    [8, 9],
    [9, 10],
    [10, 20],
    [20, 23],
    [23, 25],
];

/// The pairs of reasons for a queue.
const QUEUE_PAIRS: [[u8; 2]; 5] = [[1, 2], [2, 3], [3, 4], [4, 7], [7, 14]];

/// The contractor of a call in which nothing is wrong.
pub(crate) const CONTRACTOR: u16 = 7;

/// The number of the size block of a call in which nothing is wrong.
pub(crate) const SIZE_BLOCK: u32 = 300;

/// Everyone's count in the roll of a call in which nothing is wrong. Entering has one
/// less, so that nobody is in standing.
pub(crate) const COUNT: u16 = 3;

/// All worked answers.
pub fn answers_text() -> Result<String, Error> {
    let mut text = String::new();
    add_limits_lines(&mut text)?;
    add_roll_lines(&mut text);
    add_empty_line(&mut text);
    add_entry_lines(&mut text);
    add_placed_lines(&mut text);
    add_block_line(&mut text)?;
    add_stage_lines::<4>(&mut text)?;
    add_stage_lines::<6>(&mut text)?;
    add_stage_lines::<8>(&mut text)?;
    add_closing_line::<4>(&mut text);
    add_closing_line::<6>(&mut text);
    add_closing_line::<8>(&mut text);
    add_constant_lines(&mut text)?;
    add_list_lines(&mut text)?;
    add_plain_lines(&mut text);
    add_covers_lines(&mut text);
    add_highest_lines(&mut text);
    add_judged_lines(&mut text);
    add_walk_lines(&mut text);
    add_lent_lines(&mut text)?;
    add_walked_lines(&mut text)?;
    add_broken_lines(&mut text)?;
    add_standing_lines(&mut text);
    add_changed_lines(&mut text);
    add_queued_lines(&mut text);
    add_queue_lines(&mut text);
    add_roll_order_lines(&mut text);
    add_page_answers(&mut text);
    add_zero_answers(&mut text);
    Ok(text)
}

/// The lines for the pairs of reasons for all calls on a roll.
fn add_roll_order_lines(text: &mut String) {
    add_order_lines(text, "enter", &ENTER_PAIRS, enter_with);
    add_order_lines(text, "right", &CHANGE_PAIRS, change_with);
    add_order_lines(text, "withdraw", &WITHDRAW_PAIRS, withdraw_with);
    add_order_lines(text, "issue", &ISSUE_PAIRS, issue_with);
    add_order_lines(text, "check", &CHECK_PAIRS, check_with);
    add_order_lines(text, "queue", &QUEUE_PAIRS, queue_with);
}

/// The lines for the numbers of rounds in Table 2 (section 3.9).
fn add_limits_lines(text: &mut String) -> Result<(), Error> {
    for key_length in KEY_LENGTHS {
        let rounds = allowed_rounds(key_length)?;
        let least = rounds.start().to_string();
        let most = rounds.end().to_string();
        add_line(text, &["limits", &key_length.to_string(), &least, &most]);
    }
    Ok(())
}

/// The line for counts that are read, and the line for counts that are written.
fn add_roll_lines(text: &mut String) {
    let read = counts_from_bytes(&ROLL_READ).expect("the number of bytes is even");
    add_line(text, &["roll", &hex(&ROLL_READ), &decimals(&read, " ")]);
    let counts = decimals(&ROLL_WRITTEN, " ");
    let written = hex(&counts_to_bytes(&ROLL_WRITTEN));
    add_line(text, &["rollbytes", &counts, &written]);
}

/// Numbers in decimal, with the same text between each two.
pub(crate) fn decimals<T: ToString>(numbers: &[T], between: &str) -> String {
    let fields: Vec<String> = numbers.iter().map(T::to_string).collect();
    fields.join(between)
}

/// The line for the rows of a block.
fn add_block_line(text: &mut String) -> Result<(), Error> {
    let [first, second, third] = state_of(&BLOCK)?.rows.map(|row| hex(&row));
    add_line(text, &["block", &hex(&BLOCK), &first, &second, &third]);
    Ok(())
}

/// The lines for stages 1, 2 and 6t - 1 = 3N - 1 of the key of N columns (sections
/// 3.7 and 3.8).
fn add_stage_lines<const N: usize>(text: &mut String) -> Result<(), Error> {
    let user_key = &KEY[..3 * N];
    let key: Matrix<N> = cipher_key(user_key)?;
    for s in [1, 2, 3 * N - 1] {
        let stage = key_stage(&key, s);
        let subkey = matrix_hex(&select(&stage));
        let stage = matrix_hex(&stage);
        add_line(
            text,
            &["stage", &hex(user_key), &s.to_string(), &stage, &subkey],
        );
    }
    Ok(())
}

/// The line for the closing sum for keys of N columns, which have 6t = 3N bytes.
fn add_closing_line<const N: usize>(text: &mut String) {
    let sum = matrix_hex(&closing_sum::<N>());
    add_line(text, &["closing", &(3 * N).to_string(), &sum]);
}

/// The lines for the constants of the first step and of the last two, and for numbers
/// outside 1 to 6t. For keys of any length, 65 is a number for which the formula of
/// section 3.6 would find nothing in the S-box.
fn add_constant_lines(text: &mut String) -> Result<(), Error> {
    for turn in KEY_LENGTHS {
        for s in [0, 1, turn - 1, turn, turn + 1, 65] {
            add_constant_line(text, turn, s)?;
        }
    }
    Ok(())
}

/// The lines for the subkeys of the short key (section 3.8) and for the decryption
/// keys that come from them (section 3.10).
fn add_list_lines(text: &mut String) -> Result<(), Error> {
    let key = &KEY[..SHORT];
    let list = round_subkeys(key, ROUNDS)?;
    let turned = decryption_keys(&list)?;
    let rounds = ROUNDS.to_string();
    add_line(text, &["list", &hex(key), &rounds, &list_hex(&list)]);
    add_line(text, &["turned", &hex(key), &rounds, &list_hex(&turned)]);
    Ok(())
}

/// The lines for the plain bytes of grants.
fn add_plain_lines(text: &mut String) {
    for grant in GRANTS {
        add_line(
            text,
            &[
                "plain",
                &grant.contractor.to_string(),
                &grant.count.to_string(),
                &grant.block.to_string(),
                &grant.right.to_string(),
                &hex(&grant.plain_bytes()),
            ],
        );
    }
}

/// The lines for rights in a grant and rights asked for, 0 and 3 being none.
fn add_covers_lines(text: &mut String) {
    for granted in 0..=3 {
        for asked in 0..=3 {
            let yes = if covers(granted, asked) { "1" } else { "0" };
            let [granted, asked] = [granted, asked].map(|right: u8| right.to_string());
            add_line(text, &["covers", &granted, &asked, yes]);
        }
    }
}

/// The lines for checks of grants with the contractor and the size block of a call in
/// which nothing is wrong, and count 1.
fn add_judged_lines(text: &mut String) {
    for (granted, count, figure, block, asked) in JUDGED {
        let grant = Grant {
            contractor: CONTRACTOR,
            count: 1,
            block: SIZE_BLOCK,
            right: granted,
        };
        add_judgement_line(text, "judged", &grant, (count, figure), (block, asked));
    }
}

/// The line of a name for a check of a grant, asked for a size block and a right, where
/// the roll has a count and a figure for the contractor in the grant.
pub(crate) fn add_judgement_line(
    text: &mut String,
    name: &str,
    grant: &Grant,
    (count, figure): (u16, u8),
    (block, asked): (u32, u8),
) {
    let plain = grant.plain_bytes();
    let roll = roll_with_entry(grant.contractor, count, figure);
    let checked = roll.check(&KEY[..SHORT], ROUNDS, &enciphered(&plain), block, asked);
    add_line(
        text,
        &[
            name,
            &hex(&plain),
            &count.to_string(),
            &figure.to_string(),
            &block.to_string(),
            &asked.to_string(),
            &answer_of(&checked),
        ],
    );
}

/// Plain bytes enciphered under the short key.
fn enciphered(plain: &[u8]) -> Vec<u8> {
    let bytes = encrypt(&KEY[..SHORT], ROUNDS, plain);
    bytes.expect("the key, the rounds and the block are allowed")
}

/// The lines for walks, none of which is refused.
fn add_walk_lines(text: &mut String) {
    for (turn, from, to) in WALKS {
        let walked = walk(turn, from, to);
        add_line(
            text,
            &[
                "walk",
                &turn.to_string(),
                &from.to_string(),
                &to.to_string(),
                &walked.steps.to_string(),
                walked.way.word(),
            ],
        );
    }
}

/// The lines for lent holders at stages 0, 1 and 6t - 1.
fn add_lent_lines(text: &mut String) -> Result<(), Error> {
    for turn in KEY_LENGTHS {
        let key = &KEY[..turn];
        for s in [0, 1, turn - 1] {
            let lent = hex(&holder_bytes(key, s)?);
            add_line(text, &["lent", &hex(key), &s.to_string(), &lent]);
        }
    }
    Ok(())
}

/// The lines for the same walks with lent holders, and for walks to 6t, which are
/// refused.
fn add_walked_lines(text: &mut String) -> Result<(), Error> {
    let refused = KEY_LENGTHS.map(|turn| (turn, 0, turn));
    for (turn, from, to) in WALKS.into_iter().chain(refused) {
        let mut lent = holder_bytes(&KEY[..turn], from)?;
        let answer = walk_to(to, &mut lent);
        add_line(
            text,
            &[
                "walked",
                &turn.to_string(),
                &from.to_string(),
                &to.to_string(),
                &answer.to_string(),
            ],
        );
    }
    Ok(())
}

/// Bytes as hexadecimal digits, or `-` if there are none.
pub(crate) fn hex_or_dash(bytes: &[u8]) -> String {
    if bytes.is_empty() {
        String::from("-")
    } else {
        hex(bytes)
    }
}

/// The lines for steps forward on lent bytes.
fn add_broken_lines(text: &mut String) -> Result<(), Error> {
    for mut lent in broken_and_whole()? {
        let digits = hex_or_dash(&lent);
        let answer = forward(&mut lent).to_string();
        add_line(text, &["broken", &digits, &answer]);
    }
    Ok(())
}

/// The lent bytes of these lines: without the last byte, with one more, none; with a
/// key length that there is not, a stage number that there is not, a byte past the
/// key that is not zero; and three whole holders.
fn broken_and_whole() -> Result<Vec<Vec<u8>>, Error> {
    let short = holder_bytes(&KEY[..12], 11)?;
    let middle = holder_bytes(&KEY[..18], 17)?;
    let long = holder_bytes(&KEY[..24], 23)?;
    Ok(vec![
        short[..25].to_vec(),
        [&short[..], &[0]].concat(),
        Vec::new(),
        with_byte(&short, 0, 13),
        with_byte(&short, 1, 12),
        with_byte(&short, 2 + 12, 1),
        with_byte(&middle, 2 + 18, 1),
        short,
        middle,
        long,
    ])
}

/// The bytes with the one at a position replaced.
pub(crate) fn with_byte(bytes: &[u8], position: usize, value: u8) -> Vec<u8> {
    let mut changed = bytes.to_vec();
    changed[position] = value;
    changed
}

/// The word for whether something is so.
pub(crate) fn yes_or_no(so: bool) -> &'static str {
    if so {
        "yes"
    } else {
        "no"
    }
}

/// The lines for counts with which a contractor is or is not in standing.
fn add_standing_lines(text: &mut String) {
    for count in COUNTS {
        let word = yes_or_no(in_standing(count));
        add_line(text, &["standing", &count.to_string(), word]);
    }
}

/// The lines for numbers of bytes that are or are not those of a queue.
fn add_queued_lines(text: &mut String) {
    for length in QUEUE_LENGTHS {
        let word = yes_or_no(queue_length(length));
        add_line(text, &["queued", &length.to_string(), word]);
    }
}

/// The lines for the queue, asked for overwriting and then for reading.
fn add_queue_lines(text: &mut String) {
    let grants = queued_grants();
    for right in [OVERWRITING, READING] {
        let answers = queue_answers(&grants, right);
        add_line(
            text,
            &[
                "queue",
                &hex(&KEY[..SHORT]),
                &ROUNDS.to_string(),
                &decimals(&QUEUE_COUNTS, ","),
                &decimals(&QUEUE_FIGURES, ","),
                &hex(&grants),
                &SIZE_BLOCK.to_string(),
                &right.to_string(),
                &decimals(&answers, " "),
            ],
        );
    }
}

/// The enciphered grants of the queue, one after the other.
fn queued_grants() -> Vec<u8> {
    let mut bytes = Vec::new();
    for (contractor, count, block, right) in QUEUE {
        let grant = Grant {
            contractor,
            count,
            block,
            right,
        };
        bytes.extend(enciphered(&grant.plain_bytes()));
    }
    bytes
}

/// The answers for the grants of the queue.
fn queue_answers(grants: &[u8], right: u8) -> [u8; QUEUE.len()] {
    let roll = queue_roll();
    let mut answers = [UNWRITTEN; QUEUE.len()];
    let key = &KEY[..SHORT];
    let called = roll.check_queue(key, ROUNDS, grants, SIZE_BLOCK, right, &mut answers);
    called.expect("the key, the rounds, the queue and the right are allowed");
    answers
}

/// The roll of the queue: three entries, and those of an empty roll after them.
pub(crate) fn queue_roll() -> Roll {
    let mut counts = [0; CONTRACTORS];
    counts[..QUEUE_COUNTS.len()].copy_from_slice(&QUEUE_COUNTS);
    let mut figures = [READING; CONTRACTORS];
    figures[..QUEUE_FIGURES.len()].copy_from_slice(&QUEUE_FIGURES);
    Roll::with_entries(counts, figures)
}

/// The lines `order` for the pairs of reasons for one call. `call_with` makes the call
/// with an input for which the given reasons hold.
pub(crate) fn add_order_lines(
    text: &mut String,
    call: &str,
    pairs: &[[u8; 2]],
    call_with: fn(&[u8]) -> String,
) {
    add_reason_lines(text, ["order", call], pairs, call_with);
}

/// The lines of a name for the pairs of reasons for one call.
pub(crate) fn add_reason_lines(
    text: &mut String,
    [name, call]: [&str; 2],
    pairs: &[[u8; 2]],
    call_with: fn(&[u8]) -> String,
) {
    for pair in pairs {
        let [a, b] = pair.map(|reason| reason.to_string());
        add_line(text, &[name, call, &a, &b, &call_with(pair)]);
    }
}

/// The number of an entering for which the given reasons hold, of 6, 7, 21 and 22. For
/// reason 21 everyone is in standing, and for reason 22 everyone's count is full.
pub fn enter_with(reasons: &[u8]) -> String {
    let count = if reasons.contains(&21) {
        COUNT
    } else if reasons.contains(&22) {
        65_534
    } else {
        COUNT - 1
    };
    let mut roll = Roll::with_entries([count; CONTRACTORS], [READING; CONTRACTORS]);
    number_of(&roll.enter(contractor_with(reasons), right_with(reasons)))
}

/// The number of a change of right for which the given reasons hold, of 6, 7 and 20.
pub fn change_with(reasons: &[u8]) -> String {
    let mut roll = roll_with(reasons);
    number_of(&roll.change_right(contractor_with(reasons), right_with(reasons)))
}

/// The number of a withdrawal for which the given reasons hold, of 6 and 20.
pub fn withdraw_with(reasons: &[u8]) -> String {
    let mut roll = roll_with(reasons);
    number_of(&roll.withdraw(contractor_with(reasons)))
}

/// The number of an issue for which the given reasons hold, of 1, 2, 6, 7, 14, 20 and
/// 25.
pub fn issue_with(reasons: &[u8]) -> String {
    let (key, rounds) = key_and_rounds_with(reasons);
    let contractor = contractor_with(reasons);
    let block = block_with(reasons);
    let right = right_with(reasons);
    number_of(&roll_with(reasons).issue(key, rounds, contractor, block, right))
}

/// The number of a check for which the given reasons hold, of 1, 2, 3, 7, 14, 8, 9, 10,
/// 20, 23 and 25.
pub fn check_with(reasons: &[u8]) -> String {
    let (key, rounds) = key_and_rounds_with(reasons);
    let grant = grant_with(reasons);
    let block = block_with(reasons);
    let right = right_with(reasons);
    number_of(&roll_with(reasons).check(key, rounds, &grant, block, right))
}

/// The number of a queue for which the given reasons hold, of 1, 2, 3, 4, 7 and 14. It
/// has 64 grants, and for reason 3 one more. One byte is lent for each, and for reason 4
/// one byte less in all. The reasons 8, 9, 10, 20, 23 and 25 hold for every one of the
/// grants, and do not refuse the queue.
pub fn queue_with(reasons: &[u8]) -> String {
    let (key, rounds) = key_and_rounds_with(reasons);
    let of_grants: Vec<u8> = reasons.iter().copied().filter(|r| *r != 3).collect();
    let count = if reasons.contains(&3) { 65 } else { 64 };
    let lent = if reasons.contains(&4) {
        count - 1
    } else {
        count
    };
    let grants = grant_with(&of_grants).repeat(count);
    let mut answers = vec![UNWRITTEN; lent];
    let (block, right) = (block_with(reasons), right_with(reasons));
    let roll = roll_with(reasons);
    number_of(&roll.check_queue(key, rounds, &grants, block, right, &mut answers))
}

/// The key and the number of rounds of a call. For reason 1 the key has 11 bytes.
/// For reason 2 the rounds are 12, which Table 2 (section 3.9) has for no key.
fn key_and_rounds_with(reasons: &[u8]) -> (&'static [u8], usize) {
    let length = if reasons.contains(&1) {
        SHORT - 1
    } else {
        SHORT
    };
    let rounds = if reasons.contains(&2) { 12 } else { ROUNDS };
    (&KEY[..length], rounds)
}

/// The contractor of a call: for reason 6 the number after the last.
fn contractor_with(reasons: &[u8]) -> u16 {
    if reasons.contains(&6) {
        201
    } else {
        CONTRACTOR
    }
}

/// The size block that is asked for: for reason 14 it is 0, and for reason 9 alone the
/// one after that of the grant.
fn block_with(reasons: &[u8]) -> u32 {
    if reasons.contains(&14) {
        ZERO_BLOCK
    } else if reasons.contains(&9) {
        SIZE_BLOCK + 1
    } else {
        SIZE_BLOCK
    }
}

/// The size block in the grant of a check. For reason 14 it is 0 too, as in a grant that
/// was issued before there was this reason, so that reason 9 does not hold as well; but
/// if it is wanted, the grant is for another.
fn block_in_grant_with(reasons: &[u8]) -> u32 {
    if reasons.contains(&14) && !reasons.contains(&9) {
        ZERO_BLOCK
    } else {
        SIZE_BLOCK
    }
}

/// The right that is asked for or given: overwriting, and for reason 7 none.
fn right_with(reasons: &[u8]) -> u8 {
    if reasons.contains(&7) {
        3
    } else {
        OVERWRITING
    }
}

/// The right in the grant of a check: for reason 10 only reading.
fn granted_with(reasons: &[u8]) -> u8 {
    if reasons.contains(&10) {
        READING
    } else {
        OVERWRITING
    }
}

/// The roll of a call, in which everyone has the same count and the same figure. For
/// reason 20 nobody is in standing, and for reason 25 nobody may more than read.
pub(crate) fn roll_with(reasons: &[u8]) -> Roll {
    let figure = if reasons.contains(&25) {
        READING
    } else {
        OVERWRITING
    };
    Roll::with_entries([count_with(reasons); CONTRACTORS], [figure; CONTRACTORS])
}

/// Everyone's count in the roll of a call.
fn count_with(reasons: &[u8]) -> u16 {
    if reasons.contains(&20) {
        COUNT - 1
    } else {
        COUNT
    }
}

/// The enciphered grant of a check. For reason 3 its last byte is missing, for
/// reason 8 the last byte of the mark is wrong, for reason 10 it is a reading grant,
/// and for reason 23 the count is that of an earlier time.
fn grant_with(reasons: &[u8]) -> Vec<u8> {
    let grant = Grant {
        contractor: CONTRACTOR,
        count: if reasons.contains(&23) {
            COUNT - 2
        } else {
            count_with(reasons)
        },
        block: block_in_grant_with(reasons),
        right: granted_with(reasons),
    };
    let mut plain = grant.plain_bytes();
    if reasons.contains(&8) {
        plain[11] += 1;
    }
    let mut bytes = enciphered(&plain);
    if reasons.contains(&3) {
        bytes.pop();
    }
    bytes
}
