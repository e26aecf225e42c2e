//! Queues of grants, good ones and such as are changed in one or two ways.

use std::collections::BTreeSet;

use curupira_reference::cipher::allowed_rounds;
use curupira_reference::generator::Generator;

use super::checks::changed;
use super::{answer, same, same_in_c, text, Answer, Tally, INDEPENDENT_STEP, KEY_LENGTHS};
use crate::question::{draw_grant, draw_number, draw_right, enciphered, Entries, Question};

/// The bytes that a grant can have. All of them have to occur.
const BYTES: [u8; 7] = [0, 8, 9, 10, 20, 23, 25];

/// The most grants that a queue is drawn with: one more than it can have.
const GRANTS: usize = 65;

/// The bytes that are lent more than there are grants, in one of the calls.
const REST: usize = 3;

/// The number of queues, of the grants that were answered, and of those that open.
pub fn check(generator: &mut Generator) -> Result<(Tally, usize, usize), String> {
    let mut tally = Tally::default();
    let mut bytes = Vec::new();
    for key_length in KEY_LENGTHS {
        for rounds in allowed_rounds(key_length).map_err(text)? {
            for grants in 0..=GRANTS {
                let question = draw_queue(generator, key_length, rounds as u32, grants);
                bytes.extend(check_queue(&question, &mut tally)?);
            }
        }
    }
    let opened = bytes.iter().filter(|&&byte| byte == 0).count();
    let seen: BTreeSet<u8> = bytes.iter().copied().collect();
    if seen == BTreeSet::from(BYTES) {
        Ok((tally, bytes.len(), opened))
    } else {
        Err(format!("the bytes of the grants in queues are {seen:?}"))
    }
}

/// The bytes that the library writes for a queue, if the others write the same, and
/// each is what a check of its grant alone says. None if it refuses, as it has to
/// where there is a grant too many.
fn check_queue(question: &Question, tally: &mut Tally) -> Result<Vec<u8>, String> {
    let what = format!("queue, {question:02x?}");
    let grants = question.grants.len() / 12;
    let room = grants + REST;
    let library = same_in_c(&what, |one| {
        let asked = |room| answer(room, |out| one.check_queue(question, out));
        [room, grants, grants.saturating_sub(1)].map(asked)
    })?;
    let singles = same_in_c(&what, |one| {
        let grants = question.grants.chunks(12);
        let answers = grants.map(|grant| byte(one.check_one(question, grant)));
        answers.collect::<Vec<_>>()
    })?;
    let right = if grants < GRANTS {
        super::done(&singles, room)
    } else {
        super::refused(3, room)
    };
    same(&what, "single checks", &library[0], &right)?;
    if tally.inputs % INDEPENDENT_STEP == 0 {
        same(
            &what,
            "independent Rust",
            &Some(right),
            &independent(question, room),
        )?;
        tally.independent += 1;
    }
    tally.inputs += 1;
    Ok(if grants < GRANTS { singles } else { Vec::new() })
}

/// What the independent program answers and writes.
fn independent(question: &Question, room: usize) -> Option<Answer> {
    let roll = question.independent_roll()?;
    let mut number = None;
    let (_, out) = answer(room, |out| {
        number = question.independent_queue(&roll, out);
        0
    });
    number.map(|number| (number, out))
}

/// The byte in a queue for the answer of a check.
fn byte(answer: u32) -> u8 {
    match answer {
        1000.. => 0,
        refusal => refusal as u8,
    }
}

/// Grants that open, but for what two draws change in each. They are for one size
/// block and either right, and one right is asked for.
fn draw_queue(
    generator: &mut Generator,
    key_length: usize,
    rounds: u32,
    grants: usize,
) -> Question {
    let mut entries = Entries::draw(generator);
    let key = generator.bytes(key_length);
    let (size_block, right) = (draw_number(generator, 4), draw_right(generator));
    let mut draw = || {
        let right = draw_right(generator);
        let mut grant = draw_grant(generator, &mut entries, right);
        grant.block = size_block;
        let plain = changed(generator, grant, &mut entries);
        enciphered(&key, rounds, &plain)
    };
    let grants = (0..grants).flat_map(|_| draw()).collect();
    Question {
        key,
        rounds,
        roll: entries.bytes(),
        grants,
        size_block,
        right: u32::from(right),
    }
}
