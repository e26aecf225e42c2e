//! Checks of grants, good ones and such as are changed in one or two ways.

use std::collections::BTreeSet;

use curupira_reference::cipher::allowed_rounds;
use curupira_reference::generator::Generator;
use curupira_reference::roll::{Grant, CONTRACTORS, OVERWRITING};

use super::{same, same_in_c, text, Tally, INDEPENDENT_STEP, INPUTS, KEY_LENGTHS};
use crate::interface::LIBRARY;
use crate::question::{
    draw_grant, draw_low_figure, draw_number, draw_right, enciphered, Entries, Question,
};

/// The reasons for which a grant of the right length is refused. All of them have
/// to occur.
const REASONS: [u32; 6] = [8, 9, 10, 20, 23, 25];

/// The ways in which a grant or its contractor's entry is changed are 0 to 8; from there
/// on nothing is. All but two make it wrong: the other right does so only where the grant
/// is for reading, and a figure for reading only where overwriting is asked for.
const WAYS: u8 = 22;

/// The grants that open, those among them that are for another right than the one asked
/// for, which is for overwriting, and asked for reading; and those among these whose
/// contractors may only read.
#[derive(Debug, Default)]
struct Opened {
    all: usize,
    looks: usize,
    demoted: usize,
}

impl Opened {
    /// Counts a grant that opens for its contractor.
    fn count(&mut self, question: &Question, contractor: u32) {
        let look = right_in_grant(question) != question.right;
        let figure = question.roll[2 * CONTRACTORS + contractor as usize - 1];
        self.all += 1;
        self.looks += usize::from(look);
        self.demoted += usize::from(look && figure != OVERWRITING);
    }
}

/// The number of grants, and how many of them open. Some that open have to be for
/// another right than the one asked for, some of them of contractors who may only read,
/// and some of contractors who may overwrite.
pub fn check(generator: &mut Generator) -> Result<(Tally, usize), String> {
    let mut tally = Tally::default();
    let mut opened = Opened::default();
    let mut refusals = BTreeSet::new();
    for key_length in KEY_LENGTHS {
        for rounds in allowed_rounds(key_length).map_err(text)? {
            for _ in 0..INPUTS {
                let question = draw_question(generator, key_length, rounds as u32);
                match check_question(&question, &mut tally)? {
                    answer @ 1000.. => opened.count(&question, answer % 1000),
                    refusal => drop(refusals.insert(refusal)),
                }
            }
        }
    }
    let Opened {
        all,
        looks,
        demoted,
    } = opened;
    if demoted > 0 && looks > demoted && all > looks && refusals == BTreeSet::from(REASONS) {
        Ok((tally, all))
    } else {
        Err(format!(
            "of the grants there are {opened:?}; the reasons are {refusals:?}"
        ))
    }
}

/// The right in the grant of a question.
fn right_in_grant(question: &Question) -> u32 {
    let Question {
        key,
        rounds,
        grants,
        ..
    } = question;
    let mut plain = [0; 12];
    LIBRARY.decipher(key, *rounds, grants, &mut plain);
    u32::from(plain[8])
}

/// The library's answer, if the others give the same.
fn check_question(question: &Question, tally: &mut Tally) -> Result<u32, String> {
    let what = format!("{question:02x?}");
    let library = same_in_c(&what, |one| one.check(question))?;
    if tally.inputs % INDEPENDENT_STEP == 0 {
        let roll = question.independent_roll();
        let independent = roll.and_then(|roll| question.independent_answer(&roll));
        same(&what, "independent Rust", &Some(library), &independent)?;
        tally.independent += 1;
    }
    tally.inputs += 1;
    Ok(library)
}

/// A grant that opens, but for what two draws change.
fn draw_question(generator: &mut Generator, key_length: usize, rounds: u32) -> Question {
    let mut entries = Entries::draw(generator);
    let right = draw_right(generator);
    let grant = draw_grant(generator, &mut entries, right);
    let size_block = grant.block;
    let plain = changed(generator, grant, &mut entries);
    let key = generator.bytes(key_length);
    Question {
        grants: enciphered(&key, rounds, &plain),
        key,
        rounds,
        roll: entries.bytes(),
        size_block,
        right: u32::from(right),
    }
}

/// The plain bytes of a grant, after two draws changed it, or its entry, or nothing.
pub fn changed(generator: &mut Generator, mut grant: Grant, entries: &mut Entries) -> Vec<u8> {
    let ways = [generator.byte() % WAYS, generator.byte() % WAYS];
    let (right, place) = (grant.right, usize::from(grant.contractor) - 1);
    for way in ways {
        match way {
            0 => grant.contractor = 0,
            1 => grant.contractor = 201 + draw_number(generator, 1) as u16,
            2 => grant.right = 3 * (right - 1),
            3 => grant.block ^= 1 << (generator.byte() % 32),
            4 => grant.right = 3 - right,
            5 => grant.count ^= 1 << (generator.byte() % 16),
            6 => entries.counts[place] = [0, 65_534, 65_535, 2][usize::from(generator.byte() % 4)],
            8 => entries.figures[place] = draw_low_figure(generator),
            _ => {}
        }
    }
    let mut plain = grant.plain_bytes();
    if ways.contains(&7) {
        plain[9 + usize::from(generator.byte() % 3)] ^= 1 << (generator.byte() % 8);
    }
    plain
}
