//! Walks of key holders, from every stage to every stage and to numbers that no stage has,
//! walks of holders that are not whole, and stages straight from the key.

use std::collections::BTreeSet;

use curupira_reference::generator::Generator;
use curupira_reference::holder::walk_to;

use super::{answer, done, same, same_in_c, Answer, Tally};
use super::{INDEPENDENT_STEP, KEY_LENGTHS, UNTOUCHED};
use crate::walk::{holder_at, HOLDER_BYTES, STAGE_BYTES};

/// The keys of each length.
const KEYS: usize = 32;

/// The numbers that a stage answers. All of them have to occur, and no other may.
const STAGE: [u32; 4] = [0, 1, 4, 5];

/// The same of a walk: two refusals, and the steps of every key length, either way.
fn walk_answers() -> BTreeSet<u32> {
    let walked = (1000..=1012).chain(2001..=2011);
    walked.chain([5, 24]).collect()
}

/// The numbers of stages that are asked for.
fn numbers() -> impl Iterator<Item = u32> {
    (0..=32).chain([255, 256, 259, 65_539, u32::MAX])
}

/// What was compared, and what was answered.
#[derive(Default)]
struct Seen {
    tally: Tally,
    walks: BTreeSet<u32>,
    stages: BTreeSet<u32>,
    walked: usize,
}

/// The number of calls on key stages, and how many of them are walks that go to a stage.
pub fn check(generator: &mut Generator) -> Result<(Tally, usize), String> {
    let mut seen = Seen::default();
    for key_length in KEY_LENGTHS {
        for index in 0..KEYS {
            let key = generator.bytes(key_length);
            check_key(&key, index % INDEPENDENT_STEP == 0, &mut seen)?;
        }
        check_holders(&generator.bytes(key_length), &mut seen)?;
    }
    check_lengths(&generator.bytes(32), &mut seen)?;
    if seen.walks == walk_answers() && seen.stages == BTreeSet::from(STAGE) {
        Ok((seen.tally, seen.walked))
    } else {
        Err(format!(
            "walks answer {:?}, stages {:?}",
            seen.walks, seen.stages
        ))
    }
}

/// All stages of a key, and all walks from each. A walk has to come to the stage that the
/// independent program computes straight from the key.
fn check_key(key: &[u8], independent: bool, seen: &mut Seen) -> Result<(), String> {
    let holders = (0..key.len()).map(|stage| holder_at(key, stage));
    let holders = holders.collect::<Vec<_>>();
    for (stage, start) in holders.iter().enumerate() {
        let out_length = STAGE_BYTES + 4;
        let found = check_stage(key, stage as u32, out_length, seen)?;
        let right = done(&start[2..], out_length);
        let what = format!("stage {stage} of key {key:02x?}");
        same(&what, "independent Rust", &found, &right)?;
        seen.tally.independent += 1;
        for to in numbers() {
            let (_, walked) = check_walk(start, to, independent, seen)?;
            let right = holders.get(to as usize).unwrap_or(start);
            let what = format!("walk of {start:02x?} to stage {to}");
            same(
                &what,
                "the stage from the key",
                &&walked[..HOLDER_BYTES],
                &&right[..],
            )?;
        }
    }
    Ok(())
}

/// Holders of every length, with every byte for the key's length and for the stage's number,
/// and with each bit set past the key's length. Most of them are not whole.
fn check_holders(key: &[u8], seen: &mut Seen) -> Result<(), String> {
    let whole = holder_at(key, key.len() - 3).to_vec();
    let changed = |place: usize, byte| {
        let mut holder = whole.clone();
        holder[place] = byte;
        holder
    };
    let mut holders = Vec::new();
    for length in 0..=2 * HOLDER_BYTES {
        let mut holder = whole.clone();
        holder.resize(length, 0);
        holders.push(holder);
    }
    for byte in 0..=u8::MAX {
        holders.extend([changed(0, byte), changed(1, byte)]);
    }
    for place in 2 + key.len()..HOLDER_BYTES {
        holders.extend((0..8).map(|bit| changed(place, 1 << bit)));
    }
    for holder in holders {
        for to in [0, 5, 11, 12, 17, 18, 23, 24, u32::MAX] {
            check_walk(&holder, to, true, seen)?;
        }
    }
    Ok(())
}

/// Stages of keys of right and wrong lengths, with right and wrong numbers and outputs.
fn check_lengths(bytes: &[u8], seen: &mut Seen) -> Result<(), String> {
    for key_length in 0..=bytes.len() {
        for number in numbers() {
            for out_length in [0, 1, 12, 18, 23, 24, 25, 48] {
                check_stage(&bytes[..key_length], number, out_length, seen)?;
            }
        }
    }
    Ok(())
}

/// What the library answers to a walk, and the holder after it, if all others have the same.
fn check_walk(start: &[u8], to: u32, independent: bool, seen: &mut Seen) -> Result<Answer, String> {
    let what = format!("walk of {start:02x?} to stage {to}");
    let library = same_in_c(&what, |one| {
        walked(start, |holder| one.holder_walk(holder, to))
    })?;
    if independent {
        let independent = walked(start, |holder| walk_to(to as usize, holder));
        same(&what, "independent Rust", &library, &independent)?;
        seen.tally.independent += 1;
    }
    seen.tally.inputs += 1;
    seen.walks.insert(library.0);
    seen.walked += usize::from(library.0 >= 1000);
    Ok(library)
}

/// Makes a walk of a holder. What stands after the holder is in the answer too.
fn walked(start: &[u8], walk: impl FnOnce(&mut [u8]) -> u32) -> Answer {
    let mut lent = start.to_vec();
    lent.extend([UNTOUCHED; 4]);
    let number = walk(&mut lent[..start.len()]);
    (number, lent)
}

/// What the library answers to a stage straight from the key.
fn check_stage(
    key: &[u8],
    number: u32,
    out_length: usize,
    seen: &mut Seen,
) -> Result<Answer, String> {
    let what = format!("stage {number} of key {key:02x?}, output of {out_length}");
    let library = same_in_c(&what, |one| {
        answer(out_length, |out| one.stage(key, number, out))
    })?;
    seen.tally.inputs += 1;
    seen.stages.insert(library.0);
    Ok(library)
}
