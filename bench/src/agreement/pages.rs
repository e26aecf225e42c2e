//! Pages that are sealed and opened, good ones and such as are changed in one or two ways,
//! and calls on pages with right and wrong lengths.

use std::collections::BTreeSet;

use curupira_reference::cipher::{allowed_rounds, encrypt};
use curupira_reference::generator::Generator;

use super::{same, same_in_c, text, Tally, KEY_LENGTHS, UNTOUCHED};
use crate::interface::Interface;
use crate::page::{Page, PAGE_BYTES, PAYLOAD_BYTES, SCRATCH_BYTES};

/// The numbers that the calls answer, with 0 for all that are no refusal, and whether the
/// scratch is cleared. All of them have to occur, and no other may.
const SEALING: [(u64, bool); 6] = [
    (0, true),
    (1, false),
    (2, false),
    (4, false),
    (12, false),
    (14, false),
];
const OPENING: [(u64, bool); 7] = [
    (0, true),
    (1, false),
    (2, false),
    (4, false),
    (11, false),
    (11, true),
    (13, true),
];

/// The lengths of the payloads that are sealed with every key length and round count.
const PAYLOADS: [usize; 12] = [0, 1, 11, 12, 13, 100, 251, 479, 480, 481, 491, 492];

/// One call in so many goes to the independent program too, which is slow.
const INDEPENDENT_STEP: usize = 16;

/// The pages that are made of each sealed one.
const CHANGED: usize = 8;

/// The lengths of keys in calls of which most are refused.
const LENGTHS: [usize; 9] = [0, 11, 12, 13, 17, 18, 23, 24, 25];

/// The number that a call answers, its whole output, and its whole scratch.
type Answer = (u64, Vec<u8>, Vec<u8>);

/// A call that has a scratch and an output.
type Call = fn(&Interface, &Page, &mut [u8], &mut [u8]) -> u64;

/// The lengths of a scratch and of an output.
type Lent = (usize, usize);

/// What was compared, and what was answered.
#[derive(Default)]
struct Seen {
    tally: Tally,
    sealing: BTreeSet<(u64, bool)>,
    opening: BTreeSet<(u64, bool)>,
    opened: usize,
}

/// The number of calls on pages, and how many pages open.
pub fn check(generator: &mut Generator) -> Result<(Tally, usize), String> {
    let mut seen = Seen::default();
    for key_length in KEY_LENGTHS {
        for rounds in allowed_rounds(key_length).map_err(text)? {
            for payload_length in PAYLOADS {
                let page = Page::to_seal(generator, key_length, rounds as u32, payload_length);
                check_page(generator, &page, &mut seen)?;
            }
        }
    }
    check_lengths(generator, &mut seen)?;
    if seen.sealing == BTreeSet::from(SEALING) && seen.opening == BTreeSet::from(OPENING) {
        Ok((seen.tally, seen.opened))
    } else {
        Err(format!(
            "sealing answers {:?}, opening {:?}",
            seen.sealing, seen.opening
        ))
    }
}

/// A payload that is sealed and opened, and what is made of both.
fn check_page(generator: &mut Generator, page: &Page, seen: &mut Seen) -> Result<(), String> {
    check_seal(page, (SCRATCH_BYTES, PAGE_BYTES), seen)?;
    let sealed = page.sealed();
    let (number, payload, _) = check_open(&sealed, (SCRATCH_BYTES, PAYLOAD_BYTES), seen)?;
    let mut right = page.bytes.clone();
    right.resize(PAYLOAD_BYTES, 0);
    same("a page that opens", "its payload", &payload, &right)?;
    let (used, length) = (number >> 48 & 0x7fff, page.bytes.len() as u64);
    same("its used count", "the payload's length", &used, &length)?;
    for _ in 0..CHANGED {
        let (scratch, rest) = draw_lengths(generator);
        let mut payload = page.clone();
        change_keys(generator, &mut payload);
        check_seal(&payload, (scratch, PAGE_BYTES - 1 + rest), seen)?;
        let mut other = sealed.clone();
        change_page(generator, &mut other)?;
        change_keys(generator, &mut other);
        check_open(&other, (scratch, PAYLOAD_BYTES - 1 + rest), seen)?;
    }
    Ok(())
}

/// The length of a scratch, and what an output has more than one byte too few.
fn draw_lengths(generator: &mut Generator) -> (usize, usize) {
    let longer = [0, 0, 0, 1, 40, 300][usize::from(generator.byte() % 6)];
    let rest = [1, 1, 1, 2, 30, 0][usize::from(generator.byte() % 6)];
    (SCRATCH_BYTES + longer, rest)
}

/// Two keys that are mostly left, or else wrong, or another second one.
fn change_keys(generator: &mut Generator, page: &mut Page) {
    match generator.byte() % 16 {
        0 => page.second_key = page.first_key.clone(),
        1 => drop(page.second_key.pop()),
        2 => page.first_key.push(0),
        3 => page.rounds += 6,
        4 => page.second_key[0] ^= 1,
        _ => {}
    }
}

/// A page that is changed in one way, or left. Some have a right check.
fn change_page(generator: &mut Generator, page: &mut Page) -> Result<(), String> {
    let place = usize::from(generator.byte()) * 2 + usize::from(generator.byte() % 2);
    match generator.byte() % 8 {
        0 => page.bytes[place] ^= 1 << (generator.byte() % 8),
        1 => page.bytes.truncate(place),
        2 => page.bytes.push(0),
        3 => page.bytes[8 + place % 4] = 1,
        4 => {
            // A byte of the payload as it is stored, which spoils a block and the next.
            page.bytes[12 + place % PAYLOAD_BYTES] ^= 0x40;
            make_check(page)?;
        }
        5 => {
            // Another used count.
            page.bytes[6..8].copy_from_slice(&(place as u16).to_be_bytes());
            make_check(page)?;
        }
        _ => {}
    }
    Ok(())
}

/// Makes the check of a page anew, by the independent program.
fn make_check(page: &mut Page) -> Result<(), String> {
    let mut last = vec![0; 12];
    for block in page.bytes[..PAGE_BYTES - 8].chunks(12) {
        let sum = last.iter().zip(block).map(|(one, other)| one ^ other);
        let sum = sum.collect::<Vec<u8>>();
        last = encrypt(&page.second_key, page.rounds as usize, &sum).map_err(text)?;
    }
    page.bytes[PAGE_BYTES - 8..].copy_from_slice(&last[..8]);
    Ok(())
}

/// Keys of right and wrong lengths, with right and wrong round counts, and then one after
/// the other what is lent.
fn check_lengths(generator: &mut Generator, seen: &mut Seen) -> Result<(), String> {
    for first in LENGTHS {
        for second in LENGTHS {
            for rounds in (9..=24).chain([0, 266, u32::MAX]) {
                let mut page = Page::to_seal(generator, first, rounds, PAYLOAD_BYTES);
                page.second_key = generator.bytes(second);
                check_seal(&page, (SCRATCH_BYTES, PAGE_BYTES), seen)?;
                check_open(&page, (SCRATCH_BYTES, PAYLOAD_BYTES), seen)?;
            }
        }
    }
    for key_length in KEY_LENGTHS {
        let rounds = *allowed_rounds(key_length).map_err(text)?.start() as u32;
        let mut page = Page::to_seal(generator, key_length, rounds, PAYLOAD_BYTES);
        let sealed = page.sealed();
        for (scratch, out) in [(575, 512), (576, 511), (0, 600), (600, 0), (576, 491)] {
            check_seal(&page, (scratch, out), seen)?;
            check_open(&sealed, (scratch, out), seen)?;
        }
        for payload_length in [493, 504, 512, 748, 66_028] {
            page.bytes.resize(payload_length, 0);
            check_seal(&page, (SCRATCH_BYTES, PAGE_BYTES), seen)?;
        }
        check_zero(page, sealed, seen)?;
    }
    Ok(())
}

/// Size block 0: no page of it is sealed, whatever the payload's length, and one that was
/// sealed when there were such pages opens.
fn check_zero(mut page: Page, mut sealed: Page, seen: &mut Seen) -> Result<(), String> {
    page.size_block = 0;
    for (payload_length, scratch) in [(0, SCRATCH_BYTES), (493, SCRATCH_BYTES), (493, 575)] {
        page.bytes.resize(payload_length, 0);
        check_seal(&page, (scratch, PAGE_BYTES), seen)?;
    }
    // All bytes of the payload are used, so that a right check is enough.
    sealed.bytes[..4].fill(0);
    make_check(&mut sealed)?;
    let (number, ..) = check_open(&sealed, (SCRATCH_BYTES, PAYLOAD_BYTES), seen)?;
    same(
        "a page of size block 0",
        "its size block",
        &(number as u32),
        &0,
    )
}

fn check_seal(page: &Page, lent: Lent, seen: &mut Seen) -> Result<(), String> {
    let call: Call = |one, page, scratch, out| u64::from(one.seal_page(page, scratch, out));
    let found = compare("seal", page, lent, call, &mut seen.tally, |scratch, out| {
        page.independent_seal(scratch, out)
    })?;
    seen.sealing.insert((found.0, is_cleared(&found)));
    Ok(())
}

/// What the library answers to a page.
fn check_open(page: &Page, lent: Lent, seen: &mut Seen) -> Result<Answer, String> {
    let call: Call = |one, page, scratch, out| one.open_page(page, scratch, out);
    let found = compare("open", page, lent, call, &mut seen.tally, |scratch, out| {
        page.independent_open(scratch, out)
    })?;
    let opens = found.0 >= 1000;
    seen.opened += usize::from(opens);
    let number = if opens { 0 } else { found.0 };
    seen.opening.insert((number, is_cleared(&found)));
    Ok(found)
}

fn is_cleared(answer: &Answer) -> bool {
    let scratch = answer.2.get(..SCRATCH_BYTES);
    scratch.map_or(false, |bytes| bytes.iter().all(|&byte| byte == 0))
}

/// What the library answers and leaves, if all others do the same.
fn compare(
    name: &str,
    page: &Page,
    lent: Lent,
    call: Call,
    tally: &mut Tally,
    independent: impl Fn(&mut [u8], &mut [u8]) -> u64,
) -> Result<Answer, String> {
    let what = described(name, page, lent);
    let library = same_in_c(&what, |one| {
        answer(lent, |scratch, out| call(one, page, scratch, out))
    })?;
    if tally.inputs % INDEPENDENT_STEP == 0 {
        let independent = answer(lent, independent);
        same(&what, "independent Rust", &library, &independent)?;
        tally.independent += 1;
    }
    tally.inputs += 1;
    Ok(library)
}

/// What is asked, by its lengths and numbers. The bytes are the same in every run.
fn described(name: &str, page: &Page, (scratch, out): Lent) -> String {
    format!(
        "{name}: keys of {} and {} bytes, {} rounds, payload or page of {}, scratch of {scratch}, output of {out}",
        page.first_key.len(),
        page.second_key.len(),
        page.rounds,
        page.bytes.len()
    )
}

/// Makes a call with a scratch and an output of these lengths.
fn answer((scratch, out): Lent, call: impl FnOnce(&mut [u8], &mut [u8]) -> u64) -> Answer {
    let (mut scratch, mut out) = (vec![UNTOUCHED; scratch], vec![UNTOUCHED; out]);
    let number = call(&mut scratch, &mut out);
    (number, out, scratch)
}
