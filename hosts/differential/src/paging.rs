//! The drawing of cases on pages: the pages of a family, what was made of them, and what is spoilt.

use crate::case::Case;
use crate::draw::some_rest;
use crate::family::{self, one_bit_changed, Family};
use crate::oracle::Oracle;
use crate::pages::{
    self, set_used, used, Keys, CHECKED_BYTES, HEADER_BYTES, PAGE_BYTES, PAYLOAD_BYTES,
    SCRATCH_BYTES,
};
use crate::random::Random;
use crate::spoil::resize;

const PAGES: usize = 2;

/// For each page, so many others that were tampered with.
const TAMPERED: usize = 8;

/// Lengths of payloads at the ends of blocks and of the payload.
const FULL_LENGTHS: [usize; 10] = [1, 11, 12, 13, 24, 479, 480, 481, 490, 491];

/// Lengths of no payload. The last two differ from 492 by 256 and by 65,536.
const PAYLOAD_LENGTHS: [usize; 7] = [493, 494, 500, 504, 512, 748, 66_028];

/// Lengths of no page. The last two differ from 512 by 256 and by 65,536.
const PAGE_LENGTHS: [usize; 7] = [0, 12, 504, 511, 513, 768, 66_048];

/// Used counts that are too high. The fourth differs from 492 by 256.
const HIGH_COUNTS: [usize; 7] = [493, 494, 512, 748, 1024, 32_768, 65_535];

/// A page that was sealed, and what was made of it.
pub struct Sealed {
    pub size_block: u32,
    pub page_number: u16,
    pub payload: Vec<u8>,
    pub page: Vec<u8>,
    pub tampered: Vec<Vec<u8>>,
}

/// A second key for a key: of the same length, and another one. Often it differs in one bit.
pub fn second_key(key: &[u8], random: &mut Random) -> Vec<u8> {
    let second = family::bytes(key.len(), random);
    match second == key || random.once_in(4) {
        true => beside(key, random),
        false => second,
    }
}

/// A key with one bit changed: of the first byte, of the last, or any.
fn beside(key: &[u8], random: &mut Random) -> Vec<u8> {
    let bits = 8 * key.len();
    match random.below(3) {
        0 => one_bit_changed(key, 0..8, random),
        1 => one_bit_changed(key, bits - 8..bits, random),
        _ => one_bit_changed(key, 0..bits, random),
    }
}

/// The pages of a family, under its two keys.
pub fn draw_pages(family: &Family, oracle: &mut Oracle, random: &mut Random) -> Vec<Sealed> {
    let keys = Keys {
        first: &family.key,
        second: &family.second_key,
        rounds: family.rounds,
    };
    let draw = |_| {
        let payload = some_payload(random);
        let (size_block, page_number) = (family::any_size_block(random), some_page_number(random));
        let header = pages::header(size_block, page_number, payload.len());
        let page = keys.sealed(&header, &payload, oracle);
        let tampered = (0..TAMPERED).map(|_| tampered(&keys, &page, &payload, oracle, random));
        Sealed {
            size_block,
            page_number,
            tampered: tampered.collect(),
            payload,
            page,
        }
    };
    (0..PAGES).map(draw).collect()
}

/// A page that was made of another one, with or without a right check.
fn tampered(
    keys: &Keys<'_>,
    page: &[u8],
    payload: &[u8],
    oracle: &mut Oracle,
    random: &mut Random,
) -> Vec<u8> {
    match random.below(8) {
        0..=2 => filled(keys, page, payload, oracle, random),
        3 => {
            let filled = filled(keys, page, payload, oracle, random);
            with_wrong_check(filled, random)
        }
        4 => {
            let filled = filled(keys, page, payload, oracle, random);
            without_form(keys, filled, oracle, random)
        }
        5 => without_form(keys, page.to_vec(), oracle, random),
        6 => {
            let mut other = page.to_vec();
            change_header(&mut other, random);
            keys.with_check(&other[..CHECKED_BYTES], oracle)
        }
        _ => {
            let place = HEADER_BYTES + random.below(PAYLOAD_BYTES);
            let other = one_bit_changed(page, 8 * place..8 * place + 8, random);
            keys.with_check(&other[..CHECKED_BYTES], oracle)
        }
    }
}

/// A page as it is sealed, but with unused bytes that are not 0: the first of them, the last, any other,
/// or all. The check is right. A payload that fills the page has its last byte unused in this one.
fn filled(
    keys: &Keys<'_>,
    page: &[u8],
    payload: &[u8],
    oracle: &mut Oracle,
    random: &mut Random,
) -> Vec<u8> {
    let unused = payload.len().min(PAYLOAD_BYTES - 1);
    let mut header = page[..HEADER_BYTES].to_vec();
    set_used(&mut header, unused);
    let mut plain = payload[..unused].to_vec();
    plain.resize(PAYLOAD_BYTES, 0);
    let places = match random.below(8) {
        0 | 1 => unused..unused + 1,
        2 | 3 => PAYLOAD_BYTES - 1..PAYLOAD_BYTES,
        4 => unused..PAYLOAD_BYTES,
        _ => {
            let place = unused + random.below(PAYLOAD_BYTES - unused);
            place..place + 1
        }
    };
    for byte in &mut plain[places] {
        *byte = 1 + random.below(255) as u8;
    }
    keys.sealed(&header, &plain, oracle)
}

/// A page with one byte of its check changed.
fn with_wrong_check(mut page: Vec<u8>, random: &mut Random) -> Vec<u8> {
    page[place_in_check(random)] ^= 1 << random.below(8);
    page
}

/// A place in the check of a page, often the first or the last.
fn place_in_check(random: &mut Random) -> usize {
    match random.below(4) {
        0 => CHECKED_BYTES,
        1 => PAGE_BYTES - 1,
        _ => CHECKED_BYTES + random.below(PAGE_BYTES - CHECKED_BYTES),
    }
}

/// A page with a used count that is too high, or a byte from 8 to 11 that is not 0. Once in two times
/// the check is right.
fn without_form(
    keys: &Keys<'_>,
    mut page: Vec<u8>,
    oracle: &mut Oracle,
    random: &mut Random,
) -> Vec<u8> {
    spoil_form(&mut page, random);
    match random.once_in(2) {
        true => keys.with_check(&page[..CHECKED_BYTES], oracle),
        false => page,
    }
}

fn spoil_form(page: &mut [u8], random: &mut Random) {
    match random.below(3) {
        0 => set_used(page, random.pick(&HIGH_COUNTS)),
        _ => page[8 + random.below(4)] = 1 + random.below(255) as u8,
    }
}

/// Changes a number in the header to another that a header can have.
fn change_header(page: &mut [u8], random: &mut Random) {
    match random.below(2) {
        0 => page[random.below(6)] ^= 1 << random.below(8),
        _ => {
            let count = match random.below(3) {
                0 => used(page) + 1,
                1 => used(page).saturating_sub(1),
                _ => random.below(PAYLOAD_BYTES + 1),
            };
            set_used(page, count.min(PAYLOAD_BYTES));
        }
    }
}

/// A payload of any length, often none, a full one, or one at the end of a block.
fn some_payload(random: &mut Random) -> Vec<u8> {
    let length = match random.below(8) {
        0 => 0,
        1 => PAYLOAD_BYTES,
        2 | 3 => random.pick(&FULL_LENGTHS),
        _ => random.below(PAYLOAD_BYTES + 1),
    };
    family::bytes(length, random)
}

/// A page number, often at an end.
fn some_page_number(random: &mut Random) -> u16 {
    let word = random.word() as u16;
    random.pick(&[0, 1, u16::MAX, word, word, word])
}

/// A payload to be sealed: one of the family, with its numbers, or a new one, which may be too long. Now
/// and then it is to be sealed for size block 0.
pub fn with_payload(case: &mut Case, family: &Family, random: &mut Random) {
    with_keys(case, family, random);
    let sealed = &family.pages[random.below(PAGES)];
    case.size_block = sealed.size_block;
    case.page_number = sealed.page_number;
    case.block = sealed.payload.clone();
    if random.once_in(2) {
        case.size_block = family::some_size_block(random);
        case.page_number = some_page_number(random);
        case.block = some_payload(random);
        if random.once_in(4) {
            spoil_payload(&mut case.block, random);
        }
    }
    if random.once_in(5) {
        case.size_block = 0;
    }
}

/// A page to be opened: one of the family as it was sealed, with one byte changed, or tampered with.
/// Where the two keys are equal, the check is made right under them once in two times.
pub fn with_page(case: &mut Case, family: &Family, oracle: &mut Oracle, random: &mut Random) {
    with_keys(case, family, random);
    let sealed = &family.pages[random.below(PAGES)];
    case.block = match random.below(8) {
        0..=2 => sealed.page.clone(),
        3 | 4 => one_byte_changed(&sealed.page, random),
        _ => random.pick(&sealed.tampered),
    };
    if case.key == case.second_key && random.once_in(2) {
        let equal = Keys {
            first: &case.key,
            second: &case.key,
            rounds: case.rounds,
        };
        case.block = equal.with_check(&case.block[..CHECKED_BYTES], oracle);
    }
}

/// The keys of the family with its round count, or two that are equal, and now and then another second
/// key or round count. And a scratch that is long enough.
fn with_keys(case: &mut Case, family: &Family, random: &mut Random) {
    case.key = family.key.clone();
    case.second_key = family.second_key.clone();
    case.rounds = family.rounds;
    match random.below(32) {
        0..=2 => {
            case.second_key = case.key.clone();
            case.shared = random.once_in(2);
        }
        3 | 4 => case.second_key = beside(&case.key, random),
        5 => case.rounds = family::right_rounds(case.key.len(), random),
        _ => {}
    }
    case.scratch = SCRATCH_BYTES + some_rest(random);
}

/// A page with one byte changed: of the header, of the check, or any.
fn one_byte_changed(page: &[u8], random: &mut Random) -> Vec<u8> {
    let place = match random.below(8) {
        0..=2 => random.below(HEADER_BYTES),
        3 | 4 => place_in_check(random),
        _ => random.below(PAGE_BYTES),
    };
    let mut page = page.to_vec();
    page[place] ^= 1 + random.below(255) as u8;
    page
}

/// A first key of a wrong length, of another right one, or with one bit changed.
pub fn spoil_first_key(case: &mut Case, random: &mut Random) {
    let length = match random.below(8) {
        0..=4 => wrong_length(case.key.len(), random),
        5 | 6 => random.pick(&[12, 18, 24]),
        _ => case.key.len(),
    };
    match length == case.key.len() && length > 0 {
        true => case.key = beside(&case.key, random),
        false => resize(&mut case.key, length, random),
    }
}

/// A second key that is the first one, begins with it, or has its place; one of a wrong length, alone or
/// together with the first; or one with one bit changed.
pub fn spoil_second_key(case: &mut Case, random: &mut Random) {
    let wrong = wrong_length(case.second_key.len(), random);
    match random.below(8) {
        0 | 1 => case.second_key = case.key.clone(),
        2 => {
            case.second_key = case.key.clone();
            resize(&mut case.second_key, random.pick(&[12, 18, 24]), random);
        }
        3 | 4 => resize(&mut case.second_key, wrong, random),
        5 => {
            resize(&mut case.key, wrong, random);
            resize(&mut case.second_key, wrong, random);
        }
        6 => std::mem::swap(&mut case.key, &mut case.second_key),
        _ if case.second_key.is_empty() => {}
        _ => case.second_key = beside(&case.second_key, random),
    }
}

/// A length that is mostly that of no key: one more or less than another, or 256 more.
fn wrong_length(length: usize, random: &mut Random) -> usize {
    match random.below(5) {
        0 => length + 1,
        1 => length.saturating_sub(1),
        2 | 3 => length + 256,
        _ => random.pick(&[0, 1, 32]),
    }
}

/// A payload that is too long, or now and then of any other length.
pub fn spoil_payload(payload: &mut Vec<u8>, random: &mut Random) {
    let length = match random.below(8) {
        0 => random.below(PAYLOAD_BYTES + 1),
        1..=3 => PAYLOAD_BYTES + 1,
        _ => random.pick(&PAYLOAD_LENGTHS),
    };
    resize(payload, length, random);
}

/// A page of a wrong length, without the form of one, or with one byte changed.
pub fn spoil_page(page: &mut Vec<u8>, random: &mut Random) {
    let fault = random.below(8);
    if page.len() != PAGE_BYTES || fault < 4 {
        let length = random.pick(&PAGE_LENGTHS);
        return resize(page, length, random);
    }
    match fault {
        4 | 5 => spoil_form(page, random),
        _ => *page = one_byte_changed(page, random),
    }
}

/// Another page number, or one that differs in one bit.
pub fn other_page_number(page_number: u16, random: &mut Random) -> u16 {
    match random.below(4) {
        0 => page_number.swap_bytes(),
        1 => page_number.wrapping_add(1),
        _ => page_number ^ 1 << random.below(16),
    }
}

/// The length of a scratch that is too short.
pub fn shorter_scratch(random: &mut Random) -> usize {
    match random.below(6) {
        0 => 0,
        1 => 1,
        2 => SCRATCH_BYTES / 2,
        3 | 4 => SCRATCH_BYTES - 1,
        _ => random.below(SCRATCH_BYTES),
    }
}
