//! The worked answers about sealed pages, as plain text. They come after those of
//! `answers.rs`, in this order. KEY is the key of 12 bytes there, if nothing else is
//! said.
//!
//! - `chain KEY ROUNDS START BLOCKS RESULT`: RESULT is what chaining makes of BLOCKS from
//!   START, under a key with a number of rounds.
//! - `pair FIRST SECOND yes|no`: whether two keys may be used for a page. `-` stands for
//!   no bytes.
//! - `form LENGTH COUNT INDEX VALUE yes|no`: whether bytes have the form of a page as far
//!   as it can be seen without a key. They are LENGTH zero bytes in which COUNT is
//!   written to bytes 6 and 7, big end first, and then VALUE to byte INDEX. What falls on
//!   no byte is not written.
//! - `pagewith A B BLOCK NUMBER USED START END`: START is the first 36 bytes and END the
//!   last 21 bytes of a page.
//! - `altered A B BLOCK NUMBER USED INDEX VALUE ANSWER`: the number that opening answers
//!   if byte INDEX of a page as it is stored is replaced by VALUE.
//! - `padded A B BLOCK NUMBER USED INDEX VALUE ANSWER`: the number that opening answers if
//!   byte INDEX of the 492 payload bytes is replaced by VALUE before they are chained, so
//!   that the check is right.
//! - `order CALL A B GIVEN`, as in `answers.rs`, for `seal` and for `open`.
//!
//! In `pagewith`, `altered` and `padded` a toy stands in the place of the cipher, so that
//! a page takes little time. With a constant K of 12 bytes it takes x to
//! `sigma[K](pi(x))`, which is pi first and then sigma.
//! The constant is A in the place of the first key and B in the place of the second.
//! Byte i of the payload is (7i + 1) mod 256.
//!
//! The toy does not mix. A changed byte changes one byte of the last block of the check,
//! and if that is one of the four that are left out of the check, the page is not refused
//! with 13. One of the pages in `altered` is such a page.

use crate::answers::{
    add_order_lines, hex_or_dash, with_byte, yes_or_no, KEY, ROUNDS, SHORT, SIZE_BLOCK, UNWRITTEN,
};
use crate::cipher::{encrypt_with, state_of};
use crate::layers::{inverse_pi, inverse_sigma, pi, sigma};
use crate::matrix::State;
use crate::pages::{
    chain, keys_allowed, open, opened_with, page_under, page_with, plain_bytes, seal, Header,
    Refusal, CHECKED_LENGTH, HEADER_LENGTH, PAGE_LENGTH, PAYLOAD_LENGTH, SCRATCH_LENGTH,
};
use crate::roll::ZERO_BLOCK;
use crate::schedule::round_subkeys;
use crate::vectors::{add_line, hex, list_hex};

/// The start of the chaining that is printed.
const START: [u8; 12] = [
    0x00, 0x11, 0x22, 0x33, 0x44, 0x55, 0x66, 0x77, 0x88, 0x99, 0xAA, 0xBB,
];

/// The two blocks that are chained.
const BLOCKS: [[u8; 12]; 2] = [
    [1, 2, 3, 4, 5, 6, 7, 8, 9, 10, 11, 12],
    [12, 11, 10, 9, 8, 7, 6, 5, 4, 3, 2, 1],
];

/// The length of the longer key in the pairs of keys.
const MIDDLE: usize = 18;

/// The lengths, used counts, positions and values for the form of a page.
const FORMS: [(usize, u16, usize, u8); 16] = [
    (512, 0, 0, 0),
    (511, 0, 0, 0),
    (513, 0, 0, 0),
    (0, 0, 0, 0),
    (512, 1, 0, 0),
    (512, 492, 0, 0),
    (512, 493, 0, 0),
    (512, 256, 0, 0),
    (512, 65_535, 0, 0),
    (512, 0, 8, 1),
    (512, 0, 9, 1),
    (512, 0, 10, 1),
    (512, 0, 11, 128),
    (512, 0, 12, 1),
    (512, 0, 5, 1),
    (512, 0, 511, 1),
];

/// The constant A of the toy in the place of the first key.
const TOY_FIRST: [u8; 12] = [
    0xA0, 0xA1, 0xA2, 0xA3, 0xA4, 0xA5, 0xA6, 0xA7, 0xA8, 0xA9, 0xAA, 0xAB,
];

/// The constant B of the toy in the place of the second key.
const TOY_SECOND: [u8; 12] = [
    0x5F, 0x4E, 0x3D, 0x2C, 0x1B, 0x0A, 0x99, 0x88, 0x77, 0x66, 0x55, 0x44,
];

/// How many bytes of a page are printed from its start.
const SHOWN_START: usize = 36;

/// How many bytes of a page are printed from its end.
const SHOWN_END: usize = 21;

/// The header of the page that is altered, which is also the first of those printed.
const ALTERED_HEADER: Header = Header {
    size_block: 16_909_060,
    page_number: 1_286,
    used: 17,
};

/// The headers of the pages that are printed: size block, page number and used count.
const PAGES: [(u32, u16, u16); 5] = [
    (16_909_060, 1_286, 17),
    (0, 0, 0),
    (4_294_967_295, 65_535, 492),
    (258, 772, 12),
    (1, 1, 491),
];

/// The positions in a page as it is stored, and the values that are put there.
const ALTERED: [(usize, u8); 14] = [
    (0, 1),
    (0, 2),
    (3, 5),
    (5, 7),
    (6, 1),
    (6, 2),
    (7, 16),
    (8, 1),
    (11, 255),
    (12, 0),
    (35, 0),
    (503, 0),
    (504, 0),
    (511, 0),
];

/// The value that is put at a position where the other is already, so that the page is
/// altered all the same.
const OTHER_VALUE: u8 = 1;

/// The used counts, the positions in the payload, and the values that are put there.
const PADDED: [(u16, usize, u8); 19] = [
    (17, 16, 0),
    (17, 16, 1),
    (17, 17, 0),
    (17, 17, 1),
    (17, 18, 128),
    (17, 23, 1),
    (17, 24, 1),
    (17, 35, 255),
    (17, 480, 1),
    (17, 491, 1),
    (492, 491, 0),
    (0, 0, 0),
    (0, 0, 1),
    (0, 491, 1),
    (12, 11, 0),
    (12, 12, 1),
    (480, 479, 0),
    (480, 480, 1),
    (480, 491, 1),
];

/// The pairs of reasons for sealing.
const SEAL_PAIRS: [[u8; 2]; 4] = [[1, 2], [2, 4], [4, 14], [14, 12]];

/// The pairs of reasons for opening. The 11 after 13 is the one that is tried after it.
const OPEN_PAIRS: [[u8; 2]; 5] = [[1, 2], [2, 4], [4, 11], [11, 13], [13, 11]];

/// The page number of a call in which nothing is wrong.
pub(crate) const PAGE_NUMBER: u16 = 7;

/// The number of payload bytes in a call in which nothing is wrong.
pub(crate) const USED: u16 = 17;

/// The number of a call that is not refused.
const DONE: u8 = 0;

/// All worked answers about sealed pages.
pub(crate) fn add_page_answers(text: &mut String) {
    add_chain_line(text);
    add_pair_lines(text);
    add_form_lines(text);
    add_pagewith_lines(text);
    add_altered_lines(text);
    add_padded_lines(text);
    add_order_lines(text, "seal", &SEAL_PAIRS, seal_with);
    add_order_lines(text, "open", &OPEN_PAIRS, open_with);
}

/// The state that a block stands for.
fn block(bytes: &[u8; 12]) -> State {
    state_of(bytes).expect("a block has 12 bytes")
}

/// The line for the chaining of two blocks.
fn add_chain_line(text: &mut String) {
    let key = &KEY[..SHORT];
    let list = round_subkeys(key, ROUNDS).expect("the key has an allowed length");
    let encipher = |a: &State| encrypt_with(&list, a).expect("there are subkeys");
    let blocks = BLOCKS.map(|bytes| block(&bytes));
    let result = chain(encipher, &block(&START), &blocks);
    add_line(
        text,
        &[
            "chain",
            &hex(key),
            &ROUNDS.to_string(),
            &hex(&START),
            &list_hex(&blocks),
            &list_hex(&result),
        ],
    );
}

/// The lines for pairs of keys.
fn add_pair_lines(text: &mut String) {
    for [first, second] in key_pairs() {
        let word = yes_or_no(keys_allowed(&first, &second));
        let digits = [hex_or_dash(&first), hex_or_dash(&second)];
        add_line(text, &["pair", &digits[0], &digits[1], word]);
    }
}

/// The pairs of keys: the short one with itself, with its last or its first byte changed
/// and with one byte more; keys of 12 and of 18 bytes; two keys of 18 bytes; two of 13;
/// and no bytes at all.
fn key_pairs() -> Vec<[Vec<u8>; 2]> {
    let short = KEY[..SHORT].to_vec();
    let middle = KEY[..MIDDLE].to_vec();
    let longer = [&short[..], &[0]].concat();
    let other_longer = [&short[..], &[1]].concat();
    vec![
        [short.clone(), short.clone()],
        [short.clone(), other_key()],
        [short.clone(), with_byte(&short, 0, 0x1F)],
        [short.clone(), longer.clone()],
        [short.clone(), middle.clone()],
        [middle.clone(), short],
        [middle.clone(), with_byte(&middle, MIDDLE - 1, 0x13)],
        [longer, other_longer],
        [Vec::new(), Vec::new()],
    ]
}

/// The short key with its last byte changed. It is the second key of calls.
pub(crate) fn other_key() -> Vec<u8> {
    with_byte(&KEY[..SHORT], SHORT - 1, 0xB5)
}

/// The lines for bytes that have or do not have the form of a page.
fn add_form_lines(text: &mut String) {
    for (length, count, index, value) in FORMS {
        let bytes = form_bytes(length, count, index, value);
        let word = yes_or_no(Header::from_page(&bytes).is_ok());
        add_line(
            text,
            &[
                "form",
                &length.to_string(),
                &count.to_string(),
                &index.to_string(),
                &value.to_string(),
                word,
            ],
        );
    }
}

/// Zero bytes with a used count where a page has it, and one byte replaced thereafter.
fn form_bytes(length: usize, count: u16, index: usize, value: u8) -> Vec<u8> {
    let mut bytes = vec![0; length];
    let [high, low] = count.to_be_bytes();
    for (position, byte) in [(6, high), (7, low), (index, value)] {
        if position < length {
            bytes[position] = byte;
        }
    }
    bytes
}

/// The toy with a constant: pi (section 3.2), then sigma (section 3.4).
fn toy(constant: &[u8; 12]) -> impl Fn(&State) -> State {
    let constant = block(constant);
    move |a| sigma(&constant, &pi(a))
}

/// The inverse of the toy: sigma and pi are undone in this order.
fn undo_toy(constant: &[u8; 12]) -> impl Fn(&State) -> State {
    let constant = block(constant);
    move |b| inverse_pi(&inverse_sigma(&constant, b))
}

/// The page of plain bytes with the toys in the places of the keys.
fn toy_page(plain: &[u8; CHECKED_LENGTH]) -> Vec<u8> {
    page_with(toy(&TOY_FIRST), toy(&TOY_SECOND), plain)
}

/// The number that opening a page with the toys answers.
fn toy_answer(page: &[u8]) -> String {
    number_of(&opened_with(
        toy(&TOY_FIRST),
        undo_toy(&TOY_FIRST),
        toy(&TOY_SECOND),
        page,
    ))
}

/// The field for the number of a call: 0, or the number of the reason for which it is
/// refused.
pub(crate) fn number_of<T>(called: &Result<T, Refusal>) -> String {
    match called {
        Ok(_) => DONE.to_string(),
        Err(refusal) => refusal.number().to_string(),
    }
}

/// The header and the payload of a page with this header. Byte i of the payload is
/// (7i + 1) mod 256 if it is used.
pub(crate) fn plain_with(header: &Header) -> [u8; CHECKED_LENGTH] {
    plain_bytes(header, &payload_bytes(usize::from(header.used)))
}

/// The given number of payload bytes.
pub(crate) fn payload_bytes(count: usize) -> Vec<u8> {
    (0..count).map(|i| ((7 * i + 1) % 256) as u8).collect()
}

/// The fields that a line about a toy page starts with, up to the used count.
fn toy_fields(name: &str, header: &Header) -> Vec<String> {
    vec![
        name.to_string(),
        hex(&TOY_FIRST),
        hex(&TOY_SECOND),
        header.size_block.to_string(),
        header.page_number.to_string(),
        header.used.to_string(),
    ]
}

/// Adds a line about a toy page.
fn add_toy_line(text: &mut String, name: &str, header: &Header, rest: &[String]) {
    let fields = [&toy_fields(name, header)[..], rest].concat();
    let fields: Vec<&str> = fields.iter().map(String::as_str).collect();
    add_line(text, &fields);
}

/// The lines for the start and the end of pages.
fn add_pagewith_lines(text: &mut String) {
    for (size_block, page_number, used) in PAGES {
        let header = Header {
            size_block,
            page_number,
            used,
        };
        let page = toy_page(&plain_with(&header));
        let start = hex(&page[..SHOWN_START]);
        let end = hex(&page[PAGE_LENGTH - SHOWN_END..]);
        add_toy_line(text, "pagewith", &header, &[start, end]);
    }
}

/// The lines for a page of which one byte is altered as it is stored.
fn add_altered_lines(text: &mut String) {
    let page = toy_page(&plain_with(&ALTERED_HEADER));
    for (index, value) in ALTERED {
        let value = if page[index] == value {
            OTHER_VALUE
        } else {
            value
        };
        let answer = toy_answer(&with_byte(&page, index, value));
        let rest = [index.to_string(), value.to_string(), answer];
        add_toy_line(text, "altered", &ALTERED_HEADER, &rest);
    }
}

/// The lines for pages of which one payload byte, used or not, was replaced before the
/// page was made.
fn add_padded_lines(text: &mut String) {
    for (used, index, value) in PADDED {
        let header = Header {
            used,
            ..ALTERED_HEADER
        };
        let mut plain = plain_with(&header);
        plain[HEADER_LENGTH + index] = value;
        let answer = toy_answer(&toy_page(&plain));
        let rest = [index.to_string(), value.to_string(), answer];
        add_toy_line(text, "padded", &header, &rest);
    }
}

/// The number of a sealing for which the given reasons hold, of 1, 2, 4, 14 and 12. For
/// reason 14 it is for size block 0, and for reason 12 the payload has 493 bytes.
pub fn seal_with(reasons: &[u8]) -> String {
    let size_block = if reasons.contains(&14) {
        ZERO_BLOCK
    } else {
        SIZE_BLOCK
    };
    seal_for(size_block, reasons)
}

/// The number of a sealing for a size block for which the given reasons hold, of 1, 2, 4
/// and 12.
pub(crate) fn seal_for(size_block: u32, reasons: &[u8]) -> String {
    let (second, rounds) = second_key_and_rounds_with(reasons);
    let used = if reasons.contains(&12) {
        PAYLOAD_LENGTH + 1
    } else {
        usize::from(USED)
    };
    let mut scratch = [UNWRITTEN; SCRATCH_LENGTH];
    let mut out = vec![UNWRITTEN; lent_with(reasons, PAGE_LENGTH)];
    number_of(&seal(
        &KEY[..SHORT],
        &second,
        rounds,
        size_block,
        PAGE_NUMBER,
        &payload_bytes(used),
        &mut scratch,
        &mut out,
    ))
}

/// The number of an opening for which the given reasons hold, of 1, 2, 4, 11 and 13. An
/// 11 that stands after 13 is the one that is tried after it.
pub fn open_with(reasons: &[u8]) -> String {
    let (second, rounds) = second_key_and_rounds_with(reasons);
    let page = sealed_with(reasons);
    let mut scratch = [UNWRITTEN; SCRATCH_LENGTH];
    let mut out = vec![UNWRITTEN; lent_with(reasons, PAYLOAD_LENGTH)];
    let first = &KEY[..SHORT];
    number_of(&open(first, &second, rounds, &page, &mut scratch, &mut out))
}

/// The second key and the number of rounds of a call. For reason 1 the second key is the
/// first. For reason 2 the rounds are 12, which Table 2 (section 3.9) has for no key.
fn second_key_and_rounds_with(reasons: &[u8]) -> (Vec<u8>, usize) {
    let second = if reasons.contains(&1) {
        KEY[..SHORT].to_vec()
    } else {
        other_key()
    };
    let rounds = if reasons.contains(&2) { 12 } else { ROUNDS };
    (second, rounds)
}

/// The number of bytes lent for the output of a call. For reason 4 it is one less than
/// are to be written.
fn lent_with(reasons: &[u8], written: usize) -> usize {
    if reasons.contains(&4) {
        written - 1
    } else {
        written
    }
}

/// The page that is opened. For reason 11 byte 8 is not zero, or, if the 11 stands after
/// 13, the first unused byte of the payload; the check is right for either. For reason 13
/// the last byte of the check is wrong.
fn sealed_with(reasons: &[u8]) -> Vec<u8> {
    let mut plain = plain_with(&Header {
        size_block: SIZE_BLOCK,
        page_number: PAGE_NUMBER,
        used: USED,
    });
    match reasons {
        [.., 13, 11] => plain[HEADER_LENGTH + usize::from(USED)] = 1,
        _ if reasons.contains(&11) => plain[8] = 1,
        _ => (),
    }
    let page = page_under(&KEY[..SHORT], &other_key(), ROUNDS, &plain);
    let mut page = page.expect("the keys and the rounds are allowed");
    if reasons.contains(&13) {
        page[PAGE_LENGTH - 1] ^= 1;
    }
    page
}
