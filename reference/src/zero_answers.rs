//! The worked answers about size block 0, as plain text. They come after those of
//! `page_answers.rs`, in this order. The calls are those of `answers.rs` and of
//! `page_answers.rs` in which nothing is wrong, but for what is said here.
//!
//! - `sized CALL BLOCK NUMBER`: the number of `issue`, `check`, `queue`, `seal` or `open`
//!   for the size block BLOCK. The grant that is checked, the one grant of the queue and
//!   the page that is opened name BLOCK too, so that those for 0 are old.
//! - `both CALL A B GIVEN`: the number with which a call is refused for which A and B hold,
//!   as in `order`. One of them is 14, and the other is any reason that comes before it or
//!   after it. For a queue, those after it are reasons of the grants in it.
//! - `oldgrant PLAIN COUNT FIGURE BLOCK RIGHT NUMBER CONTRACTOR ANSWERED`: as `judged`, for
//!   old grants, which name size block 0.
//! - `oldqueue KEY ROUNDS COUNT,COUNT,... FIGURE,FIGURE,... GRANTS BLOCK RIGHT NUMBER ANSWER
//!   ANSWER ...`: as `queue`, with the number of the whole call before the answers. An
//!   answer is what the byte that was lent for it is after the call; it is 255 before.
//!   Some grants are old. `-` stands for no grants.
//! - `oldpage FIRST SECOND ROUNDS PAGE NUMBER BLOCK PAGENO USED PAYLOAD`: the number that
//!   opening an old page for size block 0 answers, the size block, the page number and the
//!   used count that it answers with, and the payload that it writes; 0, 0, 0 and `-` if
//!   it is refused.

use crate::answers::{
    add_judgement_line, add_reason_lines, check_with, decimals, hex_or_dash, issue_with,
    queue_roll, queue_with, roll_with, CONTRACTOR, COUNT, KEY, QUEUE_COUNTS, QUEUE_FIGURES, ROUNDS,
    SHORT, UNWRITTEN,
};
use crate::grants::number_of;
use crate::page_answers::{
    number_of as number_of_page, other_key, payload_bytes, plain_with, seal_for, seal_with,
    PAGE_NUMBER, USED,
};
use crate::pages::{
    old_zero_page, open, page_under, Header, Refusal, HEADER_LENGTH, PAGE_LENGTH, PAYLOAD_LENGTH,
    SCRATCH_LENGTH,
};
use crate::roll::{old_zero_grant, Grant, OVERWRITING, READING, ZERO_BLOCK};
use crate::vectors::{add_line, hex};

/// The size blocks for which calls are made. But for the last, each has a single bit or
/// none. A program that takes the number as one byte, as two or as three has 0 for 256,
/// 65,536 or 16,777,216, and one that looks at the other end of it has 0 for 1. One that
/// takes the last as a number with a sign has one below 0.
const BLOCKS: [u32; 6] = [0, 1, 256, 65_536, 16_777_216, 4_294_967_295];

/// A call that is made for each size block: its name, and what gives its number.
type CallFor = (&'static str, fn(u32) -> String);

/// The calls that are made for each size block.
const SIZED: [CallFor; 5] = [
    ("issue", issue_for),
    ("check", check_for),
    ("queue", queue_for),
    ("seal", |block| seal_for(block, &[])),
    ("open", open_for),
];

/// The pairs of 14 and another reason for an issue.
const ISSUE_PAIRS: [[u8; 2]; 6] = [[1, 14], [2, 14], [6, 14], [7, 14], [14, 20], [14, 25]];

/// The pairs of 14 and another reason for a check.
const CHECK_PAIRS: [[u8; 2]; 10] = [
    [1, 14],
    [2, 14],
    [3, 14],
    [7, 14],
    [14, 8],
    [14, 9],
    [14, 10],
    [14, 20],
    [14, 23],
    [14, 25],
];

/// The pairs of 14 and another reason for a queue. Those after 14 are for every grant.
const QUEUE_PAIRS: [[u8; 2]; 11] = [
    [1, 14],
    [2, 14],
    [3, 14],
    [4, 14],
    [7, 14],
    [14, 8],
    [14, 9],
    [14, 10],
    [14, 20],
    [14, 23],
    [14, 25],
];

/// The pairs of 14 and another reason for a sealing.
const SEAL_PAIRS: [[u8; 2]; 4] = [[1, 14], [2, 14], [4, 14], [14, 12]];

/// The checks of old grants: the right in the grant, the contractor's count and figure in
/// the roll, and the size block and the right that are asked for. The count in the grant
/// is 1. Right 3 is none.
const OLD_GRANTS: [(u8, u16, u8, u32, u8); 23] = [
    (OVERWRITING, 1, 2, 0, OVERWRITING),
    (OVERWRITING, 1, 2, 0, READING),
    (READING, 1, 2, 0, READING),
    (READING, 1, 2, 0, OVERWRITING),
    (OVERWRITING, 1, 2, 1, OVERWRITING),
    (OVERWRITING, 1, 2, 256, OVERWRITING),
    (OVERWRITING, 1, 2, 65_536, OVERWRITING),
    (OVERWRITING, 1, 2, 16_777_216, OVERWRITING),
    (OVERWRITING, 1, 2, 4_294_967_295, OVERWRITING),
    (OVERWRITING, 1, 2, 300, OVERWRITING),
    (OVERWRITING, 1, 2, 300, READING),
    (READING, 1, 2, 300, READING),
    (READING, 1, 2, 300, OVERWRITING),
    (OVERWRITING, 2, 2, 0, OVERWRITING),
    (OVERWRITING, 2, 2, 300, OVERWRITING),
    (OVERWRITING, 3, 2, 0, OVERWRITING),
    (OVERWRITING, 3, 2, 300, OVERWRITING),
    (OVERWRITING, 1, 1, 0, OVERWRITING),
    (OVERWRITING, 1, 1, 300, OVERWRITING),
    (3, 1, 2, 0, OVERWRITING),
    (3, 1, 2, 300, OVERWRITING),
    (OVERWRITING, 1, 2, 0, 3),
    (OVERWRITING, 1, 2, 300, 3),
];

/// The grants of the queue: the contractor, the count, the size block and the right.
const OLD_QUEUE: [(u16, u16, u32, u8); 6] = [
    (1, 1, 0, OVERWRITING),
    (1, 1, 300, OVERWRITING),
    (1, 1, 0, READING),
    (2, 2, 0, OVERWRITING),
    (1, 1, 256, OVERWRITING),
    (3, 3, 0, OVERWRITING),
];

/// What the queue is asked for: size block and right. Right 3 is none.
const QUEUE_ASKED: [(u32, u8); 7] = [
    (300, OVERWRITING),
    (300, READING),
    (256, OVERWRITING),
    (1, OVERWRITING),
    (0, OVERWRITING),
    (0, READING),
    (0, 3),
];

/// What a queue of no grants is asked for.
const EMPTY_QUEUE_ASKED: [(u32, u8); 2] = [(300, OVERWRITING), (0, OVERWRITING)];

/// The old pages that open: the key length, the rounds, the page number, the used count.
const OLD_PAGES: [(usize, usize, u16, usize); 3] =
    [(12, 10, 7, 17), (18, 17, 65_535, 492), (24, 23, 0, 0)];

/// All worked answers about size block 0.
pub(crate) fn add_zero_answers(text: &mut String) {
    add_sized_lines(text);
    add_both_lines(text);
    add_old_grant_lines(text);
    add_old_queue_lines(text);
    add_old_page_lines(text);
}

/// The lines for calls for several size blocks.
fn add_sized_lines(text: &mut String) {
    for (call, number_for) in SIZED {
        for block in BLOCKS {
            let number = number_for(block);
            add_line(text, &["sized", call, &block.to_string(), &number]);
        }
    }
}

/// The number of an issue for a size block.
fn issue_for(block: u32) -> String {
    let roll = roll_with(&[]);
    number_of(&roll.issue(&KEY[..SHORT], ROUNDS, CONTRACTOR, block, OVERWRITING))
}

/// The number of a check of a grant for a size block that is asked for this size block.
fn check_for(block: u32) -> String {
    let grant = grant_for(CONTRACTOR, COUNT, block, OVERWRITING);
    let roll = roll_with(&[]);
    number_of(&roll.check(&KEY[..SHORT], ROUNDS, &grant, block, OVERWRITING))
}

/// The number of a queue of one grant for a size block that is asked for this size block.
fn queue_for(block: u32) -> String {
    let grant = grant_for(CONTRACTOR, COUNT, block, OVERWRITING);
    let mut answer = [UNWRITTEN];
    let (roll, key) = (roll_with(&[]), &KEY[..SHORT]);
    number_of(&roll.check_queue(key, ROUNDS, &grant, block, OVERWRITING, &mut answer))
}

/// An enciphered grant with these numbers. For size block 0 it is an old one.
fn grant_for(contractor: u16, count: u16, block: u32, right: u8) -> Vec<u8> {
    let key = &KEY[..SHORT];
    let grant = if block == ZERO_BLOCK {
        old_zero_grant(key, ROUNDS, contractor, count, right)
    } else {
        let grant = Grant {
            contractor,
            count,
            block,
            right,
        };
        grant.enciphered(key, ROUNDS)
    };
    grant.expect("the key and the rounds are allowed")
}

/// The number of an opening of a page for a size block.
fn open_for(block: u32) -> String {
    let (first, second) = (&KEY[..SHORT], other_key());
    let plain = plain_with(&Header {
        size_block: block,
        page_number: PAGE_NUMBER,
        used: USED,
    });
    let page = page_under(first, &second, ROUNDS, &plain);
    let page = page.expect("the keys and the rounds are allowed");
    let mut scratch = [UNWRITTEN; SCRATCH_LENGTH];
    let mut out = [UNWRITTEN; PAYLOAD_LENGTH];
    number_of_page(&open(first, &second, ROUNDS, &page, &mut scratch, &mut out))
}

/// The lines for 14 and another reason.
fn add_both_lines(text: &mut String) {
    add_reason_lines(text, ["both", "issue"], &ISSUE_PAIRS, issue_with);
    add_reason_lines(text, ["both", "check"], &CHECK_PAIRS, check_with);
    add_reason_lines(text, ["both", "queue"], &QUEUE_PAIRS, queue_with);
    add_reason_lines(text, ["both", "seal"], &SEAL_PAIRS, seal_with);
}

/// The lines for checks of old grants, which have the contractor of a call in which nothing
/// is wrong, and count 1.
fn add_old_grant_lines(text: &mut String) {
    for (granted, count, figure, block, asked) in OLD_GRANTS {
        let grant = Grant {
            contractor: CONTRACTOR,
            count: 1,
            block: ZERO_BLOCK,
            right: granted,
        };
        add_judgement_line(text, "oldgrant", &grant, (count, figure), (block, asked));
    }
}

/// The lines for the queue with old grants in it, then those for a queue of no grants.
fn add_old_queue_lines(text: &mut String) {
    let mut grants = Vec::new();
    for (contractor, count, block, right) in OLD_QUEUE {
        grants.extend(grant_for(contractor, count, block, right));
    }
    for (block, right) in QUEUE_ASKED {
        add_old_queue_line(text, &grants, block, right);
    }
    for (block, right) in EMPTY_QUEUE_ASKED {
        add_old_queue_line(text, &[], block, right);
    }
}

/// The line for a queue, with one byte lent for each grant.
fn add_old_queue_line(text: &mut String, grants: &[u8], block: u32, right: u8) {
    let mut answers = vec![UNWRITTEN; grants.len() / 12];
    let key = &KEY[..SHORT];
    let called = queue_roll().check_queue(key, ROUNDS, grants, block, right, &mut answers);
    let mut fields = vec![
        String::from("oldqueue"),
        hex(key),
        ROUNDS.to_string(),
        decimals(&QUEUE_COUNTS, ","),
        decimals(&QUEUE_FIGURES, ","),
        hex_or_dash(grants),
        block.to_string(),
        right.to_string(),
        number_of(&called),
    ];
    fields.extend(answers.iter().map(u8::to_string));
    let fields: Vec<&str> = fields.iter().map(String::as_str).collect();
    add_line(text, &fields);
}

/// The lines for old pages that open, then for three that do not.
fn add_old_page_lines(text: &mut String) {
    for (length, rounds, page_number, used) in OLD_PAGES {
        let keys = page_keys(length);
        let payload = payload_bytes(used);
        let page = old_zero_page(&keys[0], &keys[1], rounds, page_number, &payload);
        let page = page.expect("the keys, the rounds and the payload are allowed");
        add_old_page_line(text, &keys, rounds, &page);
    }
    for page in bad_old_pages() {
        add_old_page_line(text, &page_keys(SHORT), ROUNDS, &page);
    }
}

/// The keys of a page: that of a length, and the same with the last bit changed.
fn page_keys(length: usize) -> [Vec<u8>; 2] {
    let first = KEY[..length].to_vec();
    let mut second = first.clone();
    second[length - 1] ^= 1;
    [first, second]
}

/// Old pages of which one thing is wrong: the last byte of the check; the first unused
/// byte of the payload, and then byte 8, which are 1 while the check is right for that.
fn bad_old_pages() -> [Vec<u8>; 3] {
    let header = Header {
        size_block: ZERO_BLOCK,
        page_number: PAGE_NUMBER,
        used: USED,
    };
    let [first, second] = page_keys(SHORT);
    let page_with_one_at = |position: Option<usize>| {
        let mut plain = plain_with(&header);
        if let Some(position) = position {
            plain[position] = 1;
        }
        let page = page_under(&first, &second, ROUNDS, &plain);
        page.expect("the keys and the rounds are allowed")
    };
    let mut unchecked = page_with_one_at(None);
    unchecked[PAGE_LENGTH - 1] ^= 1;
    let unused = HEADER_LENGTH + usize::from(USED);
    [
        unchecked,
        page_with_one_at(Some(unused)),
        page_with_one_at(Some(8)),
    ]
}

/// The line for an old page that is opened.
fn add_old_page_line(text: &mut String, keys: &[Vec<u8>; 2], rounds: usize, page: &[u8]) {
    let mut scratch = [UNWRITTEN; SCRATCH_LENGTH];
    let mut out = [UNWRITTEN; PAYLOAD_LENGTH];
    let [first, second] = keys;
    let opened = open(first, second, rounds, page, &mut scratch, &mut out);
    add_line(
        text,
        &[
            "oldpage",
            &hex(first),
            &hex(second),
            &rounds.to_string(),
            &hex(page),
            &opened_fields(&opened, &out),
        ],
    );
}

/// The fields for an opening: its number, the size block, the page number, the used count
/// and the payload, which are 0, 0, 0 and `-` if it is refused.
pub(crate) fn opened_fields(opened: &Result<Header, Refusal>, payload: &[u8]) -> String {
    let number = number_of_page(opened);
    match opened {
        Ok(header) => format!(
            "{} {} {} {} {}",
            number,
            header.size_block,
            header.page_number,
            header.used,
            hex(payload)
        ),
        Err(_) => format!("{} 0 0 0 -", number),
    }
}
