//! The readers of answers and of rights stand in the header as code. What the wrapper makes
//! of an answer or of a roll has to be what they say of it.

use crate::header::in_one_line;
use crate::pages::{header, page_of};
use crate::{block, repository_file};
use gordzila::{
    raw, KeyHolder, Opened, PageHeader, PageKeys, Right, Roll, Walked, Way, ROLL_BYTES,
};

/// The readers, each as it stands in the header, in one line.
const READERS: [&str; 13] = [
    "int gordzila_opens(uint32_t answer) { return answer >= 1000; }",
    "uint32_t gordzila_answered_right(uint32_t answer) { return answer / 1000; }",
    "uint32_t gordzila_answered_contractor(uint32_t answer) \
     { return gordzila_opens(answer) ? answer % 1000 : 0; }",
    "int gordzila_queue_opens(uint32_t returned, uint8_t byte) \
     { return returned == 0 && byte == 0; }",
    "uint32_t gordzila_highest_right(const uint8_t *roll, uint32_t contractor) \
     { if (contractor < 1 || contractor > 200) { return 0; } \
     return roll[GORDZILA_ROLL_COUNTS_BYTES + contractor - 1] == GORDZILA_OVERWRITING \
     ? GORDZILA_OVERWRITING : GORDZILA_READING; }",
    "int gordzila_page_opens(uint64_t answer) { return answer >> 63 == 1; }",
    "uint32_t gordzila_page_refusal(uint64_t answer) \
     { return gordzila_page_opens(answer) ? 0 : (uint32_t)answer; }",
    "uint32_t gordzila_opened_size_block(uint64_t answer) \
     { return gordzila_page_opens(answer) ? (uint32_t)answer : 0; }",
    "uint16_t gordzila_opened_page_number(uint64_t answer) \
     { return gordzila_page_opens(answer) ? (uint16_t)(answer >> 32) : 0; }",
    "uint16_t gordzila_opened_used(uint64_t answer) \
     { return gordzila_page_opens(answer) ? (uint16_t)(answer >> 48 & 32767) : 0; }",
    "int gordzila_walked(uint32_t answer) { return answer >= 1000; }",
    "uint32_t gordzila_walked_steps(uint32_t answer) \
     { return gordzila_walked(answer) ? answer % 1000 : 0; }",
    "int gordzila_walked_back(uint32_t answer) { return answer >= 2000; }",
];

/// What the first three readers say: whether a grant opens, the right asked
/// for, and the contractor.
fn read_check(answer: u32) -> (bool, u32, u32) {
    let opens = answer >= 1000;
    (opens, answer / 1000, if opens { answer % 1000 } else { 0 })
}

/// What the fourth says: whether a grant of a queue opens.
fn read_queue(returned: u32, byte: u8) -> bool {
    returned == 0 && byte == 0
}

/// What the fifth says: the highest right of a contractor, or 0.
fn read_highest(roll: &[u8], contractor: u32) -> u32 {
    match contractor {
        1..=200 if roll[400 + contractor as usize - 1] == 2 => 2,
        1..=200 => 1,
        _ => 0,
    }
}

/// What the next five say: whether a page opens, the number of the refusal, the size block,
/// the page number and the used count.
fn read_page(answer: u64) -> (bool, u32, u32, u16, u16) {
    match answer >> 63 == 1 {
        true => {
            let used = (answer >> 48 & 32767) as u16;
            (true, 0, answer as u32, (answer >> 32) as u16, used)
        }
        false => (false, answer as u32, 0, 0, 0),
    }
}

/// What the others say: whether a holder walked, how many steps, and whether back.
fn read_walk(answer: u32) -> (bool, u32, bool) {
    let walked = answer >= 1000;
    let steps = if walked { answer % 1000 } else { 0 };
    (walked, steps, answer >= 2000)
}

#[test]
fn the_readers_are_those_of_the_header() {
    let header = repository_file("include/gordzila.h");
    // A reader goes up to the next one or to a line without words.
    let readers = header
        .split("\nstatic inline ")
        .skip(1)
        .map(|rest| in_one_line(rest.split("\n\n").next().unwrap()));
    assert_eq!(readers.collect::<Vec<_>>(), READERS);
}

#[test]
fn a_check_says_what_the_readers_say() {
    for contractor in [1, 7, 200] {
        let mut roll = Roll::empty();
        roll.enter(contractor, Right::Overwriting).unwrap();
        for right in [Right::Reading, Right::Overwriting] {
            let issued = gordzila::issue(&[1; 12], 10, &roll, contractor, block(300), right);
            for (number, asked) in [(300, 1), (300, 2), (301, 1), (300, 3), (0, 1)] {
                let (key, roll, grant) = (&[1; 12], roll.bytes(), &issued.unwrap());
                let answer = raw::check_number(key, 10, roll, grant, number, asked);
                let said = match raw::check(key, 10, roll, grant, number, asked) {
                    Ok(Opened { contractor, right }) => (true, right.number(), contractor),
                    Err(_) => (false, 0, 0),
                };
                assert_eq!(said, read_check(answer));
                assert!([0, asked].contains(&said.1), "the right asked for");
            }
        }
    }
}

/// Over answers that were cleared, so that a queue that is refused leaves zeros.
#[test]
fn a_queue_says_what_the_reader_says() {
    let (key, mut roll) = (&[1; 12], Roll::empty());
    roll.enter(7, Right::Overwriting).unwrap();
    let issued = |right| gordzila::issue(key, 10, &roll, 7, block(300), right).unwrap();
    let pile = [issued(Right::Reading), [0; 12], issued(Right::Overwriting)];
    for (rounds, right) in [
        (9, Right::Reading),
        (10, Right::Reading),
        (10, Right::Overwriting),
    ] {
        let (grants, asked, mut answers) = (pile.concat(), right.number(), [0; 3]);
        let returned =
            raw::check_queue_number(key, rounds, roll.bytes(), &grants, 300, asked, &mut answers);
        let said = match gordzila::check_queue(key, rounds, &roll, &pile, block(300), right) {
            Ok(verdicts) => verdicts.iter().map(|verdict| verdict.is_ok()).collect(),
            Err(_) => vec![false; 3],
        };
        assert_eq!(said, answers.map(|byte| read_queue(returned, byte)));
    }
}

/// Any byte in the place of a contractor's right. Those of all others mean the other thing,
/// so that a right that is read in another place is found out.
#[test]
fn a_roll_says_what_the_reader_says() {
    for contractor in [0, 1, 7, 200, 201, 257, u32::MAX] {
        for figure in 0..=u8::MAX {
            let mut bytes = [if figure == 2 { 1 } else { 2 }; ROLL_BYTES];
            if let Some(byte) = bytes.get_mut(399 + contractor as usize) {
                *byte = figure;
            }
            let roll = Roll::from_bytes(&bytes).unwrap();
            let said = roll.highest_right(contractor).map_or(0, Right::number);
            let expected = match (contractor, figure) {
                (1..=200, 2) => 2,
                (1..=200, _) => 1,
                _ => 0,
            };
            assert_eq!(said, expected, "{contractor}, {figure}");
            assert_eq!(said, read_highest(&bytes, contractor));
        }
    }
}

/// Pages that were sealed for size block 0, before version 0.7, are among them.
#[test]
fn an_opening_says_what_the_readers_say() {
    let (first, second) = (&[1; 12], &[2; 12]);
    let keys = PageKeys { first, second };
    for (block, number, used) in [(0, 0, 0), (13, 1, 1), (u32::MAX, u16::MAX, 492), (0, 1, 9)] {
        let page = page_of(keys, 10, header(block, number, used), &vec![3; used.into()]);
        for (rounds, page) in [(9, &page[..]), (10, &page), (11, &page), (10, &page[1..])] {
            let (mut scratch, mut out) = ([0; 576], [0; 492]);
            let answer = raw::open_page_number(keys, rounds, page, &mut scratch, &mut out);
            let said = match raw::open_page(keys, rounds, page, &mut scratch, &mut out) {
                Ok(PageHeader {
                    size_block,
                    page_number,
                    used,
                }) => (true, 0, size_block, page_number, used),
                Err(reason) => (false, reason.number(), 0, 0, 0),
            };
            assert_eq!(said, read_page(answer));
        }
    }
}

#[test]
fn a_walk_says_what_the_readers_say() {
    for length in [12, 18, 24] {
        let mut holder = KeyHolder::new(&vec![1; length]).unwrap();
        for _ in 0..length {
            for to in 0..=length as u32 {
                let bytes = *holder.as_bytes();
                let answer = raw::holder_walk_number(&mut bytes.clone(), to);
                let said = match raw::holder_walk(&mut bytes.clone(), to) {
                    Ok(Walked { steps, way }) => (true, steps, way == Way::Back),
                    Err(_) => (false, 0, false),
                };
                assert_eq!(said, read_walk(answer));
            }
            holder.forward();
        }
    }
}
