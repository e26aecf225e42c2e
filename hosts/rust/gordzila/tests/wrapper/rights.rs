//! Which right in a grant opens for which right asked for, and which one is answered.

use crate::{block, repository_file};
use gordzila::{check, encipher, issue, raw, Opened, Reason, Right, Roll};
use Right::{Overwriting, Reading};

const KEY: [u8; 18] = [3; 18];
const ROUNDS: u32 = 14;

/// A roll on which contractor 7 has a count, and may overwrite.
fn roll(count: u8) -> Roll {
    let mut bytes = *Roll::empty().bytes();
    (bytes[13], bytes[406]) = (count, 2);
    Roll::from_bytes(&bytes).unwrap()
}

/// A grant to contractor 7 for size block 300 at count 1, with any byte as its right.
fn grant_with(right: u8) -> [u8; 12] {
    let plain = [0, 7, 0, 1, 0, 0, 1, 44, right, 0x47, 0x52, 0x44];
    encipher(&KEY, ROUNDS, &plain).unwrap()
}

#[test]
fn what_is_issued_is_such_a_grant() {
    for right in [Reading, Overwriting] {
        let issued = issue(&KEY, ROUNDS, &roll(1), 7, block(300), right).unwrap();
        assert_eq!(issued, grant_with(right.number() as u8));
    }
}

#[test]
fn each_right_in_a_grant_opens_for_these_and_answers_the_one_asked_for() {
    let opens = |contractor, right| Ok(Opened { contractor, right });
    for (in_grant, asked, expected) in [
        (Reading, Reading, opens(7, Reading)),
        (Reading, Overwriting, Err(Reason::OtherRight)),
        (Overwriting, Reading, opens(7, Reading)),
        (Overwriting, Overwriting, opens(7, Overwriting)),
    ] {
        let roll = roll(1);
        let grant = issue(&KEY, ROUNDS, &roll, 7, block(300), in_grant).unwrap();
        let answer = check(&KEY, ROUNDS, &roll, &grant, block(300), asked);
        assert_eq!(answer, expected, "{in_grant}, asked for {asked}");
    }
}

#[test]
fn a_look_answers_1001_to_1200() {
    for contractor in [1, 7, 200] {
        let mut roll = Roll::empty();
        roll.enter(contractor, Overwriting).unwrap();
        let grant = issue(&KEY, ROUNDS, &roll, contractor, block(300), Overwriting).unwrap();
        let number = |asked| raw::check_number(&KEY, ROUNDS, roll.bytes(), &grant, 300, asked);
        assert_eq!(
            (number(1), number(2)),
            (1000 + contractor, 2000 + contractor)
        );
    }
}

/// The number that a check answers of a grant with any byte as its right.
fn number(in_grant: u8, count: u8, block: u32, asked: u32) -> u32 {
    let (roll, grant) = (roll(count), grant_with(in_grant));
    raw::check_number(&KEY, ROUNDS, roll.bytes(), &grant, block, asked)
}

#[test]
fn ten_stands_between_nine_and_twenty() {
    // A reading grant asked for overwriting: also for another block, also of someone who
    // was withdrawn or is in another standing.
    for count in [1, 2, 3] {
        assert_eq!(number(1, count, 301, 2), 9);
        assert_eq!(number(1, count, 300, 2), 10);
    }
    // An overwriting grant asked for reading goes on to what comes after 10.
    assert_eq!(number(2, 1, 301, 1), 9);
    assert_eq!(number(2, 2, 300, 1), 20);
    assert_eq!(number(2, 3, 300, 1), 23);
    assert_eq!(number(2, 1, 300, 1), 1007);
}

#[test]
fn what_is_no_right_opens_nothing() {
    for in_grant in [0, 3, 4, 129, 130, 255] {
        for asked in [1, 2] {
            assert_eq!(number(in_grant, 1, 300, asked), 8, "{in_grant}");
        }
    }
    for in_grant in [0, 1, 2, 3] {
        for asked in [0, 3, 257, 258, u32::MAX] {
            assert_eq!(number(in_grant, 1, 300, asked), 7, "{asked}");
        }
    }
}

#[test]
fn the_example_in_c_has_the_same_words_for_10() {
    let example = repository_file("hosts/c/plotter.c");
    let (_, rest) = example.split_once("case GORDZILA_OTHER_RIGHT:").unwrap();
    let words = format!("return \"{}\";", Reason::OtherRight);
    assert!(rest.trim_start().starts_with(&words), "{words}");
    assert_eq!(
        Reason::OtherRight.to_string(),
        "overwriting asked of a reading grant"
    );
}
