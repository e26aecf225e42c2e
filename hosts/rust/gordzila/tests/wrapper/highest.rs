//! What a contractor's highest right lets open and be issued, and what becomes of grants
//! when it changes.

use crate::header::in_one_line;
use crate::{block, repository_file};
use gordzila::{check, check_queue, issue, raw, Reason, Right, Roll};
use Right::{Overwriting, Reading};

const KEY: [u8; 24] = [5; 24];
const ROUNDS: u32 = 18;

/// The number that a check of a grant for size block 300 answers.
fn checked(roll: &Roll, grant: &[u8], asked: Right) -> u32 {
    raw::check_number(&KEY, ROUNDS, roll.bytes(), grant, 300, asked.number())
}

/// The verdict on a grant in a queue of one.
fn queued(roll: &Roll, grant: [u8; 12], asked: Right) -> Result<(), Reason> {
    check_queue(&KEY, ROUNDS, roll, &[grant], block(300), asked).unwrap()[0]
}

fn issued(roll: &Roll, contractor: u32, right: Right) -> Result<[u8; 12], Reason> {
    issue(&KEY, ROUNDS, roll, contractor, block(300), right)
}

/// A roll on which a contractor is in standing, with any byte as their highest right. Those
/// of all others mean the other thing.
fn roll(contractor: u32, highest: u8) -> Roll {
    let mut bytes = [0; 600];
    bytes[400..].fill(if highest == 2 { 1 } else { 2 });
    bytes[2 * contractor as usize - 1] = 1;
    bytes[399 + contractor as usize] = highest;
    Roll::from_bytes(&bytes).unwrap()
}

#[test]
fn only_2_as_the_highest_right_overwrites() {
    for contractor in [1, 7, 200] {
        let high = roll(contractor, 2);
        let grant = issued(&high, contractor, Overwriting).unwrap();
        let reading = issued(&high, contractor, Reading).unwrap();
        for highest in 0..=u8::MAX {
            let roll = roll(contractor, highest);
            let (answer, verdict, issue) = match highest {
                2 => (2000 + contractor, Ok(()), Ok(grant)),
                _ => (25, Err(Reason::AboveHighest), Err(Reason::AboveHighest)),
            };
            assert_eq!(checked(&roll, &grant, Overwriting), answer, "{highest}");
            assert_eq!(queued(&roll, grant, Overwriting), verdict, "{highest}");
            assert_eq!(issued(&roll, contractor, Overwriting), issue, "{highest}");
            // Reading is in no highest right's way, nor are reading grants.
            assert_eq!(checked(&roll, &grant, Reading), 1000 + contractor);
            assert_eq!(queued(&roll, grant, Reading), Ok(()));
            assert_eq!(checked(&roll, &reading, Reading), 1000 + contractor);
            assert_eq!(checked(&roll, &reading, Overwriting), 10);
            assert_eq!(issued(&roll, contractor, Reading), Ok(reading));
        }
    }
}

/// Where the count is another or the contractor is not in standing, that is said, whatever
/// the highest right.
#[test]
fn twenty_five_comes_last() {
    let grant = issued(&roll(7, 2), 7, Overwriting).unwrap();
    for highest in [0, 1, 2, 3, 255] {
        let mut bytes = *roll(7, highest).bytes();
        for (count, expected) in [(2, 20), (3, 23)] {
            bytes[13] = count;
            let roll = Roll::from_bytes(&bytes).unwrap();
            assert_eq!(checked(&roll, &grant, Overwriting), expected, "{highest}");
            let verdict = queued(&roll, grant, Overwriting).unwrap_err();
            assert_eq!(verdict.number(), expected, "{highest}");
        }
        bytes[13] = 2;
        let roll = Roll::from_bytes(&bytes).unwrap();
        let refused = issued(&roll, 7, Overwriting);
        assert_eq!(refused, Err(Reason::NotInStanding), "{highest}");
    }
}

#[test]
fn a_demotion_ends_no_grant() {
    let mut roll = Roll::empty();
    roll.enter(7, Overwriting).unwrap();
    let grant = issued(&roll, 7, Overwriting).unwrap();
    for _ in 0..3 {
        roll.change_right(7, Reading).unwrap();
        assert_eq!(checked(&roll, &grant, Overwriting), 25);
        assert_eq!(checked(&roll, &grant, Reading), 1007);
        roll.change_right(7, Overwriting).unwrap();
        assert_eq!(checked(&roll, &grant, Overwriting), 2007);
    }
    assert_eq!(issued(&roll, 7, Overwriting), Ok(grant));
    assert_eq!(roll.count(7), Some(1));
}

/// To end the grants of someone demoted, they are withdrawn and entered again.
#[test]
fn a_withdrawal_ends_the_grants_of_someone_demoted() {
    let mut roll = Roll::empty();
    roll.enter(7, Overwriting).unwrap();
    let grant = issued(&roll, 7, Overwriting).unwrap();
    roll.change_right(7, Reading).unwrap();
    roll.withdraw(7).unwrap();
    roll.enter(7, Overwriting).unwrap();
    for right in [Reading, Overwriting] {
        assert_eq!(checked(&roll, &grant, right), 23);
        roll.change_right(7, right).unwrap();
        assert_eq!(checked(&roll, &grant, right), 23);
    }
}

#[test]
fn entering_again_asks_for_the_right_again() {
    let mut roll = Roll::empty();
    for right in [Overwriting, Reading, Overwriting] {
        roll.enter(7, right).unwrap();
        assert_eq!(roll.highest_right(7), Some(right));
        let expected = match right {
            Overwriting => Ok(()),
            Reading => Err(Reason::AboveHighest),
        };
        assert_eq!(issued(&roll, 7, Overwriting).map(|_| ()), expected);
        roll.withdraw(7).unwrap();
        assert_eq!(roll.highest_right(7), Some(Reading));
    }
}

/// The same grants open on a roll from before version 0.6 that everyone in standing may
/// overwrite on, and only for reading on one that nobody may.
#[test]
fn an_old_roll_opens_what_it_opened_or_less() {
    let grant = issued(&roll(7, 2), 7, Overwriting).unwrap();
    let mut old = [0; 400];
    old[13] = 1;
    for (right, expected) in [(Overwriting, 2007), (Reading, 25)] {
        let roll = Roll::from_old_bytes(&old, right).unwrap();
        assert_eq!(checked(&roll, &grant, Reading), 1007);
        assert_eq!(checked(&roll, &grant, Overwriting), expected);
    }
    let read = check(&KEY, ROUNDS, &Roll::empty(), &grant, block(300), Reading);
    assert_eq!(read, Err(Reason::NotInStanding));
}

/// What a host of 0.5 has to be told stands in the header, in the changes of 0.6, and in an
/// order in which it can be done: a roll that is converted first stops the hosts of 0.5.
#[test]
fn the_header_tells_of_rolls_of_400_bytes() {
    let header = repository_file("include/gordzila.h");
    let (_, changes) = header.split_once("\n * Changes in 0.6.0").unwrap();
    let (changes, _) = changes.split_once("\n * Changes in ").unwrap();
    let text = in_one_line(&changes.replace("\n *", "\n"));
    let mut rest = &text[..];
    for words in [
        "Hosts that share a roll change over together",
        "one of 400 is refused with 3",
        "a host of 0.5 refuses the longer roll with 3",
        "cuts the roll to its first 400 bytes",
        "gordzila_enter takes the contractor's highest right as a fourth argument",
        "gordzila_change_right is new",
        "Append 200 bytes to each that is stored",
        "2 for those who may overwrite, 1 for all others",
        "GORDZILA_ROLL_COUNTS_BYTES: convert it",
        "GORDZILA_ROLL_BYTES: use it",
        "Any other: stop",
        "with one right for all in standing: `gordzila roll convert --roll FILE --right R`",
        "`gordzila right --roll FILE --contractor N --right R` changes single ones",
    ] {
        let found = rest.split_once(words);
        rest = found.unwrap_or_else(|| panic!("{words}: {text}")).1;
    }
}

/// Over a roll in use, the empty roll would let revoked grants open.
#[test]
fn the_header_warns_of_the_empty_roll() {
    let header = repository_file("include/gordzila.h");
    let (before, _) = header.split_once("uint32_t gordzila_empty_roll(").unwrap();
    let (_, comment) = before.rsplit_once("/*").unwrap();
    let text = in_one_line(&comment.replace("\n *", "\n"));
    assert!(text.contains("Beware: for a new store only."), "{text}");
}
