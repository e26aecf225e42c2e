//! The queue: which verdict each grant gets, and when the whole call is refused.

use crate::block;
use crate::refusals::numbered;
use gordzila::{check, check_queue, encipher, issue, raw, Reason, Right, Roll, QUEUE_MOST_GRANTS};
use std::collections::BTreeSet;
use Right::{Overwriting, Reading};

const KEY: [u8; 18] = [3; 18];
const ROUNDS: u32 = 14;

/// A roll on which contractor 7 is in standing with count 1 and may overwrite, contractor 8
/// was withdrawn, with count 2, and contractor 9 is in standing with count 1 and may only
/// read.
fn roll() -> Roll {
    let mut bytes = *Roll::empty().bytes();
    (bytes[13], bytes[15], bytes[17]) = (1, 2, 1);
    bytes[406] = 2;
    Roll::from_bytes(&bytes).unwrap()
}

/// A grant with any contractor, count, size block and right, which are bytes; to the
/// number of the size block 256 is added.
fn grant([contractor, count, block, right]: [u8; 4]) -> [u8; 12] {
    let plain = [
        0, contractor, 0, count, 0, 0, 1, block, right, 0x47, 0x52, 0x44,
    ];
    encipher(&KEY, ROUNDS, &plain).unwrap()
}

/// Whom the pile's grants name, and at which count: 3 contractors with 2 counts each, and the
/// numbers below 1 and above 200, which are nobody's.
const NAMED: [(u8, u8); 8] = [
    (7, 1),
    (7, 3),
    (8, 1),
    (8, 3),
    (9, 1),
    (9, 3),
    (0, 1),
    (201, 1),
];

/// A grant for each of these, the size blocks 300 and 301, and 4 rights, two of which there
/// are not.
fn pile() -> Vec<[u8; 12]> {
    let mut pile = Vec::new();
    for (contractor, count) in NAMED {
        for block in [44, 45] {
            pile.extend([2, 1, 0, 3].map(|right| grant([contractor, count, block, right])));
        }
    }
    assert_eq!(pile.len(), QUEUE_MOST_GRANTS);
    pile
}

#[test]
fn each_grant_gets_the_verdict_of_the_rules() {
    let pile = [
        grant([7, 1, 44, 2]),
        grant([7, 1, 44, 1]),
        grant([7, 1, 45, 2]),
        grant([7, 3, 44, 2]),
        grant([8, 1, 44, 2]),
        [0; 12],
        grant([9, 1, 44, 2]),
        grant([9, 3, 44, 2]),
        grant([0, 1, 44, 2]),
        grant([201, 1, 44, 2]),
        grant([7, 1, 44, 2]),
    ];
    for (right, second, seventh) in [
        (Reading, Ok(()), Ok(())),
        (
            Overwriting,
            Err(Reason::OtherRight),
            Err(Reason::AboveHighest),
        ),
    ] {
        let expected = [
            Ok(()),
            second,
            Err(Reason::OtherBlock),
            Err(Reason::OtherCount),
            Err(Reason::NotInStanding),
            Err(Reason::NotAGrant),
            seventh,
            Err(Reason::OtherCount),
            Err(Reason::NotAGrant),
            Err(Reason::NotAGrant),
            Ok(()),
        ];
        let verdicts = check_queue(&KEY, ROUNDS, &roll(), &pile, block(300), right).unwrap();
        assert_eq!(verdicts, expected, "{right}");
    }
}

#[test]
fn each_verdict_is_that_of_the_single_check() {
    let (roll, pile) = (roll(), pile());
    for right in [Reading, Overwriting] {
        for block in [300, 301, 302].map(block) {
            let verdicts = check_queue(&KEY, ROUNDS, &roll, &pile, block, right).unwrap();
            let single = |grant| check(&KEY, ROUNDS, &roll, grant, block, right).map(|_| ());
            let singles: Vec<_> = pile.iter().map(|grant| single(grant)).collect();
            assert_eq!(verdicts, singles, "{right}, {block}");
        }
    }
}

/// The byte for a grant, by what a single check of it answers.
fn byte_of(grant: &[u8], block: u32, right: u32) -> u8 {
    match raw::check_number(&KEY, ROUNDS, roll().bytes(), grant, block, right) {
        1000.. => 0,
        refusal => refusal.try_into().unwrap(),
    }
}

#[test]
fn each_byte_is_the_refusal_of_the_single_check_or_0() {
    let (roll, pile) = (roll(), pile());
    let mut given = BTreeSet::new();
    for (block, right) in [(300, 1), (300, 2), (301, 1), (301, 2)] {
        let bytes: Vec<u8> = pile.iter().map(|one| byte_of(one, block, right)).collect();
        for n in 0..=pile.len() {
            // One byte more than there are grants, which stays.
            let (mut answers, grants) = (vec![0xee; n + 1], pile[..n].concat());
            let roll = roll.bytes();
            raw::check_queue(&KEY, ROUNDS, roll, &grants, block, right, &mut answers).unwrap();
            assert_eq!(answers, [&bytes[..n], &[0xee]].concat());
        }
        given.extend(bytes);
    }
    assert!(given.into_iter().eq([0, 8, 9, 10, 20, 23, 25]));
}

#[test]
fn a_change_of_the_roll_is_seen_by_every_grant_of_its_contractor() {
    let mut roll = Roll::empty();
    roll.enter(7, Overwriting).unwrap();
    roll.enter(8, Overwriting).unwrap();
    let issued = |contractor| issue(&KEY, ROUNDS, &roll, contractor, block(300), Overwriting);
    let pile = [7, 8, 7].map(|contractor| issued(contractor).unwrap());
    let verdicts =
        |roll: &Roll| check_queue(&KEY, ROUNDS, roll, &pile, block(300), Overwriting).unwrap();
    assert_eq!(verdicts(&roll), [Ok(()); 3]);
    roll.change_right(7, Reading).unwrap();
    let demoted = Err(Reason::AboveHighest);
    assert_eq!(verdicts(&roll), [demoted, Ok(()), demoted]);
    roll.change_right(7, Overwriting).unwrap();
    assert_eq!(verdicts(&roll), [Ok(()); 3]);
    roll.withdraw(7).unwrap();
    let dropped = Err(Reason::NotInStanding);
    assert_eq!(verdicts(&roll), [dropped, Ok(()), dropped]);
    roll.enter(7, Overwriting).unwrap();
    let earlier = Err(Reason::OtherCount);
    assert_eq!(verdicts(&roll), [earlier, Ok(()), earlier]);
}

#[test]
fn a_queue_without_grants_has_no_verdicts() {
    let queue = |key: &[u8], rounds| check_queue(key, rounds, &roll(), &[], block(300), Reading);
    assert_eq!(queue(&KEY, ROUNDS), Ok(vec![]));
    assert_eq!(queue(&KEY[1..], ROUNDS), Err(Reason::KeyLength));
    assert_eq!(queue(&KEY, 13), Err(Reason::RoundCount));
}

#[test]
fn a_queue_has_64_grants_at_most() {
    let queue = |key: &[u8], rounds, n| {
        let pile = vec![grant([7, 1, 44, 2]); n];
        check_queue(key, rounds, &roll(), &pile, block(300), Overwriting)
    };
    assert_eq!(queue(&KEY, ROUNDS, 64), Ok(vec![Ok(()); 64]));
    for n in [65, 66, 128, 1000] {
        assert_eq!(queue(&KEY, ROUNDS, n), Err(Reason::InputLength), "{n}");
        assert_eq!(queue(&KEY[1..], ROUNDS, n), Err(Reason::KeyLength));
        assert_eq!(queue(&KEY, 18, n), Err(Reason::RoundCount));
    }
}

/// The number that a queue of lengths answers for a right and a size block; if it is done, it
/// has written a byte for each grant, and otherwise none.
fn number_for(
    (right, block): (u32, u32),
    key: usize,
    rounds: u32,
    roll: usize,
    grants: usize,
    answers: usize,
) -> u32 {
    let (key, roll, pile) = (vec![3; key], vec![0; roll], vec![2; grants]);
    numbered(answers, grants / 12, |answers| {
        raw::check_queue_number(&key, rounds, &roll, &pile, block, right, answers)
    })
}

/// The same for size block 300.
fn number(key: usize, rounds: u32, roll: usize, grants: usize, right: u32, answers: usize) -> u32 {
    number_for((right, 300), key, rounds, roll, grants, answers)
}

/// What can be wrong with a whole call, in the header's order: key, round count, roll,
/// a length that is no multiple of 12, one that is over 768, answers, right, size block.
const FAULTS: [u32; 8] = [1, 2, 3, 3, 3, 4, 7, 14];

#[test]
fn the_whole_call_is_refused_with_1_2_3_4_7_14() {
    for faults in 0..1 << FAULTS.len() {
        let faulty = |at: usize| faults >> at & 1 == 1;
        let or = |at, right: usize, wrong: usize| if faulty(at) { wrong } else { right };
        let grants = or(3, 0, 1) + or(4, 24, 780);
        let answers = grants / 12 - or(5, 0, 1);
        let (key, rounds, roll) = (or(0, 18, 17), or(1, 14, 18) as u32, or(2, 600, 400));
        let asked = (or(6, 2, 3) as u32, or(7, 300, 0) as u32);
        let given = number_for(asked, key, rounds, roll, grants, answers);
        let first = (0..FAULTS.len()).find(|&at| faulty(at));
        assert_eq!(given, first.map_or(0, |at| FAULTS[at]), "{faults:08b}");
    }
}

#[test]
fn the_lengths_have_these_limits() {
    let of_grants = |grants| number(18, 14, 600, grants, 2, 200);
    for wrong in [1, 11, 13, 767, 769, 780, 792, 1024, 1536, 65_536, 65_548] {
        assert_eq!(of_grants(wrong), 3, "{wrong}");
    }
    for right in [0, 12, 24, 756, 768] {
        assert_eq!(of_grants(right), 0, "{right}");
    }
    for n in [1, 2, 63, 64] {
        let of_answers = |answers| number(18, 14, 600, 12 * n, 2, answers);
        assert_eq!((of_answers(0), of_answers(n - 1)), (4, 4), "{n}");
        assert_eq!((of_answers(n), of_answers(n + 1)), (0, 0), "{n}");
        assert_eq!((of_answers(256), of_answers(65_536)), (0, 0), "{n}");
    }
    // Too many grants, however many answers there are.
    for answers in [0, 63, 64, 65, 66, 200] {
        assert_eq!(number(18, 14, 600, 780, 2, answers), 3, "{answers}");
    }
}

#[test]
fn what_is_wrong_is_refused_without_grants_too() {
    for grants in [0, 12, 768] {
        assert_eq!(number(11, 10, 600, grants, 2, 64), 1);
        assert_eq!(number(24, 17, 600, grants, 2, 64), 2);
        assert_eq!(number(24, 24, 600, grants, 2, 64), 2);
        for roll in [0, 200, 399, 400, 401, 599, 601] {
            assert_eq!(number(24, 18, roll, grants, 2, 64), 3, "{roll}");
        }
        for right in [0, 3, 257, 258, u32::MAX] {
            assert_eq!(number(24, 18, 600, grants, right, 64), 7, "{right}");
        }
        assert_eq!(number_for((1, 0), 24, 18, 600, grants, 64), 14);
        assert_eq!(number(24, 18, 600, grants, 1, 64), 0);
    }
    assert_eq!(number(24, 18, 600, 0, 1, 0), 0);
    assert_eq!(number(24, 18, 600, 0, 3, 0), 7);
    assert_eq!(number_for((1, 0), 24, 18, 600, 0, 0), 14);
}
