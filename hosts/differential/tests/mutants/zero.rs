//! Libraries that do something wrong with size block 0 are found out.

use super::queue::{byte, grants, other_bytes_are_found, other_queue_is_found, single, write};
use super::rights::other_is_found;
use super::*;

/// The calls that are asked for a size block, but for the sealing of pages, which has its own tests.
const ASKING: [Call; 3] = [Call::Issue, Call::Check, Call::CheckQueue];

/// Rules on which size blocks are refused that a library could have: those that are 0 if they are cut to
/// 8, 16 or 24 bits, all below 2 or 256, all from 2^31 on, which are below 0 as numbers with a sign, the
/// last one, and all of which some byte is 0.
pub const OTHER_RULES: [fn(u32) -> bool; 8] = [
    |block| block & 0xff == 0,
    |block| block & 0xffff == 0,
    |block| block & 0xff_ffff == 0,
    |block| block < 2,
    |block| block < 256,
    |block| block as i32 <= 0,
    |block| block == 0 || block == u32::MAX,
    |block| block.to_be_bytes().contains(&0),
];

/// Whether an answer says that no reason holds which the call tries before 14.
fn is_past(call: Call, answer: u64) -> bool {
    let mut before_14 = call.reasons().iter().take_while(|&&reason| reason != 14);
    before_14.all(|&reason| u64::from(reason) != answer)
}

#[test]
fn another_rule_on_size_block_0_is_found() {
    for call in ASKING {
        for refuses in OTHER_RULES {
            other_is_found(call, |lent| {
                let before = copied(lent.out);
                let answer = archive(call, lent);
                match is_past(call, answer) && refuses(lent.size_block) {
                    true => {
                        put(lent.out, &before);
                        14
                    }
                    false => answer,
                }
            });
        }
    }
}

/// The size block that plain bytes name.
fn named(plain: &[u8; 12]) -> u32 {
    u32::from_be_bytes([plain[4], plain[5], plain[6], plain[7]])
}

/// The same plain bytes with another size block.
fn renamed(mut plain: [u8; 12], size_block: u32) -> [u8; 12] {
    plain[4..8].copy_from_slice(&size_block.to_be_bytes());
    plain
}

/// What a library answers to a check that does not try 14: what the archive answers if another size block
/// stands for 0, in what is asked for and in the grant.
fn checked_without_14(lent: &Lent) -> u64 {
    match (archive(Call::Check, lent), deciphered(lent)) {
        (14, Some(plain)) => {
            let mut other = *lent;
            other.size_block = named(&plain).wrapping_add(1).max(1);
            match named(&plain) {
                0 => answer_with(&renamed(plain, other.size_block), &other),
                _ => archive(Call::Check, &other),
            }
        }
        (answer, _) => answer,
    }
}

/// What a library does that issues a grant for 0: one for another size block that is then changed.
fn issued_without_14(lent: &Lent) -> u64 {
    let mut other = *lent;
    other.size_block = 1;
    match archive(Call::Issue, lent) {
        14 => {
            let answer = archive(Call::Issue, &other);
            if answer == 0 {
                other.block = lent.out;
                other.block.length = 12;
                let plain = deciphered(&other).expect("what was issued can be deciphered");
                let key = copied(lent.key);
                let old = gordzila::encipher(&key, lent.rounds, &renamed(plain, 0));
                put(other.block, &old.expect("the key is right"));
            }
            answer
        }
        answer => answer,
    }
}

#[test]
fn size_block_0_that_is_not_refused_is_found() {
    other_is_found(Call::Issue, issued_without_14);
    other_is_found(Call::Check, checked_without_14);
    other_queue_is_found(|lent| match archive(Call::CheckQueue, lent) {
        14 => {
            for place in 0..grants(lent) {
                write(lent, place, byte(checked_without_14(&single(lent, place))));
            }
            0
        }
        answer => answer,
    });
}

/// Only a grant that names 0 is refused with 14 where 0 is asked for, and another one with 9; and the
/// other way round.
#[test]
fn fourteen_by_what_the_grant_names_is_found() {
    let names_0 = |lent: &Lent| deciphered(lent).map(|plain| named(&plain) == 0);
    for wanted in [true, false] {
        other_is_found(Call::Check, |lent| {
            match (archive(Call::Check, lent), names_0(lent)) {
                (14, Some(names_0)) if names_0 != wanted => 9,
                (answer, _) => answer,
            }
        });
    }
}

/// A grant that names 0 is asked for another size block: it is one for another block, and no grant with a
/// reason of its own.
#[test]
fn another_number_for_a_grant_that_names_0_is_found() {
    let names_0 = |lent: &Lent| deciphered(lent).map(|plain| named(&plain)) == Some(0);
    for number in [8, 10, 14, 20, 23] {
        other_is_found(Call::Check, |lent| match archive(Call::Check, lent) {
            9 if names_0(lent) => number,
            answer => answer,
        });
        other_bytes_are_found(|lent, place, answered| match answered.after[place] {
            9 if names_0(&single(lent, place)) => number as u8,
            byte => byte,
        });
    }
}

/// A grant that names 0 opens every size block, and 0 is asked for to open any.
#[test]
fn size_block_0_that_stands_for_all_is_found() {
    let every = |lent: &Lent| match (archive(Call::Check, lent), deciphered(lent)) {
        (9, Some(plain)) if named(&plain) == 0 => {
            answer_with(&renamed(plain, lent.size_block), lent)
        }
        (answer, _) => answer,
    };
    other_is_found(Call::Check, every);
    other_bytes_are_found(|lent, place, _| byte(every(&single(lent, place))));
    other_is_found(Call::Check, |lent| {
        match (archive(Call::Check, lent), deciphered(lent)) {
            (14, Some(plain)) => {
                let mut other = *lent;
                other.size_block = named(&plain);
                archive(Call::Check, &other)
            }
            (answer, _) => answer,
        }
    });
}

/// A queue is refused with 14 for what one of its grants names: any of them, the first or the last.
#[test]
fn a_queue_that_is_refused_for_a_grant_that_names_0_is_found() {
    let names_0 = |lent: &Lent, place| {
        let plain = deciphered(&single(lent, place));
        plain.map(|plain| named(&plain)) == Some(0)
    };
    let looks: [fn(usize) -> std::ops::Range<usize>; 3] =
        [|grants| 0..grants, |_| 0..1, |grants| grants - 1..grants];
    for looked_at in looks {
        other_queue_is_found(|lent| {
            let before = copied(lent.out);
            let answer = archive(Call::CheckQueue, lent);
            let some = answer == 0 && grants(lent) > 0;
            match some && looked_at(grants(lent)).any(|place| names_0(lent, place)) {
                true => {
                    put(lent.out, &before);
                    14
                }
                false => answer,
            }
        });
    }
}
