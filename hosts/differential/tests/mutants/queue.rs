//! Libraries that do something wrong with a queue of grants are found out.

use std::collections::BTreeSet;

use gordzila_differential::expect::{BLOCK_BYTES, QUEUE_GRANTS};
use gordzila_differential::rolls::{count, figure, is_contractor, set_count, set_figure};

use super::*;

/// The grants in the queue that is lent.
pub fn grants(lent: &Lent) -> usize {
    lent.block.length / BLOCK_BYTES
}

/// What is lent, with one of the grants for a single check.
pub fn single(lent: &Lent, place: usize) -> Lent {
    let mut one = *lent;
    one.block.start = one.block.start.wrapping_add(BLOCK_BYTES * place);
    one.block.length = BLOCK_BYTES;
    one
}

/// The byte for what a single check answers.
pub fn byte(answer: u64) -> u8 {
    match answer {
        1000.. => 0,
        refusal => refusal as u8,
    }
}

/// The byte for one of the grants, by a single check.
fn checked(lent: &Lent, place: usize) -> u8 {
    byte(archive(Call::Check, &single(lent, place)))
}

/// Writes to a place of the output.
pub fn write(lent: &Lent, place: usize, byte: u8) {
    assert!(place < lent.out.length);
    unsafe { *lent.out.start.wrapping_add(place) = byte };
}

/// Writes a byte for each of the grants, by single checks.
fn write_checked(lent: &Lent, grants: usize) {
    for place in 0..grants {
        write(lent, place, checked(lent, place));
    }
}

/// Tries a library in place of the queue: in at least one case it answers or writes something else
/// than the archive, and in each such case, and no other, it is found out. It writes nothing but the
/// output.
pub fn other_queue_is_found(library: impl Fn(&Lent) -> u64 + Sync) {
    always_found(Call::CheckQueue, |lent| {
        let before = copied(lent.out);
        let right = (archive(Call::CheckQueue, lent), copied(lent.out));
        put(lent.out, &before);
        let other = (library(lent), copied(lent.out));
        (other.0, other != right)
    });
}

/// What stands in the output where a queue is answered: before, and after. Only the bytes of its
/// grants.
pub struct Answered {
    before: Vec<u8>,
    pub after: Vec<u8>,
}

/// Tries a library that refuses as it has to, and otherwise writes another byte for each grant: what
/// is made of its place and of what stood there and has to stand there.
pub fn other_bytes_are_found(other: impl Fn(&Lent, usize, &Answered) -> u8 + Sync) {
    other_queue_is_found(|lent| {
        let before = copied(lent.out);
        let answer = archive(Call::CheckQueue, lent);
        if answer == 0 {
            let after = copied(lent.out)[..grants(lent)].to_vec();
            let answered = Answered { before, after };
            for place in 0..grants(lent) {
                write(lent, place, other(lent, place, &answered));
            }
        }
        answer
    });
}

/// The place of the first grant in a queue that is refused, or of the last.
fn first_refused(answered: &Answered) -> usize {
    let refused = answered.after.iter().position(|&byte| byte != 0);
    refused.unwrap_or(answered.after.len() - 1)
}

/// A queue by single checks, of so many grants at most.
fn by_singles(lent: &Lent, most: usize) -> u64 {
    let mut empty = *lent;
    empty.block.length = 0;
    let refusal = archive(Call::CheckQueue, &empty);
    if let 1..=3 = refusal {
        return refusal;
    }
    if lent.block.length % BLOCK_BYTES != 0 || grants(lent) > most {
        return 3;
    }
    if lent.out.length < grants(lent) {
        return 4;
    }
    if refusal == 0 {
        write_checked(lent, grants(lent));
    }
    refusal
}

#[test]
fn single_checks_make_a_queue() {
    let library = |_, lent: &Lent| by_singles(lent, QUEUE_GRANTS);
    assert_eq!(found(Call::CheckQueue, &library), 0);
}

#[test]
fn another_limit_of_a_queue_is_found() {
    for most in [0, 1, 2, 32, 63, 65, 66, 85, 256] {
        other_queue_is_found(|lent| by_singles(lent, most));
    }
    // 65 grants, of which 64 are looked at; and all that are too many.
    taken_for_something_else(Argument::Grants, |lent| {
        lent.block.length -= BLOCK_BYTES * usize::from(grants(lent) == QUEUE_GRANTS + 1);
    });
    taken_for_something_else(Argument::Grants, |lent| {
        lent.block.length = lent.block.length.min(BLOCK_BYTES * QUEUE_GRANTS);
    });
    // The number of grants cut to a byte.
    taken_for_something_else(Argument::Grants, |lent| {
        if lent.block.length % BLOCK_BYTES == 0 {
            lent.block.length = BLOCK_BYTES * (grants(lent) % 256);
        }
    });
}

#[test]
fn part_of_a_grant_that_is_not_refused_is_found() {
    taken_for_something_else(Argument::Grants, |lent| {
        lent.block.length -= lent.block.length % BLOCK_BYTES;
    });
    // With the number of the single check as the byte of that part.
    other_queue_is_found(|lent| {
        let room = lent.out.length.checked_sub(grants(lent) + 1);
        let mut whole = *lent;
        whole.block.length = BLOCK_BYTES * grants(lent);
        match (archive(Call::CheckQueue, lent), room) {
            (3, Some(_)) if lent.block.length % BLOCK_BYTES != 0 => {
                let answer = archive(Call::CheckQueue, &whole);
                if answer == 0 {
                    write(lent, grants(lent), 3);
                }
                answer
            }
            (answer, _) => answer,
        }
    });
}

#[test]
fn a_queue_of_no_grants_that_is_refused_or_not_tried_is_found() {
    for refusal in [1, 2, 3, 4, 7, 8, 14] {
        other_queue_is_found(|lent| match archive(Call::CheckQueue, lent) {
            0 if grants(lent) == 0 => refusal,
            answer => answer,
        });
    }
    for not_tried in [1, 2, 3, 7, 14] {
        other_queue_is_found(|lent| match archive(Call::CheckQueue, lent) {
            answer if answer == not_tried && lent.block.length == 0 => 0,
            answer => answer,
        });
    }
}

/// Whether a reason holds of what is lent for a queue.
pub fn holds(reason: u32, lent: &Lent) -> bool {
    let key_length = lent.key.length;
    match reason {
        1 => ![12, 18, 24].contains(&key_length),
        2 => match key_length {
            12 => !(10..=11).contains(&lent.rounds),
            18 => !(14..=17).contains(&lent.rounds),
            24 => !(18..=23).contains(&lent.rounds),
            _ => false,
        },
        3 => {
            let wrong_roll = lent.roll.length != ROLL_BYTES;
            let whole = lent.block.length % BLOCK_BYTES == 0;
            wrong_roll || !whole || grants(lent) > QUEUE_GRANTS
        }
        4 => lent.out.length < grants(lent),
        14 => lent.size_block == 0,
        _ => ![1, 2].contains(&lent.right),
    }
}

/// 4 before 3, 7 before 4 and 14 before 7 are among them.
#[test]
fn each_other_order_of_two_reasons_is_found() {
    let pairs = Call::CheckQueue.pairs();
    assert_eq!(pairs.len(), 14);
    for (first, other) in pairs {
        other_queue_is_found(|lent| match archive(Call::CheckQueue, lent) {
            answer if answer == u64::from(first) && holds(other, lent) => u64::from(other),
            answer => answer,
        });
    }
}

#[test]
fn a_reason_that_is_not_tried_is_found() {
    for &reason in Call::CheckQueue.reasons() {
        other_queue_is_found(|lent| match archive(Call::CheckQueue, lent) {
            answer if answer == u64::from(reason) => {
                let later = Call::CheckQueue.reasons().iter();
                let mut later = later.filter(|&&later| later != reason);
                let given = later.find(|&&later| holds(later, lent));
                given.map_or(0, |&later| u64::from(later))
            }
            answer => answer,
        });
    }
}

#[test]
fn a_byte_written_by_a_refused_queue_is_found() {
    for &reason in Call::CheckQueue.reasons() {
        for everywhere in [false, true] {
            other_queue_is_found(|lent| {
                let answer = archive(Call::CheckQueue, lent);
                let bytes = if everywhere { lent.out.length } else { 1 };
                if answer == u64::from(reason) && lent.out.length > 0 {
                    (0..bytes).for_each(|place| write(lent, place, reason as u8));
                }
                answer
            });
        }
    }
}

#[test]
fn reasons_that_are_tried_too_late_are_found() {
    // The bytes of as many grants as there is room for, and then 4.
    other_queue_is_found(|lent| {
        let answer = archive(Call::CheckQueue, lent);
        if answer == 4 {
            write_checked(lent, lent.out.length);
        }
        answer
    });
    // 7 or 14 for each grant, as single checks say.
    for late in [7, 14] {
        other_queue_is_found(|lent| match archive(Call::CheckQueue, lent) {
            answer if answer == late => {
                write_checked(lent, grants(lent));
                0
            }
            answer => answer,
        });
    }
}

#[test]
fn an_output_that_may_not_be_longer_is_found() {
    other_queue_is_found(|lent| match lent.out.length > grants(lent) {
        true if !(1..=3).contains(&archive(Call::CheckQueue, lent)) => 4,
        _ => archive(Call::CheckQueue, lent),
    });
}

#[test]
fn bytes_after_the_answers_are_found() {
    for rest in [0, 0xff] {
        other_queue_is_found(|lent| {
            let answer = archive(Call::CheckQueue, lent);
            if answer == 0 {
                (grants(lent)..lent.out.length).for_each(|place| write(lent, place, rest));
            }
            answer
        });
    }
    // As many bytes as there can be grants, whatever is lent.
    always_found(Call::CheckQueue, |lent| {
        let answer = archive(Call::CheckQueue, lent);
        let rest = grants(lent)..QUEUE_GRANTS;
        let is_wrong = answer == 0 && !rest.is_empty();
        if is_wrong {
            rest.for_each(|place| poke(lent.out, place as isize));
        }
        (answer, is_wrong)
    });
}

#[test]
fn a_number_other_than_0_for_a_queue_is_found() {
    let opening = |lent: &Lent| {
        let out = copied(lent.out);
        let bytes = out[..grants(lent)].iter();
        bytes.filter(|&&byte| byte == 0).count()
    };
    let refused = |lent: &Lent| {
        let out = copied(lent.out);
        let bytes = &out[..grants(lent)];
        bytes.iter().find(|&&byte| byte != 0).copied()
    };
    // The grants that open, those that do not, the first refusal.
    let numbers: [&(dyn Fn(&Lent) -> u64 + Sync); 3] = [
        &|lent| opening(lent) as u64,
        &|lent| (grants(lent) - opening(lent)) as u64,
        &|lent| u64::from(refused(lent).unwrap_or(0)),
    ];
    for number in numbers {
        other_queue_is_found(|lent| match archive(Call::CheckQueue, lent) {
            0 => number(lent),
            answer => answer,
        });
    }
}

#[test]
fn a_queue_that_stops_is_found() {
    // At the first refusal: what follows is left, or is that refusal, or opens.
    other_bytes_are_found(|_, place, answered| match place > first_refused(answered) {
        true => answered.before[place],
        false => answered.after[place],
    });
    other_bytes_are_found(|_, place, answered| answered.after[place.min(first_refused(answered))]);
    other_bytes_are_found(|_, place, answered| match place > first_refused(answered) {
        true => 0,
        false => answered.after[place],
    });
    // At the first grant that opens.
    other_bytes_are_found(
        |_, place, answered| match answered.after[..place].contains(&0) {
            true => answered.before[place],
            false => answered.after[place],
        },
    );
    // After so many grants.
    for most in [0, 1, 2, 8, 16, 32, 63] {
        other_bytes_are_found(|_, place, answered| match place < most {
            true => answered.after[place],
            false => answered.before[place],
        });
    }
}

#[test]
fn bytes_in_other_places_are_found() {
    // One place on or back, with the first or the last byte twice or in a ring.
    other_bytes_are_found(|_, place, answered| answered.after[place.saturating_sub(1)]);
    other_bytes_are_found(|_, place, answered| {
        answered.after[(place + 1).min(answered.after.len() - 1)]
    });
    for step in [1, 2, 63] {
        other_bytes_are_found(|_, place, answered| {
            answered.after[(place + step) % answered.after.len()]
        });
    }
    // From the back, the first or the last for all, and every second one left.
    other_bytes_are_found(|_, place, answered| answered.after[answered.after.len() - 1 - place]);
    other_bytes_are_found(|_, _, answered| answered.after[0]);
    other_bytes_are_found(|_, _, answered| answered.after[answered.after.len() - 1]);
    other_bytes_are_found(|_, place, answered| match place % 2 {
        0 => answered.after[place],
        _ => answered.before[place],
    });
}

/// One byte of each queue, at the last of its places that was not wrong yet, if there is one.
#[test]
fn a_wrong_byte_of_a_queue_is_found_at_every_place() {
    let left = Mutex::new(BTreeSet::from_iter(0..QUEUE_GRANTS));
    other_queue_is_found(|lent| {
        let answer = archive(Call::CheckQueue, lent);
        if answer == 0 && grants(lent) > 0 {
            let mut left = left.lock().expect("no other thread panics");
            let place = left.range(..grants(lent)).next_back().copied();
            left.remove(&place.unwrap_or(0));
            poke(lent.out, place.unwrap_or(0) as isize);
        }
        answer
    });
    let left = left.into_inner().expect("no other thread panics");
    assert_eq!(left, BTreeSet::new());
}

#[test]
fn a_byte_taken_for_another_is_found() {
    let bytes = [0, 8, 9, 10, 20, 23, 25];
    for (from, next) in bytes.into_iter().zip(bytes.into_iter().cycle().skip(1)) {
        for to in [next, 14, 255] {
            other_bytes_are_found(|_, place, answered| match answered.after[place] {
                byte if byte == from => to,
                byte => byte,
            });
        }
    }
}

#[test]
fn an_opening_byte_other_than_0_is_found() {
    // What is left of the single check's answer in a byte, its contractor, and its right.
    let made: [fn(u64) -> u64; 3] = [
        |answer| answer,
        |answer| answer % 1000,
        |answer| answer / 1000,
    ];
    for make in made {
        other_bytes_are_found(|lent, place, answered| match answered.after[place] {
            0 => make(archive(Call::Check, &single(lent, place))) as u8,
            byte => byte,
        });
    }
}

/// The contractor in a grant that is lent for a single check, if the bytes name one.
pub fn contractor(lent: &Lent) -> Option<u32> {
    let plain = deciphered(lent)?;
    let contractor = u32::from(plain[0]) << 8 | u32::from(plain[1]);
    is_contractor(contractor).then_some(contractor)
}

/// What the roll has for the contractor of one grant, written over what it has for that of another.
type Copying = fn(&mut [u8], u32, u32);

/// What a single check answers if the contractor of one grant has the count or the figure that the
/// contractor of another has.
fn with_that_of(lent: &Lent, place: usize, other: usize, copy: Copying) -> u64 {
    let mut one = single(lent, place);
    let mut roll = copied(lent.roll);
    let contractors = [one, single(lent, other)].map(|lent| contractor(&lent));
    if let [Some(own), Some(other)] = contractors {
        copy(&mut roll, own, other);
    }
    one.roll.start = roll.as_mut_ptr();
    archive(Call::Check, &one)
}

#[test]
fn a_roll_that_is_not_read_for_each_grant_is_found() {
    // The count or the figure of the first grant's contractor for all, and that of the grant before.
    let copies: [Copying; 2] = [
        |roll, own, other| set_count(roll, own, count(roll, other)),
        |roll, own, other| set_figure(roll, own, figure(roll, other)),
    ];
    for copy in copies {
        other_bytes_are_found(|lent, place, _| byte(with_that_of(lent, place, 0, copy)));
        other_bytes_are_found(|lent, place, _| {
            byte(with_that_of(lent, place, place.saturating_sub(1), copy))
        });
    }
    // The roll is looked at for the first grant only, or for none; or its figures are.
    for looked_at in [1, 0] {
        other_bytes_are_found(|_, place, answered| match answered.after[place] {
            20 | 23 | 25 if place >= looked_at => 0,
            byte => byte,
        });
        other_bytes_are_found(|_, place, answered| match answered.after[place] {
            25 if place >= looked_at => 0,
            byte => byte,
        });
    }
}

#[test]
fn a_size_block_or_a_right_compared_for_the_first_grant_only_is_found() {
    other_bytes_are_found(|lent, place, _| {
        let mut one = single(lent, place);
        if let (1.., Some(plain)) = (place, deciphered(&one)) {
            one.size_block = u32::from_be_bytes([plain[4], plain[5], plain[6], plain[7]]);
        }
        byte(archive(Call::Check, &one))
    });
    for right in [1, 2] {
        other_bytes_are_found(|lent, place, _| {
            let mut one = single(lent, place);
            one.right = if place > 0 { right } else { one.right };
            byte(archive(Call::Check, &one))
        });
    }
}

#[test]
fn grants_of_a_queue_that_depend_on_others_are_found() {
    let bytes = |lent: &Lent, place| copied(single(lent, place).block);
    // A grant that was there before is refused, or its contractor, or whatever follows a refusal.
    other_bytes_are_found(|lent, place, answered| {
        let own = bytes(lent, place);
        match (0..place).any(|other| bytes(lent, other) == own) {
            true => 23,
            false => answered.after[place],
        }
    });
    other_bytes_are_found(|lent, place, answered| {
        let of = |place| contractor(&single(lent, place));
        let own = of(place);
        match own.is_some() && (0..place).any(|other| of(other) == own) {
            true => 23,
            false => answered.after[place],
        }
    });
    // The bytes of the grant before are added, as in a chain of blocks.
    other_bytes_are_found(|lent, place, _| {
        let mut own = bytes(lent, place);
        if place > 0 {
            let before = bytes(lent, place - 1);
            own.iter_mut()
                .zip(before)
                .for_each(|(byte, other)| *byte ^= other);
        }
        let mut one = single(lent, place);
        one.block.start = own.as_mut_ptr();
        byte(archive(Call::Check, &one))
    });
}

/// The rules are numbered as in `every_other_rule_on_rights_is_found`.
#[test]
fn every_other_rule_on_rights_in_a_queue_is_found() {
    for rule in (0..16_u32).filter(|&rule| rule != 0b0010) {
        let refuses = |in_grant, asked| rule >> (2 * (in_grant - 1) + asked - 1) & 1 == 1;
        other_bytes_are_found(|lent, place, _| {
            byte(by_other_rule(
                &single(lent, place),
                &refuses,
                &|_, asked| asked,
            ))
        });
    }
}

#[test]
fn every_other_rule_on_highest_rights_in_a_queue_is_found() {
    for rule in rights::OTHER_RULES {
        other_bytes_are_found(|lent, place, _| {
            byte(rights::by_other_highest(&single(lent, place), rule))
        });
    }
}

/// Each reason that comes before 25 in the single check.
#[test]
fn twenty_five_in_another_place_of_a_queue_is_found() {
    for first in [9, 10, 20, 23] {
        other_bytes_are_found(|lent, place, answered| match answered.after[place] {
            byte if byte == first && rights::is_above(Call::Check, &single(lent, place)) => 25,
            byte => byte,
        });
    }
}
