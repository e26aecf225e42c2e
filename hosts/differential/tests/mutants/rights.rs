//! Libraries that do something wrong with highest rights are found out.

use gordzila_differential::rolls::{
    count, figure, in_standing, is_contractor, may_overwrite, set_count, set_figure,
};

use super::queue::contractor;
use super::*;

/// The calls that look at figures.
const LOOKING: [Call; 3] = [Call::Issue, Call::Check, Call::CheckQueue];

/// The calls that are given a right to write.
const GIVING: [Call; 2] = [Call::Enter, Call::ChangeRight];

/// Tries a library in place of a call: in at least one case it answers or writes something else than
/// the archive, and in each such case, and no other, it is found out. It writes nothing but the roll
/// and the output.
pub fn other_is_found(call: Call, library: impl Fn(&Lent) -> u64 + Sync) {
    always_found(call, |lent| {
        let parts = [lent.roll, lent.out];
        let before = parts.map(copied);
        let right = (archive(call, lent), parts.map(copied));
        for (part, before) in parts.iter().zip(&before) {
            put(*part, before);
        }
        let other = (library(lent), parts.map(copied));
        (other.0, other != right)
    });
}

/// What the archive answers if another roll is lent, which is then as the call leaves it.
fn with_roll(call: Call, lent: &Lent, roll: &mut [u8]) -> u64 {
    let mut lent = *lent;
    lent.roll = Bytes {
        start: roll.as_mut_ptr(),
        length: roll.len(),
    };
    archive(call, &lent)
}

/// What the archive answers if another right is lent.
fn with_right(call: Call, lent: &Lent, right: u32) -> u64 {
    let mut lent = *lent;
    lent.right = right;
    archive(call, &lent)
}

/// The contractor whose entry a call looks at, if there is one.
fn whose(call: Call, lent: &Lent) -> Option<u32> {
    let named = match call {
        Call::Check => contractor(lent),
        _ => Some(lent.contractor).filter(|&one| is_contractor(one)),
    };
    named.filter(|_| lent.roll.length == ROLL_BYTES)
}

/// The entry that a call looks at, if there is one: its count and its figure.
fn entry(call: Call, lent: &Lent) -> Option<(u16, u8)> {
    let roll = copied(lent.roll);
    let contractor = whose(call, lent)?;
    Some((count(&roll, contractor), figure(&roll, contractor)))
}

/// Whether overwriting is asked for by someone whose figure does not stand for it.
pub fn is_above(call: Call, lent: &Lent) -> bool {
    lent.right == 2 && entry(call, lent).map_or(false, |entry| !may_overwrite(entry.1))
}

/// Whether a reason holds of what is lent for a call on the roll, an issue or a check.
fn holds(call: Call, reason: u32, lent: &Lent) -> bool {
    let counted = |test: fn(u16) -> bool| entry(call, lent).map_or(false, |entry| test(entry.0));
    match reason {
        1 | 2 => queue::holds(reason, lent),
        3 => lent.roll.length != ROLL_BYTES || call == Call::Check && lent.block.length != 12,
        4 => lent.out.length < 12,
        6 => !is_contractor(lent.contractor),
        7 => ![1, 2].contains(&lent.right),
        14 => lent.size_block == 0,
        20 => counted(|count| !in_standing(count)),
        21 => counted(in_standing),
        22 => counted(|count| count >= 65_534),
        25 => is_above(call, lent),
        _ => deciphered(lent).map_or(false, |plain| holds_of_plain(&plain, reason, lent)),
    }
}

/// Whether a reason holds of the plain bytes of a grant, and what is lent for its check.
fn holds_of_plain(plain: &[u8; 12], reason: u32, lent: &Lent) -> bool {
    match reason {
        8 => contractor(lent).is_none() || ![1, 2].contains(&plain[8]) || plain[9..] != *b"GRD",
        9 => plain[4..8] != lent.size_block.to_be_bytes(),
        10 => plain[8] == 1 && lent.right == 2,
        _ => entry(Call::Check, lent).map_or(false, |entry| plain[2..4] != entry.0.to_be_bytes()),
    }
}

/// Among them are 25 before each reason of an issue or a check that can hold with it, 20, 21 and 22 before
/// 7, and 14 before each reason that comes before it and after each that comes after it.
#[test]
fn each_other_order_of_two_reasons_is_found() {
    for call in [&Call::ON_ROLL[..], &[Call::Issue, Call::Check]].concat() {
        for (first, other) in call.pairs() {
            other_is_found(call, |lent| match archive(call, lent) {
                answer if answer == u64::from(first) && holds(call, other, lent) => other.into(),
                answer => answer,
            });
        }
    }
}

/// Tries libraries that take figures for others.
fn figures_taken_for_others_are_found(taken: fn(u8) -> u8) {
    for call in LOOKING {
        other_is_found(call, |lent| {
            let mut roll = copied(lent.roll);
            let figures = roll.iter_mut().skip(FIGURES);
            figures.for_each(|figure| *figure = taken(*figure));
            with_roll(call, lent, &mut roll)
        });
    }
}

#[test]
fn figures_that_mean_something_else_are_found() {
    // Everyone may overwrite, so that 25 is not tried, and nobody may.
    figures_taken_for_others_are_found(|_| 2);
    figures_taken_for_others_are_found(|_| 1);
    // One more figure stands for overwriting.
    figures_taken_for_others_are_found(|figure| if figure == 0 { 2 } else { figure });
    figures_taken_for_others_are_found(|figure| if figure == 1 { 2 } else { figure });
    figures_taken_for_others_are_found(|figure| if figure == 3 { 2 } else { figure });
    figures_taken_for_others_are_found(|figure| if figure == 255 { 2 } else { figure });
    // All from 2 on do, all but 1, all but 0, all with that bit, all with the lowest 2 or 7 bits of 2.
    figures_taken_for_others_are_found(|figure| figure.min(2));
    figures_taken_for_others_are_found(|figure| if figure == 1 { 1 } else { 2 });
    figures_taken_for_others_are_found(|figure| if figure == 0 { 1 } else { 2 });
    figures_taken_for_others_are_found(|figure| figure & 2);
    figures_taken_for_others_are_found(|figure| figure & 3);
    figures_taken_for_others_are_found(|figure| figure & 0x7f);
    // 1 and 2 changed places.
    figures_taken_for_others_are_found(|figure| match figure {
        1 | 2 => 3 - figure,
        _ => figure,
    });
}

/// Where a library could take the figure of a contractor to be, counted from 0 as the contractor is:
/// from byte 200 on, one place on or back, from the back, from the first byte on, either byte of the
/// count, the first figure or the last for all, and with the contractor cut to 7 bits.
const PLACES: [fn(usize) -> usize; 10] = [
    |contractor| 200 + contractor,
    |contractor| FIGURES + (contractor + 1) % 200,
    |contractor| FIGURES + (contractor + 199) % 200,
    |contractor| ROLL_BYTES - 1 - contractor,
    |contractor| contractor,
    |contractor| 2 * contractor,
    |contractor| 2 * contractor + 1,
    |_| FIGURES,
    |_| ROLL_BYTES - 1,
    |contractor| FIGURES + contractor % 128,
];

#[test]
fn figures_read_in_another_place_are_found() {
    for place in PLACES {
        for call in LOOKING {
            other_is_found(call, |lent| {
                let right = copied(lent.roll);
                let mut roll = right.clone();
                if roll.len() == ROLL_BYTES {
                    let read = (0..200).map(|contractor| right[place(contractor)]);
                    roll[FIGURES..].copy_from_slice(&read.collect::<Vec<u8>>());
                }
                with_roll(call, lent, &mut roll)
            });
        }
    }
}

#[test]
fn a_figure_written_in_another_place_is_found() {
    for place in PLACES {
        for call in Call::ON_ROLL {
            other_is_found(call, |lent| {
                let mut roll = copied(lent.roll);
                let answer = with_roll(call, lent, &mut roll);
                if answer == 0 {
                    let before = figure(&copied(lent.roll), lent.contractor);
                    let after = figure(&roll, lent.contractor);
                    set_figure(&mut roll, lent.contractor, before);
                    roll[place(lent.contractor as usize - 1)] = after;
                }
                put(lent.roll, &roll);
                answer
            });
        }
    }
}

/// Tries a library that leaves another figure where it does not refuse: what is made of the one before
/// and of the right that is given.
fn other_figure_is_found(call: Call, left: fn(u8, u8) -> u8) {
    other_is_found(call, |lent| {
        let before = copied(lent.roll);
        let answer = archive(call, lent);
        if answer == 0 {
            let mut roll = copied(lent.roll);
            let left = left(figure(&before, lent.contractor), lent.right as u8);
            set_figure(&mut roll, lent.contractor, left);
            put(lent.roll, &roll);
        }
        answer
    });
}

#[test]
fn another_figure_that_is_left_is_found() {
    for call in GIVING {
        // The one before, the other right, always the same, the higher and the lower of both.
        other_figure_is_found(call, |before, _| before);
        other_figure_is_found(call, |_, given| 3 - given);
        other_figure_is_found(call, |_, _| 1);
        other_figure_is_found(call, |_, _| 2);
        other_figure_is_found(call, |before, given| before.max(given));
        other_figure_is_found(call, |before, given| before.min(given));
        // No demotion, no raise, only one or the other of a figure that a call wrote.
        other_figure_is_found(call, |before, given| if given == 1 { before } else { 2 });
        other_figure_is_found(call, |before, given| if given == 2 { before } else { 1 });
        other_figure_is_found(call, |before, given| match before {
            1 | 2 => given,
            _ => before,
        });
        // Another figure that means the same.
        other_figure_is_found(call, |_, given| if given == 1 { 0 } else { 2 });
    }
    // A withdrawal that keeps the figure, or each that means reading, or leaves another one.
    other_figure_is_found(Call::Withdraw, |before, _| before);
    other_figure_is_found(
        Call::Withdraw,
        |before, _| if before == 2 { 1 } else { before },
    );
    other_figure_is_found(Call::Withdraw, |_, _| 0);
    other_figure_is_found(Call::Withdraw, |_, _| 2);
}

#[test]
fn a_change_of_right_that_changes_the_count_is_found() {
    let counts: [fn(u16) -> u16; 5] = [
        |_| 1,
        |_| 0,
        |count| count + 1,
        |count| count + 2,
        |count| count - 1,
    ];
    for changed in counts {
        other_is_found(Call::ChangeRight, |lent| {
            let answer = archive(Call::ChangeRight, lent);
            if answer == 0 {
                let mut roll = copied(lent.roll);
                let count = changed(count(&roll, lent.contractor));
                set_count(&mut roll, lent.contractor, count);
                put(lent.roll, &roll);
            }
            answer
        });
    }
}

/// Writes the right that is given as the figure, without any question.
fn write_figure(lent: &Lent) {
    let mut roll = copied(lent.roll);
    set_figure(&mut roll, lent.contractor, lent.right as u8);
    put(lent.roll, &roll);
}

/// With the refusal as the answer, and with 0. So someone is demoted or raised out of standing, or by
/// being entered again, and a number is stored that is no right.
#[test]
fn a_figure_written_by_a_refusal_is_found() {
    for (call, reason) in [
        (Call::Enter, 7),
        (Call::Enter, 21),
        (Call::Enter, 22),
        (Call::ChangeRight, 7),
        (Call::ChangeRight, 20),
        (Call::Withdraw, 20),
    ] {
        for answered in [reason, 0] {
            other_is_found(call, |lent| match archive(call, lent) {
                answer if answer == reason && whose(call, lent).is_some() => {
                    write_figure(lent);
                    answered
                }
                answer => answer,
            });
        }
    }
}

/// Out of standing in one way only: never entered, withdrawn, with a count that is spent.
#[test]
fn a_change_of_right_out_of_standing_is_found() {
    let ways: [fn(u16) -> bool; 3] = [
        |count| count == 0,
        |count| count > 0 && count % 2 == 0,
        |count| count == u16::MAX,
    ];
    for way in ways {
        other_is_found(Call::ChangeRight, |lent| {
            let answer = archive(Call::ChangeRight, lent);
            match entry(Call::ChangeRight, lent) {
                Some((count, _)) if answer == 20 && way(count) => {
                    write_figure(lent);
                    0
                }
                _ => answer,
            }
        });
    }
}

#[test]
fn a_refusal_of_the_right_that_is_held_already_is_found() {
    for refusal in [7, 20, 21, 25] {
        other_is_found(Call::ChangeRight, |lent| {
            let held = entry(Call::ChangeRight, lent).map(|entry| u32::from(entry.1));
            match archive(Call::ChangeRight, lent) {
                0 if held == Some(lent.right) => refusal,
                answer => answer,
            }
        });
    }
}

#[test]
fn a_right_that_is_none_and_is_taken_for_one_is_found() {
    for call in [Call::Enter, Call::ChangeRight, Call::Issue, Call::Check] {
        for taken in [1, 2] {
            other_is_found(call, |lent| match archive(call, lent) {
                7 => with_right(call, lent, taken),
                answer => answer,
            });
        }
    }
}

/// In place of 25, a grant for reading, or an answer that reading opens.
#[test]
fn reading_in_place_of_a_refusal_is_found() {
    for call in [Call::Issue, Call::Check] {
        other_is_found(call, |lent| match archive(call, lent) {
            25 => with_right(call, lent, 1),
            answer => answer,
        });
    }
}

/// The library's rule on highest rights, and the rules that differ from it in one situation. Every other
/// rule differs from it in one or more of these situations, in each of which that is found.
pub const RULE: u32 = 0b00_0100;
pub const OTHER_RULES: [u32; 6] = [
    // Someone who may only read is refused reading with a reading grant; with an overwriting one, as
    // if the right in the grant were compared; or is not refused overwriting.
    0b00_0101, 0b00_0110, 0b00_0000,
    // Someone who may overwrite is refused one of the three.
    0b00_1100, 0b01_0100, 0b10_0100,
];

/// What a library answers to a check that has another rule on highest rights, where the check comes as
/// far as 25. A bit of the rule says whether 25 is given. From the lowest on: a reading grant asked for
/// reading, an overwriting one asked for reading, and for overwriting, of someone who may only read; and
/// the same three of someone who may overwrite.
pub fn by_other_highest(lent: &Lent, rule: u32) -> u64 {
    let answer = archive(Call::Check, lent);
    if !matches!(answer, 25 | 1000..) {
        return answer;
    }
    let plain = deciphered(lent).expect("what comes as far as 25 is a grant");
    let overwrites = may_overwrite(figure(&copied(lent.roll), u32::from(plain[1])));
    let situation = u32::from(plain[8]) + lent.right - 2 + 3 * u32::from(overwrites);
    match rule >> situation & 1 {
        1 => 25,
        _ => 1000 * u64::from(lent.right) + u64::from(plain[1]),
    }
}

#[test]
fn every_other_rule_on_highest_rights_is_found() {
    let library = |_, lent: &Lent| by_other_highest(lent, RULE);
    assert_eq!(found(Call::Check, &library), 0);
    for rule in OTHER_RULES {
        other_is_found(Call::Check, |lent| by_other_highest(lent, rule));
    }
}

/// Tries a library that writes something else as an empty roll.
fn other_empty_roll_is_found(written: impl Fn(&Lent) -> Vec<u8> + Sync) {
    other_is_found(Call::EmptyRoll, |lent| {
        let mut out = copied(lent.out);
        let answer = archive(Call::EmptyRoll, lent);
        if answer == 0 {
            let written = written(lent);
            out[..written.len()].copy_from_slice(&written);
            put(lent.out, &out);
        }
        answer
    });
}

#[test]
fn another_empty_roll_is_found() {
    // Zeros, ones, everyone may overwrite, and the figures first.
    other_empty_roll_is_found(|_| vec![0; 600]);
    other_empty_roll_is_found(|_| vec![1; 600]);
    other_empty_roll_is_found(|_| [vec![0; 400], vec![2; 200]].concat());
    other_empty_roll_is_found(|_| [vec![1; 200], vec![0; 400]].concat());
    // The counts alone, a figure too few, and figures as far as there is room.
    other_empty_roll_is_found(|_| vec![0; 400]);
    other_empty_roll_is_found(|_| [vec![0; 400], vec![1; 199]].concat());
    other_empty_roll_is_found(|lent| [vec![0; 400], vec![1; lent.out.length - 400]].concat());
}

#[test]
fn another_limit_of_an_empty_roll_is_found() {
    for least in [0, 1, 400, 401, 599, 601, 1000] {
        other_is_found(Call::EmptyRoll, |lent| {
            let mut roll = [0; ROLL_BYTES];
            roll[FIGURES..].fill(1);
            if lent.out.length < least {
                return 4;
            }
            let mut out = copied(lent.out);
            let written = out.len().min(ROLL_BYTES);
            out[..written].copy_from_slice(&roll[..written]);
            put(lent.out, &out);
            0
        });
    }
}

/// With figures that all stand for reading or for overwriting.
#[test]
fn a_roll_of_400_bytes_that_is_taken_is_found() {
    for call in [&Call::ON_ROLL[..], &LOOKING].concat() {
        for figures in [0, 1, 2] {
            other_is_found(call, |lent| {
                let mut roll = copied(lent.roll);
                if roll.len() == FIGURES {
                    roll.resize(ROLL_BYTES, figures);
                }
                let answer = with_roll(call, lent, &mut roll);
                put(lent.roll, &roll[..lent.roll.length]);
                answer
            });
        }
    }
}

#[test]
fn limits_of_a_roll_that_are_off_are_found() {
    taken_for_something_else(Argument::Roll, |lent| {
        lent.roll.length = lent.roll.length.min(ROLL_BYTES);
    });
    taken_for_something_else(Argument::Roll, |lent| {
        lent.roll.length -= usize::from(lent.roll.length == ROLL_BYTES + 1);
    });
    taken_for_something_else(Argument::Roll, |lent| {
        lent.roll.length += usize::from(lent.roll.length == ROLL_BYTES - 1);
    });
}
