//! The inputs that matter occur among the cases, beyond the answers that the table counts.

use std::sync::Mutex;

use gordzila_differential::call::Call;
use gordzila_differential::case::Case;
use gordzila_differential::expect::{needed, Expected};
use gordzila_differential::holders::{is_whole, key_length, HOLDER_BYTES};
use gordzila_differential::rolls::{count, figure, is_contractor, ROLL_BYTES};
use gordzila_differential::work::{family_cases, FAMILY};

#[path = "situations/pages.rs"]
mod pages;
#[path = "situations/rights.rs"]
mod rights;
#[path = "situations/zero.rs"]
mod zero;

const SEED: u64 = 11;
const FAMILIES: u64 = 600;

/// The cases among which all is looked for. They are drawn once, by the test that comes first.
fn cases() -> &'static [(Case, Expected)] {
    static CASES: Mutex<Option<&[(Case, Expected)]>> = Mutex::new(None);
    let mut cases = CASES.lock().expect("no test panics while it draws");
    cases.get_or_insert_with(|| {
        let families = 0..FAMILIES;
        let drawn = families.flat_map(|family| family_cases(SEED, family, FAMILY));
        drawn.collect::<Vec<_>>().leak()
    })
}

/// With each of the calls, each of the values occurs.
fn occur<T: PartialEq + std::fmt::Debug>(calls: &[Call], values: &[T], value: impl Fn(&Case) -> T) {
    for &call in calls {
        occur_among(&[call], values, &value);
    }
}

/// With one or another of the calls, each of the values occurs.
fn occur_among<T: PartialEq + std::fmt::Debug>(
    calls: &[Call],
    values: &[T],
    value: impl Fn(&Case) -> T,
) {
    for wanted in values {
        let mut of_calls = cases().iter().filter(|pair| calls.contains(&pair.0.call));
        let found = of_calls.any(|(case, _)| value(case) == *wanted);
        assert!(found, "{calls:?} never has {wanted:?}");
    }
}

const KEYED: [Call; 10] = [
    Call::Encipher,
    Call::Decipher,
    Call::PrepareEnciphering,
    Call::PrepareDeciphering,
    Call::Issue,
    Call::CheckQueue,
    Call::Check,
    Call::Stage,
    Call::Subkey,
    Call::HolderMake,
];

const ROLL: [Call; 6] = [
    Call::Issue,
    Call::Check,
    Call::CheckQueue,
    Call::Enter,
    Call::ChangeRight,
    Call::Withdraw,
];

/// The calls that are given a contractor.
const NAMING: [Call; 4] = [Call::Issue, Call::Enter, Call::ChangeRight, Call::Withdraw];

const HOLDING: [Call; 4] = [
    Call::HolderForward,
    Call::HolderBack,
    Call::HolderWalk,
    Call::HolderSubkey,
];

#[test]
fn lengths_occur() {
    let keys = [12, 18, 24, 0, 1, 11, 13, 17, 19, 23, 25, 32, 268];
    occur(&KEYED, &keys, |case| case.key.len());
    let rolls = [600, 0, 1, 399, 400, 401, 599, 601, 856, 66_136];
    occur(&ROLL, &rolls, |case| case.roll.len());
    let holders = [26, 0, 1, 24, 25, 27, 282, 65_562];
    occur(&HOLDING, &holders, |case| case.holder.len());
    let blocks = [12, 0, 1, 11, 13, 24, 268, 65_548];
    let taking = [Call::Encipher, Call::Decipher, Call::Run, Call::Check];
    occur(&taking, &blocks, |case| case.block.len());
    let lists: Vec<usize> = (11..=24).map(|subkeys| 12 * subkeys).collect();
    occur(&[Call::Run], &lists, |case| case.list.len());
    let wrong = [0, 1, 120, 131, 133, 287, 289, 300, 388, 65_668];
    occur(&[Call::Run], &wrong, |case| case.list.len());
}

#[test]
fn numbers_occur() {
    let rounds: Vec<u32> = (8..=25).chain([0, 1, 266, u32::MAX]).collect();
    occur(&KEYED[..7], &rounds, |case| case.rounds);
    let contractors = [0, 1, 200, 201, u32::MAX];
    occur(&NAMING, &contractors, |case| case.contractor);
    let low_half =
        |case: &Case| case.contractor >> 16 == 1 && is_contractor(case.contractor & 0xffff);
    occur(&NAMING, &[true], low_half);
    let rights = [0, 1, 2, 3, 257, 258, u32::MAX];
    occur(&ROLL[..5], &rights, |case| case.right);
    occur(&ROLL[..3], &[0, 1, u32::MAX], |case| case.size_block);
    // Those that are 0 if they are cut to 8, 16 or 24 bits, and no less.
    occur(&ROLL[..3], &[8, 16, 24], |case| {
        case.size_block.trailing_zeros() / 8 * 8
    });
    let stages: Vec<u32> = (0..=25).chain([u32::MAX]).collect();
    let taking = [Call::Stage, Call::Subkey, Call::HolderWalk];
    occur(&taking, &stages, |case| case.stage);
    let high = [1 << 8, 1 << 16, 1 << 24, 1 << 31];
    occur(&taking, &high, |case| case.stage & !31);
}

#[test]
fn outputs_of_all_lengths_occur() {
    let others = [
        Call::Run,
        Call::Stage,
        Call::Subkey,
        Call::EmptyRoll,
        Call::HolderMake,
        Call::HolderSubkey,
    ];
    for call in [&KEYED[..6], &others].concat() {
        let rest = |case: &Case| case.out as i64 - needed(case) as i64;
        occur(&[call], &[-1, 0, 1], rest);
        occur(&[call], &[true], |case| rest(case) > 1);
        occur(&[call], &[0, 1], |case| case.out);
        occur(&[call], &[true], |case| case.out >= 256);
    }
}

/// The count and the figure of the contractor that a case names, if it has a roll.
fn entry(case: &Case) -> Option<(u16, u8)> {
    let present = case.roll.len() == ROLL_BYTES && is_contractor(case.contractor);
    present.then(|| {
        let contractor = case.contractor;
        (
            count(&case.roll, contractor),
            figure(&case.roll, contractor),
        )
    })
}

#[test]
fn counts_near_the_end_occur() {
    for near in [0, 1, 2, 65_531, 65_532, 65_533, 65_534, 65_535] {
        occur(&NAMING, &[Some(near)], |case| {
            entry(case).map(|entry| entry.0)
        });
    }
}

#[test]
fn grants_open_for_both_rights_and_the_ends_of_the_contractors() {
    for answer in [1001, 1200, 2001, 2200] {
        let mut checks = cases().iter().filter(|pair| pair.0.call == Call::Check);
        let found = checks.any(|pair| pair.1.effect.answer == answer);
        assert!(found, "{answer}");
    }
}

/// The right byte of what the grant of a check deciphers to, if it is whole but for that byte.
fn right_in_grant(case: &Case) -> Option<u8> {
    let grant = case.block.as_slice().try_into().ok()?;
    let plain = gordzila::decipher(&case.key, case.rounds, grant).ok()?;
    let contractor = u32::from(plain[0]) << 8 | u32::from(plain[1]);
    let whole = is_contractor(contractor) && plain[9..] == *b"GRD";
    whole.then_some(plain[8])
}

/// The right in the grant, the right asked for, and answers that occur with them.
#[test]
fn grants_of_each_right_are_asked_for_each_right() {
    let table: [(u8, u32, &[u64]); 12] = [
        (1, 1, &[1001, 1200, 9, 20, 23]),
        (1, 2, &[9, 10]),
        (2, 1, &[1001, 1200, 9, 20, 23]),
        (2, 2, &[2001, 2200, 9, 20, 23, 25]),
        (0, 1, &[8]),
        (0, 2, &[8]),
        (3, 1, &[8]),
        (3, 2, &[8]),
        (1, 0, &[7]),
        (1, 3, &[7]),
        (2, 0, &[7]),
        (2, 3, &[7]),
    ];
    let checks: Vec<(Option<u8>, u32, u64)> = cases()
        .iter()
        .filter(|pair| pair.0.call == Call::Check)
        .map(|(case, expected)| (right_in_grant(case), case.right, expected.effect.answer))
        .collect();
    for (in_grant, asked, answers) in table {
        for &answer in answers {
            let wanted = (Some(in_grant), asked, answer);
            assert!(checks.contains(&wanted), "{wanted:?}");
        }
    }
}

#[test]
fn blocks_and_second_keys_lent_from_the_keys_bytes_occur() {
    let shared: Vec<&Case> = cases()
        .iter()
        .map(|pair| &pair.0)
        .filter(|case| case.shared)
        .collect();
    let (on_pages, others): (Vec<&Case>, Vec<&Case>) = shared
        .into_iter()
        .partition(|case| Call::ON_PAGES.contains(&case.call));
    assert!(others.len() > 100);
    assert!(others.iter().all(|case| case.key.starts_with(&case.block)));
    let beginning = |case: &&Case| case.key.starts_with(&case.second_key);
    assert!(on_pages.len() > 10);
    assert!(on_pages.iter().all(beginning));
}

#[test]
fn whole_holders_at_every_stage_occur() {
    for length in [12, 18, 24] {
        let stages: Vec<_> = (0..length).map(|number| Some([length, number])).collect();
        occur(&HOLDING, &stages, |case| {
            is_whole(&case.holder).then(|| [case.holder[0], case.holder[1]])
        });
    }
}

#[test]
fn whole_holders_of_other_keys_than_the_familys_occur() {
    let families = cases().chunks(FAMILY as usize);
    let mixed = families.filter(|family| {
        let mut lengths: Vec<usize> = family
            .iter()
            .filter(|pair| is_whole(&pair.0.holder))
            .filter_map(|pair| key_length(&pair.0.holder))
            .collect();
        lengths.sort_unstable();
        lengths.dedup();
        lengths.len() > 1
    });
    assert!(mixed.count() > 100);
}

/// The key length and the number that a holder of 26 bytes names, and the places past such a key at
/// which it has another byte than 0.
fn named(case: &Case) -> Option<(u8, u8, Vec<usize>)> {
    if case.holder.len() != HOLDER_BYTES {
        return None;
    }
    let (length, number) = (case.holder[0], case.holder[1]);
    let past = 2 + usize::from(length)..HOLDER_BYTES;
    let filled = past.filter(|&place| case.holder[place] != 0);
    Some((length, number, filled.collect()))
}

#[test]
fn broken_holders_of_every_kind_occur() {
    let lengths = [0, 11, 13, 17, 19, 23, 25, 255].map(Some);
    occur(&HOLDING, &lengths, |case| named(case).map(|named| named.0));
    for length in [12, 18, 24] {
        let numbers = [length, length + 1, 0x80, 0x80 + length - 1, 255];
        let numbers = numbers.map(|number| Some((length, number)));
        occur_among(&HOLDING, &numbers, |case| {
            let (length, number, filled) = named(case)?;
            filled.is_empty().then_some((length, number))
        });
        let places = 2 + usize::from(length)..HOLDER_BYTES;
        let places: Vec<_> = places.map(|place| Some((length, vec![place]))).collect();
        occur_among(&HOLDING, &places, |case| {
            let (length, number, filled) = named(case)?;
            (number < length).then_some((length, filled))
        });
    }
}

#[test]
fn holders_that_name_another_key_length_occur() {
    occur_among(&HOLDING, &[true], |case| {
        named(case).map_or(false, |named| named.0 == 12 && named.2.len() > 6)
    });
    occur_among(&HOLDING, &[true], |case| {
        is_whole(&case.holder) && case.holder[0] == 24 && case.holder[14..] == [0; 12]
    });
}

#[test]
fn walks_of_every_number_of_steps_occur() {
    for length in [12, 18, 24] {
        let half = u64::from(length) / 2;
        for answer in (1000..=1000 + half).chain(2001..2000 + half) {
            let mut walks = cases()
                .iter()
                .filter(|pair| pair.0.call == Call::HolderWalk);
            let found = walks.any(|(case, expected)| {
                case.holder.first() == Some(&length) && expected.effect.answer == answer
            });
            assert!(found, "{answer} with a key of {length} bytes");
        }
    }
}

#[test]
fn walks_past_the_end_of_whole_holders_occur() {
    let past = |case: &Case| {
        let whole = is_whole(&case.holder);
        whole.then(|| case.stage.wrapping_sub(u32::from(case.holder[0])))
    };
    occur(&[Call::HolderWalk], &[Some(0), Some(1)], past);
    let high = [1 << 8, 1 << 16, 1 << 24, 1 << 31].map(Some);
    occur(&[Call::HolderWalk], &high, |case| {
        is_whole(&case.holder).then_some(case.stage & !31)
    });
}

/// The queues that are not refused as a whole, with the bytes that they get.
fn queues() -> impl Iterator<Item = (&'static Case, &'static [u8])> {
    let queues = cases()
        .iter()
        .filter(|pair| pair.0.call == Call::CheckQueue);
    let answered = queues.filter(|pair| pair.1.effect.answer == 0);
    answered.map(|(case, expected)| (case, expected.effect.written.as_slice()))
}

#[test]
fn queues_of_every_length_occur() {
    let right: Vec<usize> = (0..=64).map(|grants| 12 * grants).collect();
    occur(&[Call::CheckQueue], &right, |case| case.block.len());
    let wrong = [1, 6, 11, 13, 23, 25, 767, 769, 775, 780, 792, 1024, 3072];
    occur(&[Call::CheckQueue], &wrong, |case| case.block.len());
    occur(&[Call::CheckQueue], &[3084, 65_548], |case| {
        case.block.len()
    });
    for often in [0, 1, 2, 63, 64, 65] {
        let all = cases().iter().map(|pair| &pair.0);
        let all = all.filter(|case| case.call == Call::CheckQueue);
        let found = all.filter(|case| case.block.len() == 12 * often).count();
        assert!(found > 150, "{often} grants occur {found} times");
    }
}

/// A queue of 65 grants is refused with and without room for its answers, and so is one of a wrong
/// length.
#[test]
fn queues_that_are_too_long_occur_with_every_output() {
    let long = |case: &Case| {
        let grants = case.block.len() / 12;
        (grants == 65).then(|| case.out.cmp(&grants))
    };
    let outputs = [-1, 0, 1].map(|rest: i32| Some(rest.cmp(&0)));
    occur(&[Call::CheckQueue], &outputs, long);
    occur(&[Call::CheckQueue], &[true], |case| {
        case.block.len() == 780 && case.out == 64
    });
    let part = |case: &Case| case.block.len() % 12 != 0 && case.out > case.block.len() / 12;
    occur(&[Call::CheckQueue], &[true], part);
}

#[test]
fn every_byte_occurs_at_either_end_of_queues() {
    for grants in [1, 2, 63, 64] {
        for byte in [0, 8, 9, 10, 20, 23, 25] {
            let of_length = |written: &[u8]| written.len() == grants;
            let first = |written: &[u8]| of_length(written) && written[0] == byte;
            let last = |written: &[u8]| of_length(written) && written[grants - 1] == byte;
            assert!(queues().any(|queue| first(queue.1)), "{byte} of {grants}");
            assert!(queues().any(|queue| last(queue.1)), "{byte} of {grants}");
        }
    }
}

#[test]
fn queues_of_one_byte_and_of_all_bytes_occur() {
    for byte in [0, 8, 9, 10, 20, 23, 25] {
        let same = |written: &[u8]| written.len() > 2 && written.iter().all(|&own| own == byte);
        assert!(queues().any(|queue| same(queue.1)), "{byte}");
        // All but the first, and all but the last.
        let but = |rest: &[u8], other: u8| same(rest) && other != byte;
        let first = |queue: (_, &[u8])| queue.1.len() > 2 && but(&queue.1[1..], queue.1[0]);
        let last = |queue: (_, &[u8])| match queue.1.split_last() {
            Some((&last, rest)) => but(rest, last),
            None => false,
        };
        assert!(queues().any(first), "{byte} but at first");
        assert!(queues().any(last), "{byte} but at last");
    }
    let with_all = |bytes: &[u8]| {
        let all = |written: &[u8]| bytes.iter().all(|byte| written.contains(byte));
        queues().filter(|queue| all(queue.1)).count()
    };
    assert!(with_all(&[0, 8, 9, 20, 23]) > 10);
    assert!(with_all(&[0, 8, 9, 10, 20, 23, 25]) > 2);
    for byte in [10, 25] {
        let asked =
            |right, queue: (&Case, &[u8])| queue.0.right == right && queue.1.contains(&byte);
        assert!(queues().filter(|&queue| asked(2, queue)).count() > 10);
        assert!(!queues().any(|queue| asked(1, queue)));
    }
}

/// Grants that open for two contractors and for both rights, and the same grant twice.
#[test]
fn queues_of_several_contractors_occur() {
    let opened = |(case, written): (&'static Case, &'static [u8])| {
        let grants = case.block.chunks(12).zip(written);
        let opened = grants.filter(|pair| *pair.1 == 0);
        let plain = opened.map(|pair| {
            let grant = pair.0.try_into().expect("a grant has 12 bytes");
            gordzila::decipher(&case.key, case.rounds, grant).expect("the key is right")
        });
        plain.collect::<Vec<[u8; 12]>>()
    };
    let opened: Vec<_> = queues().map(opened).collect();
    let differ = |place: usize| {
        let mixed = |plain: &&Vec<[u8; 12]>| plain.iter().any(|one| one[place] != plain[0][place]);
        opened.iter().filter(mixed).count()
    };
    assert!(differ(1) > 100, "{} with two contractors", differ(1));
    assert!(differ(8) > 100, "{} with both rights", differ(8));
    let twice = |plain: &&Vec<[u8; 12]>| plain.iter().skip(1).any(|one| *one == plain[0]);
    assert!(opened.iter().filter(twice).count() > 100);
}
