//! The inputs that matter occur among the cases on pages.

use std::collections::BTreeSet;

use gordzila::raw;
use gordzila_differential::order::LATE_11;
use gordzila_differential::pages::{used, PAGE_BYTES, PAYLOAD_BYTES, SCRATCH_BYTES};
use gordzila_differential::work::page_cases;

use super::*;

/// The families with pages among which all is looked for. The first of them are among the others.
const PAGED: u64 = 32;

/// Their cases. Those that are not among the others are drawn once, by the test that comes first.
fn on_pages() -> &'static [(Case, Expected)] {
    static CASES: Mutex<Option<&[(Case, Expected)]>> = Mutex::new(None);
    let mut on_pages = CASES.lock().expect("no test panics while it draws");
    on_pages.get_or_insert_with(|| {
        let known = cases().iter().cloned();
        let known = known.filter(|pair| Call::ON_PAGES.contains(&pair.0.call));
        let more = (FAMILIES / 64..PAGED).flat_map(|paged| page_cases(SEED, paged));
        known.chain(more).collect::<Vec<_>>().leak()
    })
}

fn cases_of(call: Call) -> impl Iterator<Item = &'static (Case, Expected)> {
    on_pages().iter().filter(move |pair| pair.0.call == call)
}

/// With each of the calls, each of the values occurs.
fn occur_on<T: PartialEq + std::fmt::Debug>(
    calls: &[Call],
    values: &[T],
    value: impl Fn(&Case) -> T,
) {
    for &call in calls {
        for wanted in values {
            let found = cases_of(call).any(|(case, _)| value(case) == *wanted);
            assert!(found, "{} never has {wanted:?}", call.name());
        }
    }
}

#[test]
fn all_cases_of_such_a_family_are_on_pages() {
    let other = |case: &Case| !Call::ON_PAGES.contains(&case.call);
    assert!(!on_pages().iter().any(|pair| other(&pair.0)));
    let with_pages = |family: &&[(Case, Expected)]| !other(&family[0].0);
    let families = cases().chunks(FAMILY as usize);
    assert_eq!(families.filter(with_pages).count(), FAMILIES as usize / 64);
}

#[test]
fn lengths_and_numbers_occur() {
    let keys = [12, 18, 24, 0, 11, 13, 17, 19, 23, 25, 268, 274, 280];
    occur_on(&Call::ON_PAGES, &keys, |case| case.key.len());
    occur_on(&Call::ON_PAGES, &keys, |case| case.second_key.len());
    let rounds = [10, 11, 14, 17, 18, 23, 266, u32::MAX];
    occur_on(&Call::ON_PAGES, &rounds, |case| case.rounds);
    let payloads = [0, 1, 11, 12, 13, 24, 479, 480, 481, 490, 491, 492];
    let wrong = [493, 494, 500, 504, 512, 748, 66_028];
    let payloads = [&payloads[..], &wrong].concat();
    occur_on(&[Call::SealPage], &payloads, |case| case.block.len());
    let pages = [512, 0, 12, 504, 511, 513, 768, 66_048];
    occur_on(&[Call::OpenPage], &pages, |case| case.block.len());
    occur_on(&[Call::SealPage], &[0, 1, u32::MAX], |case| case.size_block);
    // Those that are 0 if they are cut to 8, 16 or 24 bits, and no less.
    occur_on(&[Call::SealPage], &[8, 16, 24], |case| {
        case.size_block.trailing_zeros() / 8 * 8
    });
    occur_on(&[Call::SealPage], &[0, 1, 256, u16::MAX], |case| {
        case.page_number
    });
}

#[test]
fn what_is_lent_to_be_written_to_has_all_lengths() {
    for call in Call::ON_PAGES {
        let out = |case: &Case| case.out as i64 - needed(case) as i64;
        let scratch = |case: &Case| case.scratch as i64 - SCRATCH_BYTES as i64;
        for rest in [&out as &dyn Fn(&Case) -> i64, &scratch] {
            occur_on(&[call], &[-1, 0, 1], rest);
            occur_on(&[call], &[true], |case| (2..200).contains(&rest(case)));
            occur_on(&[call], &[true], |case| rest(case) > 200);
        }
        occur_on(&[call], &[0, 1], |case| case.out);
        occur_on(&[call], &[0, 1, 288], |case| case.scratch);
    }
}

/// Two keys that are wrong each for another cause, and two that differ in little.
#[test]
fn pairs_of_keys_occur() {
    let right = |key: &[u8]| [12, 18, 24].contains(&key.len());
    let lengths = [12, 18, 24].map(Some);
    occur_on(&Call::ON_PAGES, &lengths, |case| {
        (case.key == case.second_key).then_some(case.key.len())
    });
    let unequal = [(12, 18), (18, 12), (12, 24), (24, 12), (18, 24), (24, 18)];
    occur_on(&[Call::OpenPage], &unequal, |case| {
        (case.key.len(), case.second_key.len())
    });
    let others: [fn(&Case) -> bool; 3] = [
        // Of one length that is wrong, equal or not, and of two that begin alike.
        |case| case.key.len() == 13 && case.second_key.len() == 13,
        |case| case.key.len() == 268 && case.second_key.len() == 268,
        |case| {
            case.key.len() == 12
                && case.second_key.starts_with(&case.key)
                && case.second_key.len() == 24
        },
    ];
    for (number, other) in others.iter().enumerate() {
        assert!(on_pages().iter().any(|pair| other(&pair.0)), "{number}");
    }
    let places: Vec<_> = [0, 11, 17, 23].map(|place| Some(vec![place])).to_vec();
    occur_on(&Call::ON_PAGES, &places, |case| {
        let one_length = right(&case.key) && case.key.len() == case.second_key.len();
        one_length.then(|| changed_places(&case.key, &case.second_key))
    });
}

fn changed_places(one: &[u8], other: &[u8]) -> Vec<usize> {
    let places = 0..one.len();
    places.filter(|&place| one[place] != other[place]).collect()
}

#[test]
fn each_reason_occurs_alone() {
    for call in Call::ON_PAGES {
        for &reason in call.reasons() {
            let alone = cases_of(call).filter(|pair| pair.1.reasons == [reason]);
            assert!(alone.count() > 10, "{} with {reason}", call.name());
        }
    }
}

/// A reason holds because of each of its causes, and 11 also where the check is right.
#[test]
fn each_cause_of_a_reason_occurs() {
    let occurs = |call: Call, reason: u32, cause: &dyn Fn(&Case) -> bool| {
        let mut cases = cases_of(call).filter(|pair| !pair.1.reasons.contains(&13));
        let found = cases.any(|(case, found)| found.reasons.contains(&reason) && cause(case));
        assert!(found, "{} with {reason}", call.name());
    };
    for call in Call::ON_PAGES {
        occurs(call, 1, &|case| case.key == case.second_key);
        occurs(call, 1, &|case| {
            case.key.len() == case.second_key.len() && case.key.len() % 6 != 0
        });
        occurs(call, 4, &|case| case.scratch == 575 && case.out >= 512);
        occurs(call, 4, &|case| {
            case.scratch >= 576 && case.out as u64 + 1 == needed(case)
        });
    }
    let high = |case: &Case| case.block.len() == PAGE_BYTES && used(&case.block) > PAYLOAD_BYTES;
    occurs(Call::OpenPage, 11, &|case| case.block.len() == 511);
    occurs(Call::OpenPage, 11, &|case| case.block.len() == 513);
    occurs(Call::OpenPage, 11, &high);
    for place in 8..12 {
        occurs(Call::OpenPage, 11, &|case| {
            case.block.len() == PAGE_BYTES && !high(case) && case.block[place] != 0
        });
    }
}

#[test]
fn pages_open_that_are_full_empty_or_neither() {
    for key_length in [12, 18, 24] {
        let opened: BTreeSet<usize> = cases_of(Call::OpenPage)
            .filter(|pair| pair.1.reasons.is_empty() && pair.0.key.len() == key_length)
            .map(|pair| used(&pair.0.block))
            .collect();
        assert!(opened.len() > 4, "{key_length}: {opened:?}");
    }
    let full = [0, PAYLOAD_BYTES].map(Some);
    let opens = cases_of(Call::OpenPage).filter(|pair| pair.1.reasons.is_empty());
    let opens: Vec<_> = opens.map(|pair| Some(used(&pair.0.block))).collect();
    assert!(full.iter().all(|one| opens.contains(one)), "{opens:?}");
}

/// The places of the bytes that alone make a page differ from one that opens in the same family, each
/// with a reason that holds.
fn changed_pages() -> BTreeSet<(usize, u32)> {
    let mut changed = BTreeSet::new();
    for family in on_pages().chunks(FAMILY as usize) {
        let pages = family
            .iter()
            .filter(|pair| pair.0.block.len() == PAGE_BYTES);
        let (right, others): (Vec<_>, Vec<_>) = pages
            .filter(|pair| pair.0.call == Call::OpenPage)
            .partition(|pair| pair.1.reasons.is_empty());
        for (case, expected) in others {
            for (page, _) in &right {
                if let [place] = changed_places(&page.block, &case.block)[..] {
                    changed.extend(expected.reasons.iter().map(|&reason| (place, reason)));
                }
            }
        }
    }
    changed
}

#[test]
fn pages_with_one_byte_changed_occur() {
    let changed = changed_pages();
    for place in (0..6).chain([7]).chain(504..512) {
        assert!(changed.contains(&(place, 13)), "{place}: {changed:?}");
    }
    for place in [6, 8, 9, 10, 11] {
        assert!(changed.contains(&(place, 11)), "{place}: {changed:?}");
    }
    let in_payload = changed
        .iter()
        .filter(|(place, reason)| (12..504).contains(place) && *reason == 13);
    assert!(in_payload.count() > 50, "{changed:?}");
}

/// The used count of the page of a case, and the places of unused bytes that are not 0.
fn filled(case: &Case) -> (usize, Vec<usize>) {
    let mut list = vec![0; 12 * (case.rounds as usize + 1)];
    let prepared = raw::prepare_deciphering_number(&case.key, case.rounds, &mut list);
    assert_eq!(prepared, 0);
    let header = case.block[..12].try_into().expect("a header has 12 bytes");
    let start = gordzila::encipher(&case.key, case.rounds, header);
    let mut before = start.expect("the key is right").to_vec();
    let mut payload = Vec::new();
    for block in case.block[12..504].chunks(12) {
        let mut plain = [0; 12];
        assert_eq!(raw::run_number(&list, block, &mut plain), 0);
        payload.extend(plain.iter().zip(&before).map(|(one, other)| one ^ other));
        before = block.to_vec();
    }
    let used = used(&case.block);
    let places = (used..PAYLOAD_BYTES).filter(|&place| payload[place] != 0);
    (used, places.collect())
}

#[test]
fn pages_with_unused_bytes_that_are_not_0_occur() {
    let late = cases_of(Call::OpenPage).filter(|pair| pair.1.reasons == [LATE_11]);
    let late: Vec<_> = late.map(|pair| filled(&pair.0)).collect();
    assert!(late.iter().all(|page| !page.1.is_empty()));
    let wanted: [fn(usize, &[usize]) -> bool; 7] = [
        // The first unused byte, the last, the last of 492, and any other.
        |used, places| places == [used] && used < 480,
        |used, places| places == [491] && used < 480,
        |used, places| places == [491] && used == 491,
        |used, places| places.len() == 1 && places[0] > used && places[0] < 491,
        // All of them, in the block that is partly used, and of a page with no byte used.
        |used, places| places.len() == 492 - used && used < 480,
        |used, places| places.len() == 1 && used % 12 > 0 && places[0] / 12 == used / 12,
        |used, places| used == 0 && places[0] < 12,
    ];
    for (number, wanted) in wanted.iter().enumerate() {
        let found = late.iter().any(|(used, places)| wanted(*used, places));
        assert!(found, "{number}");
    }
}

/// Pages that were sealed for size block 0, which open, and are refused for each reason that is seen in
/// a page.
#[test]
fn pages_for_size_block_0_occur() {
    let names_0 = |pair: &&(Case, Expected)| pair.0.block.starts_with(&[0; 4]);
    let pages = cases_of(Call::OpenPage).filter(names_0);
    let pages = pages.filter(|pair| pair.0.block.len() == PAGE_BYTES);
    let found: Vec<u32> = pages
        .map(|pair| pair.1.reasons.first().map_or(0, |&reason| reason))
        .collect();
    for reason in [0, 1, 2, 4, 11, 13, LATE_11] {
        let number = found.iter().filter(|&&one| one == reason).count();
        assert!(number > 3, "{reason} occurs {number} times");
    }
}

/// A page that opens though it was not sealed so: its check was made anew.
#[test]
fn pages_that_open_with_another_header_occur() {
    let mut found = 0;
    for family in on_pages().chunks(FAMILY as usize) {
        let opened = |pair: &&(Case, Expected)| pair.1.reasons.is_empty();
        let sealed: BTreeSet<&[u8]> = family
            .iter()
            .filter(|pair| pair.0.call == Call::SealPage)
            .filter(opened)
            .map(|pair| &pair.1.effect.written[12..504])
            .collect();
        let opens = family.iter().filter(|pair| pair.0.call == Call::OpenPage);
        let others = opens.filter(opened).filter(|pair| {
            let numbers = &pair.0.block[..12];
            let page = &pair.0.block[12..504];
            let own = |case: &Case| case.call == Call::SealPage && sealed_header(case) == numbers;
            sealed.contains(page) && !family.iter().any(|pair| own(&pair.0))
        });
        found += others.count();
    }
    assert!(found > 3, "{found}");
}

/// The header of what is sealed in a case.
fn sealed_header(case: &Case) -> Vec<u8> {
    gordzila_differential::pages::header(case.size_block, case.page_number, case.block.len())
}

/// 13 because of the second key alone: the page opens with another.
#[test]
fn pages_under_a_wrong_second_key_occur() {
    let mut found = 0;
    for family in on_pages().chunks(FAMILY as usize) {
        let opens = family.iter().filter(|pair| pair.0.call == Call::OpenPage);
        let (right, others): (Vec<_>, Vec<_>) = opens.partition(|pair| pair.1.reasons.is_empty());
        let wrong = others.iter().filter(|(case, expected)| {
            let same = |other: &Case| {
                (&case.key, &case.block, case.rounds) == (&other.key, &other.block, other.rounds)
            };
            expected.reasons == [13] && right.iter().any(|pair| same(&pair.0))
        });
        found += wrong.count();
    }
    assert!(found > 10, "{found}");
}
