//! What is expected of a call on a page, against pages that are chained here.

use super::*;

/// A right case: 100 bytes of payload on page 7 of size block 300, under the keys 00 01 02 ... and
/// 64 65 66 ... .
pub fn page_case(call: Call) -> Case {
    let mut case = Case::new(call);
    case.key = (0..12).collect();
    case.second_key = (100..112).collect();
    case.rounds = 10;
    case.scratch = 576;
    case.out = 512;
    match call {
        Call::SealPage => {
            case.size_block = 300;
            case.page_number = 7;
            case.block = (1..=100).collect();
        }
        _ => case.block = sealed(&case, &plain(300, 7, 100, &PAYLOAD)),
    }
    case
}

/// The payload of the right case.
const PAYLOAD: [u8; 100] = {
    let mut payload = [0; 100];
    let mut place = 0;
    while place < 100 {
        payload[place] = place as u8 + 1;
        place += 1;
    }
    payload
};

/// The header and the payload of a page, which has zeros past the bytes that are given.
fn plain(size_block: u32, page_number: u16, used: u16, payload: &[u8]) -> Vec<u8> {
    let mut plain = size_block.to_be_bytes().to_vec();
    plain.extend(page_number.to_be_bytes());
    plain.extend(used.to_be_bytes());
    plain.extend([0; 4]);
    plain.extend(payload);
    plain.resize(504, 0);
    plain
}

/// The page of 504 plain bytes under the keys of a case.
fn sealed(case: &Case, plain: &[u8]) -> Vec<u8> {
    let mut oracle = Oracle::new();
    let mut first = |block: &[u8]| oracle.block(Way::Encipher, &case.key, case.rounds, block);
    let mut page = plain.to_vec();
    let start = first(&plain[..12]);
    (0..12).for_each(|i| page[12 + i] ^= start[i]);
    for at in (12..504).step_by(12) {
        let own = first(&page[at..at + 12]);
        page[at..at + 12].copy_from_slice(&own);
        // The next block is added to this one.
        let next = at + 12..(at + 24).min(504);
        next.for_each(|place| page[place] ^= page[place - 12]);
    }
    checked(case, &page)
}

/// The page of 504 stored bytes under the keys of a case: the check is made.
fn checked(case: &Case, stored: &[u8]) -> Vec<u8> {
    let mut oracle = Oracle::new();
    let mut last = vec![0; 12];
    for block in stored.chunks(12) {
        (0..12).for_each(|i| last[i] ^= block[i]);
        last = oracle.block(Way::Encipher, &case.second_key, case.rounds, &last);
    }
    [stored, &last[..8]].concat()
}

/// The page of the right case, but with an unused byte that is not 0, and a right check.
pub fn filled_page() -> Vec<u8> {
    filled_at(200)
}

/// The same with any place of the payload.
fn filled_at(place: usize) -> Vec<u8> {
    let mut plain = plain(300, 7, 100, &PAYLOAD);
    plain[12 + place] ^= 0x80;
    sealed(&page_case(Call::SealPage), &plain)
}

/// All reasons that hold of a case, and what it writes and leaves in the scratch. The first reason is
/// given, and a second opinion bears it out.
fn judged(case: &Case) -> (Vec<u32>, Vec<u8>, Vec<u8>) {
    let found = expected(case, &mut Oracle::new());
    let effect = found.effect;
    assert_eq!(second(case).as_ref(), Some(&effect), "{case}");
    if let Some(&first) = found.reasons.first() {
        assert_eq!(effect.answer, u64::from(number(first)), "{case}");
    }
    (found.reasons, effect.written, effect.scratch)
}

fn reasons(case: &Case) -> Vec<u32> {
    judged(case).0
}

#[test]
fn a_page_by_hand() {
    for (key_length, rounds) in [(12, 10), (18, 14), (24, 23)] {
        for used in [0, 13, 492] {
            let mut case = page_case(Call::SealPage);
            case.key = (0..key_length).collect();
            case.second_key = (7..7 + key_length).collect();
            case.rounds = rounds;
            case.block = (0..used).map(|place| place as u8 | 1).collect();
            let plain = plain(300, 7, used, &case.block);
            let page = sealed(&case, &plain);
            assert_eq!(
                page[..8],
                [0, 0, 1, 44, 0, 7, (used >> 8) as u8, used as u8]
            );
            let made = effect(&case);
            assert_eq!((made.answer, &made.written), (0, &page));
            assert_eq!(made.scratch, [0; 576]);
            case.call = Call::OpenPage;
            case.block = page;
            let opened = effect(&case);
            assert_eq!(
                opened.answer,
                1 << 63 | u64::from(used) << 48 | 7 << 32 | 300
            );
            assert_eq!(opened.written, plain[12..]);
            assert_eq!(opened.scratch, [0; 576]);
        }
    }
}

/// A size block, a page number, a used count, the header's bytes, and the answer. No page is sealed for
/// size block 0, but one that is there opens.
#[test]
fn numbers_of_a_header_and_the_answer() {
    let table = [
        (0, 0, 0, "00000000 0000 0000", 0x8000_0000_0000_0000),
        (1, 0, 0, "00000001 0000 0000", 0x8000_0000_0000_0001),
        (u32::MAX, 0, 0, "ffffffff 0000 0000", 0x8000_0000_ffff_ffff),
        (0, u16::MAX, 0, "00000000 ffff 0000", 0x8000_ffff_0000_0000),
        (0, 0, 492, "00000000 0000 01ec", 0x81ec_0000_0000_0000),
        (
            256,
            u16::MAX,
            492,
            "00000100 ffff 01ec",
            0x81ec_ffff_0000_0100,
        ),
        (
            0x0102_0304,
            0x0506,
            7,
            "01020304 0506 0007",
            0x8007_0506_0102_0304,
        ),
    ];
    for (size_block, page_number, used, header, answered) in table {
        let mut case = page_case(Call::SealPage);
        case.size_block = size_block;
        case.page_number = page_number;
        case.block = vec![1; used];
        let plain = plain(size_block, page_number, used as u16, &case.block);
        let page = sealed(&case, &plain);
        assert_eq!(page[..12], [hex(header), vec![0; 4]].concat());
        let made: &[u8] = if size_block == 0 { &[] } else { &page };
        assert_eq!(effect(&case).written, made, "{case}");
        let mut case = page_case(Call::OpenPage);
        case.block = page;
        assert_eq!(answer(&case), answered, "{case}");
    }
}

#[test]
fn two_keys_of_one_length_that_are_not_equal() {
    let lengths = [0, 1, 11, 12, 13, 17, 18, 19, 23, 24, 25, 268];
    for call in Call::ON_PAGES {
        for first in lengths {
            for second in lengths {
                let mut case = page_case(call);
                case.key = vec![1; first];
                case.second_key = vec![2; second];
                case.rounds = [10, 14, 18][(first / 6).clamp(2, 4) - 2];
                let found = reasons(&case);
                let right = first == second && [12, 18, 24].contains(&first);
                assert_eq!(found.contains(&1), !right, "{case}");
                assert!(!found.contains(&2), "{case}");
            }
        }
        for place in [0, 5, 11] {
            let mut case = page_case(call);
            case.second_key = case.key.clone();
            assert_eq!(answer(&case), 1);
            case.second_key[place] ^= 1;
            assert_ne!(answer(&case), 1);
        }
    }
}

/// What is wrong with other keys is wrong with equal ones, and what holds is told.
#[test]
fn equal_keys_hide_no_other_reason() {
    for call in Call::ON_PAGES {
        let mut case = page_case(call);
        case.second_key = case.key.clone();
        case.rounds = 12;
        assert_eq!(reasons(&case), [1, 2]);
        case.scratch = 0;
        assert_eq!(reasons(&case), [1, 2, 4]);
        case.second_key.push(0);
        assert_eq!(reasons(&case), [1, 4]);
    }
    let mut case = page_case(Call::OpenPage);
    case.second_key = case.key.clone();
    assert_eq!(reasons(&case), [1, 13]);
    case.block = checked(&case, &case.block[..504]);
    assert_eq!(reasons(&case), [1]);
    case.block = filled_page();
    assert_eq!(reasons(&case), [1, 13, LATE_11]);
    case.block = checked(&case, &case.block[..504]);
    assert_eq!(reasons(&case), [1, LATE_11]);
}

#[test]
fn a_scratch_has_576_bytes_and_an_output_what_is_written() {
    for (call, written) in [(Call::SealPage, 512), (Call::OpenPage, 492)] {
        for (scratch, out, right) in [
            (576, written, true),
            (577, written + 1, true),
            (1000, 1000, true),
            (575, written, false),
            (576, written - 1, false),
            (0, 1000, false),
            (1000, 0, false),
        ] {
            let mut case = page_case(call);
            (case.scratch, case.out) = (scratch, out);
            let (found, bytes, left) = judged(&case);
            assert_eq!(found.is_empty(), right, "{scratch} and {out}");
            assert_eq!(found.contains(&4), !right, "{scratch} and {out}");
            let cleared = if right { vec![0; 576] } else { Vec::new() };
            assert_eq!(left, cleared, "{scratch} and {out}");
            let written = if right { written } else { 0 };
            assert_eq!(bytes.len(), written, "{scratch} and {out}");
        }
    }
}

#[test]
fn a_payload_has_at_most_492_bytes() {
    for length in [0, 491, 492, 493, 512, 748, 66_028] {
        let mut case = page_case(Call::SealPage);
        case.block = vec![3; length];
        let right = if length > 492 { 12 } else { 0 };
        assert_eq!(answer(&case), right, "{length}");
    }
}

/// The form of a page is looked at before the check, which may be right or not.
#[test]
fn a_page_without_its_form() {
    for length in [0, 1, 12, 504, 511, 513, 768, 66_048] {
        let mut case = page_case(Call::OpenPage);
        case.block.resize(length, 0);
        assert_eq!(reasons(&case), [11], "{length}");
    }
    for (place, value) in [(8, 1), (9, 128), (10, 255), (11, 1), (6, 2), (6, 128)] {
        let mut case = page_case(Call::OpenPage);
        case.block[place] = value;
        assert_eq!(reasons(&case), [11, 13], "{place}");
        case.block = checked(&case, &case.block[..504]);
        assert_eq!(judged(&case), (vec![11], vec![], vec![]), "{place}");
    }
    for (used, right) in [(492, true), (493, false), (748, false), (65_535, false)] {
        let mut case = page_case(Call::OpenPage);
        case.block = sealed(&case, &plain(300, 7, used, &PAYLOAD));
        assert_eq!(reasons(&case).is_empty(), right, "{used}");
    }
}

#[test]
fn a_page_with_one_byte_changed() {
    let places = (0..8).chain([12, 24, 112, 503]).chain(504..512);
    for place in places.filter(|&place| place != 6) {
        let mut case = page_case(Call::OpenPage);
        case.block[place] ^= 0x10;
        let (found, written, left) = judged(&case);
        assert_eq!((found[0], written), (13, vec![]), "{place}");
        assert_eq!(left, [0; 576], "{place}");
    }
}

#[test]
fn a_page_under_other_keys() {
    for place in [0, 5, 11] {
        let mut case = page_case(Call::OpenPage);
        case.second_key[place] ^= 1;
        assert_eq!(reasons(&case), [13]);
    }
    let mut case = page_case(Call::OpenPage);
    std::mem::swap(&mut case.key, &mut case.second_key);
    assert_eq!(reasons(&case), [13, LATE_11]);
    // The check says nothing of the first key: what comes out is something else.
    let mut case = page_case(Call::OpenPage);
    case.key[0] ^= 1;
    assert_eq!(reasons(&case), [LATE_11]);
    case.block = sealed(&page_case(Call::SealPage), &plain(300, 7, 492, &PAYLOAD));
    assert_eq!(answer(&case), 1 << 63 | 492 << 48 | 7 << 32 | 300);
    assert_ne!(effect(&case).written[..100], PAYLOAD);
}

/// 11 is tried once more after the check, and the scratch is cleared then.
#[test]
fn unused_bytes_that_are_not_0() {
    let cleared = vec![0; 576];
    for place in [100, 107, 108, 491] {
        let mut case = page_case(Call::OpenPage);
        case.block = filled_at(place);
        assert_eq!(judged(&case), (vec![LATE_11], vec![], cleared.clone()));
        case.block[511] ^= 1;
        let both = vec![13, LATE_11];
        assert_eq!(judged(&case), (both, vec![], cleared.clone()));
        case.block[10] ^= 1;
        assert_eq!(judged(&case), (vec![11, 13, LATE_11], vec![], vec![]));
        case.block = checked(&case, &case.block[..504]);
        assert_eq!(judged(&case), (vec![11, LATE_11], vec![], vec![]));
    }
    // The last used byte, and a used count that leaves it unused.
    let mut case = page_case(Call::OpenPage);
    case.block = filled_at(99);
    assert_eq!(reasons(&case), []);
    case.block = sealed(&case, &plain(300, 7, 99, &PAYLOAD));
    assert_eq!(reasons(&case), [LATE_11]);
    case.block = sealed(&case, &plain(300, 7, 0, &[]));
    assert_eq!(reasons(&case), []);
    case.block = sealed(&case, &plain(300, 7, 0, &[1]));
    assert_eq!(reasons(&case), [LATE_11]);
}

/// No page is sealed for size block 0, however long the payload is, and nothing is left of the try.
#[test]
fn sealing_for_size_block_0() {
    for (length, found) in [(0, vec![14]), (492, vec![14]), (493, vec![14, 12])] {
        let mut case = page_case(Call::SealPage);
        case.size_block = 0;
        case.block = vec![3; length];
        assert_eq!(judged(&case), (found, vec![], vec![]), "{length}");
        case.size_block = 1 << 24;
        assert!(!reasons(&case).contains(&14), "{length}");
    }
    let mut case = page_case(Call::SealPage);
    case.size_block = 0;
    for (reason, found) in [(4, [4, 14]), (2, [2, 4]), (1, [1, 2])] {
        spoil(&mut case, reason);
        assert_eq!(reasons(&case)[..2], found);
    }
}

/// A page that was sealed for size block 0 opens, and is refused for what another one is refused for.
#[test]
fn a_page_for_size_block_0() {
    let mut right = page_case(Call::OpenPage);
    right.block = sealed(&right, &plain(0, 7, 100, &PAYLOAD));
    let opened = effect(&right);
    assert_eq!(opened.answer, 1 << 63 | 100 << 48 | 7 << 32);
    assert_eq!(opened.written[..100], PAYLOAD);
    assert_eq!(opened.scratch, [0; 576]);
    for &reason in Call::OpenPage.reasons() {
        let mut case = right.clone();
        match reason {
            LATE_11 => case.block = sealed(&case, &plain(0, 7, 99, &PAYLOAD)),
            _ => spoil(&mut case, reason),
        }
        assert_eq!(reasons(&case)[0], reason, "{case}");
    }
    // Another size block in the header, with the check of this one.
    for place in 0..4 {
        let mut case = right.clone();
        case.block[place] = 1;
        assert_eq!(reasons(&case)[0], 13, "{place}");
    }
}

/// A page whose header was changed and whose check was made anew opens, with another first block.
#[test]
fn a_header_with_a_new_check() {
    let mut case = page_case(Call::OpenPage);
    case.block[5] = 8;
    case.block = checked(&case, &case.block[..504]);
    let opened = effect(&case);
    assert_eq!(opened.answer, 1 << 63 | 100 << 48 | 8 << 32 | 300);
    assert_ne!(opened.written[..12], PAYLOAD[..12]);
    assert_eq!(opened.written[12..100], PAYLOAD[12..]);
    assert_eq!(opened.written[100..], [0; 392]);
}

#[test]
fn these_pairs_of_reasons_can_hold_of_a_page() {
    let sealing = [
        (1, 2),
        (1, 4),
        (1, 14),
        (1, 12),
        (2, 4),
        (2, 14),
        (2, 12),
        (4, 14),
        (4, 12),
        (14, 12),
    ];
    assert_eq!(Call::SealPage.pairs(), sealing);
    let opening = [
        (1, 2),
        (1, 4),
        (1, 11),
        (1, 13),
        (1, LATE_11),
        (2, 4),
        (2, 11),
        (4, 11),
        (4, 13),
        (4, LATE_11),
        (11, 13),
        (11, LATE_11),
        (13, LATE_11),
    ];
    assert_eq!(Call::OpenPage.pairs(), opening);
}
