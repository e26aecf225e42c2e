//! What README.md says about the roll and about grants. The plain bytes of grants
//! are written out here byte by byte, and grants are deciphered by the decryption
//! keys of Theorem 1 (section 3.10). Numbers are worked out by hand, or by models that
//! have other terms than counts and figures. What is said of all later calls is tried
//! with lists of calls that are drawn.

use curupira_reference::cipher::{decryption_keys, encrypt, encrypt_with};
use curupira_reference::generator::Generator;
use curupira_reference::matrix::Matrix;
use curupira_reference::roll::{
    covers, highest, in_standing, may_be_asked_for, old_zero_grant, queue_length, within, Accepted,
    Grant, Refusal, Roll, OVERWRITING, READING, ZERO_BLOCK,
};
use curupira_reference::schedule::round_subkeys;

/// A key of 12 bytes, with which 10 and 11 rounds are allowed.
const KEY: [u8; 12] = [3, 1, 4, 1, 5, 9, 2, 6, 5, 3, 5, 8];

/// A number of rounds for this key.
const ROUNDS: usize = 10;

/// The plain bytes for contractor 7, count 1, size block 300, overwriting.
const PLAIN: [u8; 12] = [
    0x00, 0x07, 0x00, 0x01, 0x00, 0x00, 0x01, 0x2C, 0x02, 0x47, 0x52, 0x44,
];

/// What a byte lent for an answer has before the call. It is no answer.
const LENT: u8 = 0xA5;

/// A grant of a pile: what is changed in PLAIN for it, and the answers if reading and if
/// overwriting is asked for.
type Piled = (&'static [(usize, u8)], [u8; 2]);

/// The entries in the roll of the pile: the contractor, the count and the figure. Only 2
/// is a figure for overwriting. Everyone else has count 0 and figure 1.
const PILE_ROLL: [(usize, u16, u8); 9] = [
    (7, 1, 2),
    (8, 2, 2),
    (9, 3, 2),
    (10, 1, 1),
    (11, 1, 0),
    (12, 1, 3),
    (13, 1, 255),
    (14, 2, 1),
    (15, 3, 1),
];

/// A pile of grants. Size block 300 is asked for. Bytes 0 and 1 are the contractor, byte 3
/// is the end of the count, byte 7 the end of the size block, byte 8 the right and byte 11
/// the end of the mark. Those in which bytes 6 and 7 are 0 are old grants for size block 0.
const PILE: [Piled; 34] = [
    (&[], [0, 0]),
    (&[(8, 1)], [0, 10]),
    (&[(7, 0x2D)], [9, 9]),
    (&[(7, 0x2D), (8, 1)], [9, 9]),
    (&[(8, 0)], [8, 8]),
    (&[(8, 3)], [8, 8]),
    (&[(11, 0x45)], [8, 8]),
    (&[(1, 0)], [8, 8]),
    (&[(1, 201)], [8, 8]),
    (&[(0, 1)], [8, 8]),
    (&[(1, 8), (3, 2)], [20, 20]),
    (&[(1, 8), (3, 1)], [20, 20]),
    (&[(1, 8), (3, 1), (8, 1)], [20, 10]),
    (&[(1, 9), (3, 1)], [23, 23]),
    (&[(1, 9), (3, 3)], [0, 0]),
    (&[(1, 9), (3, 3), (8, 1)], [0, 10]),
    (&[(1, 10)], [0, 25]),
    (&[(1, 10), (8, 1)], [0, 10]),
    (&[(1, 10), (3, 3)], [23, 23]),
    (&[(1, 10), (7, 0x2D)], [9, 9]),
    (&[(1, 11)], [0, 25]),
    (&[(1, 12)], [0, 25]),
    (&[(1, 13)], [0, 25]),
    (&[(1, 13), (8, 1)], [0, 10]),
    (&[(1, 14), (3, 2)], [20, 20]),
    (&[(1, 15)], [23, 23]),
    (&[(1, 15), (3, 3)], [0, 25]),
    (&[(6, 0), (7, 0)], [9, 9]),
    (&[(6, 0), (7, 0), (8, 1)], [9, 9]),
    (&[(6, 0), (7, 0), (1, 8), (3, 2)], [9, 9]),
    (&[(6, 0), (7, 0), (1, 9), (3, 1)], [9, 9]),
    (&[(6, 0), (7, 0), (1, 10)], [9, 9]),
    (&[(6, 0), (7, 0), (8, 3)], [8, 8]),
    (&[(6, 0), (7, 0), (11, 0x45)], [8, 8]),
];

/// The number of a call: 0, or the number of the reason for which it is refused.
fn number<T>(result: Result<T, Refusal>) -> u8 {
    match result {
        Ok(_) => 0,
        Err(refusal) => refusal.number(),
    }
}

/// A roll in which every contractor has this count and this figure.
fn roll_of(count: u16, figure: u8) -> Roll {
    Roll::with_entries([count; 200], [figure; 200])
}

/// A roll in which every contractor has this count and may overwrite.
fn roll_at(count: u16) -> Roll {
    roll_of(count, 2)
}

/// The count and the figure of a contractor in the roll.
fn entry(roll: &Roll, contractor: u16) -> (u16, u8) {
    let count = roll.count(contractor).expect("a contractor");
    (count, roll.figure(contractor).expect("a contractor"))
}

/// The answer to an accepted check of a grant for contractor 7.
fn accepted(right: u8) -> Result<Accepted, Refusal> {
    Ok(Accepted {
        contractor: 7,
        right,
    })
}

/// Plain bytes enciphered under KEY and ROUNDS.
fn enciphered(plain: &[u8]) -> Vec<u8> {
    encrypt(&KEY, ROUNDS, plain).expect("a block of 12 bytes")
}

/// A grant deciphered by the decryption keys of Theorem 1.
fn deciphered(key: &[u8], rounds: usize, grant: &[u8]) -> Vec<u8> {
    let subkeys = round_subkeys(key, rounds).expect("a key of an allowed length");
    let turned = decryption_keys(&subkeys).expect("there are subkeys");
    let block = Matrix::from_bytes(grant).expect("a grant has 12 bytes");
    let plain = encrypt_with(&turned, &block).expect("there are subkeys");
    plain.to_bytes()
}

/// The bytes in PLAIN, with some of them replaced.
fn plain_with(changes: &[(usize, u8)]) -> Vec<u8> {
    let mut plain = PLAIN.to_vec();
    for (position, byte) in changes {
        plain[*position] = *byte;
    }
    plain
}

/// The bytes in PLAIN, with some bits of one of them flipped.
fn plain_flipped(position: usize, bits: u8) -> Vec<u8> {
    plain_with(&[(position, PLAIN[position] ^ bits)])
}

#[test]
fn the_numbers_are_as_documented() {
    let numbers = [
        (Refusal::KeyLength, 1),
        (Refusal::Rounds, 2),
        (Refusal::GrantLength, 3),
        (Refusal::ShortAnswers, 4),
        (Refusal::NoSuchContractor, 6),
        (Refusal::NoSuchRight, 7),
        (Refusal::NoGrant, 8),
        (Refusal::OtherBlock, 9),
        (Refusal::ReadingOnly, 10),
        (Refusal::ZeroBlock, 14),
        (Refusal::NotInStanding, 20),
        (Refusal::InStanding, 21),
        (Refusal::Full, 22),
        (Refusal::OtherCount, 23),
        (Refusal::AboveHighest, 25),
    ];
    for (refusal, number) in numbers {
        assert_eq!(refusal.number(), number);
    }
    assert_eq!((READING, OVERWRITING), (1, 2));
}

#[test]
fn standing_is_as_counted_by_hand() {
    let counts = [
        (0, false),
        (1, true),
        (2, false),
        (3, true),
        (65_532, false),
        (65_533, true),
        (65_534, false),
        (65_535, false),
    ];
    for (count, standing) in counts {
        assert_eq!(in_standing(count), standing, "count {}", count);
    }
}

#[test]
fn every_other_count_is_one_in_standing() {
    let standing: Vec<u16> = (0..=65_535).filter(|&count| in_standing(count)).collect();
    assert_eq!(standing.len(), 32_767);
    assert!((1..).step_by(2).take(32_767).eq(standing));
}

#[test]
fn an_empty_roll_has_count_0_and_figure_1_for_everyone() {
    assert_eq!(Roll::new(), roll_of(0, 1));
    assert_eq!(Roll::default(), roll_of(0, 1));
    for contractor in 1..=200 {
        assert_eq!(Roll::new().count(contractor), Ok(0));
        assert_eq!(Roll::new().figure(contractor), Ok(1));
    }
}

#[test]
fn the_entries_stand_in_the_order_of_the_contractors() {
    let (mut counts, mut figures) = ([0; 200], [1; 200]);
    for (place, count, figure) in [(0, 11, 2), (1, 22, 0), (199, 33, 255)] {
        counts[place] = count;
        figures[place] = figure;
    }
    let roll = Roll::with_entries(counts, figures);
    assert_eq!(entry(&roll, 1), (11, 2));
    assert_eq!(entry(&roll, 2), (22, 0));
    assert_eq!(entry(&roll, 3), (0, 1));
    assert_eq!(entry(&roll, 199), (0, 1));
    assert_eq!(entry(&roll, 200), (33, 255));
    for contractor in [0, 201, 65_535] {
        assert_eq!(roll.count(contractor), Err(Refusal::NoSuchContractor));
        assert_eq!(roll.figure(contractor), Err(Refusal::NoSuchContractor));
    }
}

#[test]
fn an_empty_roll_is_400_zeros_and_200_ones() {
    let bytes = [vec![0; 400], vec![1; 200]].concat();
    assert_eq!(Roll::new().to_bytes(), bytes);
    assert_eq!(Roll::from_bytes(&bytes), Some(Roll::new()));
}

/// Contractor 1 has bytes 0, 1 and 400, contractor 2 has bytes 2, 3 and 401, contractor
/// 100 has bytes 198, 199 and 499, and contractor 200 has bytes 398, 399 and 599.
#[test]
fn a_roll_in_bytes_is_as_placed_by_hand() {
    let mut bytes = vec![0; 600];
    let placed = [
        (0, [0x12, 0x34], 400, 2),
        (2, [0x56, 0x78], 401, 0),
        (198, [0x00, 0xFF], 499, 3),
        (398, [0xFF, 0xFE], 599, 255),
    ];
    for (place, count, figure_place, figure) in placed {
        bytes[place..place + 2].copy_from_slice(&count);
        bytes[figure_place] = figure;
    }
    let roll = Roll::from_bytes(&bytes).expect("600 bytes");
    assert_eq!(entry(&roll, 1), (0x1234, 2));
    assert_eq!(entry(&roll, 2), (0x5678, 0));
    assert_eq!(entry(&roll, 100), (255, 3));
    assert_eq!(entry(&roll, 200), (65_534, 255));
    for contractor in (3..200).filter(|number| *number != 100) {
        assert_eq!(entry(&roll, contractor), (0, 0));
    }
    assert_eq!(roll.to_bytes(), bytes);
}

/// Any 600 bytes are a roll and are written as they were read. One byte is a part of one
/// entry: bytes 2(c-1) and 2(c-1) + 1 of the count of contractor c, byte 400 + c - 1 of
/// the figure.
#[test]
fn every_byte_of_a_roll_is_a_part_of_one_entry() {
    let bytes = Generator::new(50).bytes(600);
    let roll = Roll::from_bytes(&bytes).expect("600 bytes");
    assert_eq!(roll.to_bytes(), bytes);
    for place in 0..600 {
        let mut changed = bytes.clone();
        changed[place] ^= 0x81;
        let other = Roll::from_bytes(&changed).expect("600 bytes");
        assert_eq!(other.to_bytes(), changed);
        for contractor in 1..=200 {
            let before = usize::from(contractor) - 1;
            let [count, figure] = [place / 2 == before, place == 400 + before];
            let same_count = roll.count(contractor) == other.count(contractor);
            let same_figure = roll.figure(contractor) == other.figure(contractor);
            assert_eq!([same_count, same_figure], [!count, !figure]);
        }
    }
}

#[test]
fn a_roll_has_600_bytes_and_no_other_number() {
    for length in 0..=1_300 {
        let roll = Roll::from_bytes(&vec![0; length]);
        assert_eq!(roll.is_some(), length == 600, "{} bytes", length);
    }
}

/// The figure 2 means overwriting, and all others mean reading. What is asked for is not
/// above the highest right, unless it is overwriting and the figure is not 2.
#[test]
fn a_figure_other_than_2_means_reading_only() {
    for figure in 0..=255 {
        let overwriting = figure == 2;
        assert_eq!(highest(figure), if overwriting { 2 } else { 1 });
        assert!(within(figure, READING));
        assert_eq!(within(figure, OVERWRITING), overwriting);
    }
}

/// The count and the figure before a call, the right that is given, the number of the
/// call, and the count and the figure after it.
type Written = ((u16, u8), u8, u8, (u16, u8));

/// Makes the calls for contractor 7 and compares its entry. Everyone has the same entry
/// before.
fn check_written(cases: &[Written], call: fn(&mut Roll, u8) -> Result<(), Refusal>) {
    for &((count, figure), right, refused, after) in cases {
        let mut roll = roll_of(count, figure);
        let said = number(call(&mut roll, right));
        let case = (count, figure, right);
        assert_eq!((said, entry(&roll, 7)), (refused, after), "{:?}", case);
    }
}

#[test]
fn entering_is_as_worked_out_by_hand() {
    let cases = [
        ((0, 1), 1, 0, (1, 1)),
        ((0, 1), 2, 0, (1, 2)),
        ((0, 2), 1, 0, (1, 1)),
        ((0, 0), 2, 0, (1, 2)),
        ((0, 1), 0, 7, (0, 1)),
        ((0, 1), 3, 7, (0, 1)),
        ((0, 1), 255, 7, (0, 1)),
        ((1, 1), 2, 21, (1, 1)),
        ((1, 2), 1, 21, (1, 2)),
        ((2, 255), 1, 0, (3, 1)),
        ((2, 255), 2, 0, (3, 2)),
        ((3, 255), 2, 21, (3, 255)),
        ((65_531, 0), 1, 21, (65_531, 0)),
        ((65_532, 3), 1, 0, (65_533, 1)),
        ((65_532, 3), 2, 0, (65_533, 2)),
        ((65_533, 3), 2, 21, (65_533, 3)),
        ((65_534, 1), 2, 22, (65_534, 1)),
        ((65_534, 3), 1, 22, (65_534, 3)),
        ((65_535, 2), 1, 22, (65_535, 2)),
        ((65_535, 3), 2, 22, (65_535, 3)),
    ];
    check_written(&cases, |roll, right| roll.enter(7, right));
}

/// The right that is held already is accepted, and any figure can be replaced.
#[test]
fn changing_a_right_is_as_worked_out_by_hand() {
    let cases = [
        ((1, 1), 1, 0, (1, 1)),
        ((1, 1), 2, 0, (1, 2)),
        ((1, 2), 1, 0, (1, 1)),
        ((1, 2), 2, 0, (1, 2)),
        ((1, 0), 1, 0, (1, 1)),
        ((1, 3), 2, 0, (1, 2)),
        ((3, 255), 1, 0, (3, 1)),
        ((65_533, 255), 2, 0, (65_533, 2)),
        ((1, 1), 0, 7, (1, 1)),
        ((1, 2), 3, 7, (1, 2)),
        ((1, 2), 255, 7, (1, 2)),
        ((0, 1), 1, 20, (0, 1)),
        ((0, 1), 2, 20, (0, 1)),
        ((2, 2), 1, 20, (2, 2)),
        ((2, 3), 2, 20, (2, 3)),
        ((65_534, 1), 2, 20, (65_534, 1)),
        ((65_535, 255), 1, 20, (65_535, 255)),
        ((65_535, 1), 2, 20, (65_535, 1)),
    ];
    check_written(&cases, |roll, right| roll.change_right(7, right));
}

/// No right is given, so that the third field stands for nothing.
#[test]
fn withdrawing_is_as_worked_out_by_hand() {
    let cases = [
        ((0, 2), 0, 20, (0, 2)),
        ((1, 1), 0, 0, (2, 1)),
        ((1, 2), 0, 0, (2, 1)),
        ((1, 0), 0, 0, (2, 1)),
        ((1, 255), 0, 0, (2, 1)),
        ((2, 2), 0, 20, (2, 2)),
        ((3, 3), 0, 0, (4, 1)),
        ((65_532, 0), 0, 20, (65_532, 0)),
        ((65_533, 2), 0, 0, (65_534, 1)),
        ((65_534, 255), 0, 20, (65_534, 255)),
        ((65_535, 2), 0, 20, (65_535, 2)),
    ];
    check_written(&cases, |roll, _| roll.withdraw(7));
}

/// Everyone's figure is the contractor's number, so that one that was written over would
/// show, except that 1 may be written over 1 and 2 over 2.
#[test]
fn a_call_writes_the_entry_of_one_contractor_only() {
    let mut figures = [0; 200];
    for (figure, number) in figures.iter_mut().zip(1..) {
        *figure = number;
    }
    for contractor in [1, 2, 100, 199, 200] {
        let place = usize::from(contractor) - 1;
        let (mut counts, mut figures) = ([0; 200], figures);
        let mut roll = Roll::with_entries(counts, figures);
        for (call, count, figure) in [(0, 1, 2), (1, 1, 1), (1, 1, 2), (2, 2, 1), (0, 3, 2)] {
            let made = match call {
                0 => roll.enter(contractor, figure),
                1 => roll.change_right(contractor, figure),
                _ => roll.withdraw(contractor),
            };
            assert_eq!(made, Ok(()));
            counts[place] = count;
            figures[place] = figure;
            assert_eq!(roll, Roll::with_entries(counts, figures));
        }
    }
}

/// The number of the first reason that holds, and 0 if none does.
fn first_of(reasons: &[(u8, bool)]) -> u8 {
    let held = reasons.iter().find(|(_, holds)| *holds);
    held.map_or(0, |(reason, _)| *reason)
}

/// Does something for contractors, rights, counts and figures on both sides of all limits.
fn for_all_entries(mut act: impl FnMut(u16, u8, u16, u8)) {
    for contractor in [0, 1, 7, 200, 201, 256, 65_535] {
        for right in [0, 1, 2, 3, 255] {
            for count in [0, 1, 2, 65_533, 65_534, 65_535] {
                for figure in [0, 1, 2, 3, 255] {
                    act(contractor, right, count, figure);
                }
            }
        }
    }
}

/// The roll after a call. If it is refused, nothing changes.
fn after(before: &Roll, contractor: u16, refused: u8, written: (u16, u8)) -> Roll {
    if refused != 0 {
        return before.clone();
    }
    let mut bytes = before.to_bytes();
    let place = usize::from(contractor) - 1;
    bytes[2 * place] = (written.0 / 256) as u8;
    bytes[2 * place + 1] = (written.0 % 256) as u8;
    bytes[400 + place] = written.1;
    Roll::from_bytes(&bytes).expect("600 bytes")
}

/// Of the counts that are tried, 1 and 65,533 are those of a contractor in standing.
#[test]
fn the_calls_that_write_are_refused_in_their_order_and_change_nothing_then() {
    for_all_entries(|contractor, right, count, figure| {
        let no_contractor = (6, contractor == 0 || contractor > 200);
        let no_right = (7, right != 1 && right != 2);
        let standing = count == 1 || count == 65_533;
        let full = (22, count >= 65_534);
        let before = roll_of(count, figure);

        let mut roll = before.clone();
        let refused = first_of(&[no_contractor, no_right, (21, standing), full]);
        assert_eq!(number(roll.enter(contractor, right)), refused);
        let written = (count.wrapping_add(1), right);
        assert_eq!(roll, after(&before, contractor, refused, written));

        let mut roll = before.clone();
        let refused = first_of(&[no_contractor, no_right, (20, !standing)]);
        assert_eq!(number(roll.change_right(contractor, right)), refused);
        let written = (count, right);
        assert_eq!(roll, after(&before, contractor, refused, written));

        let mut roll = before.clone();
        let refused = first_of(&[no_contractor, (20, !standing)]);
        assert_eq!(number(roll.withdraw(contractor)), refused);
        let written = (count.wrapping_add(1), 1);
        assert_eq!(roll, after(&before, contractor, refused, written));
    });
}

/// An issue has the key and the rounds that are allowed.
#[test]
fn an_issue_is_refused_by_the_entry_in_its_order() {
    for_all_entries(|contractor, right, count, figure| {
        for block in [0, 300] {
            let refused = first_of(&[
                (6, contractor == 0 || contractor > 200),
                (7, right != 1 && right != 2),
                (14, block == 0),
                (20, count != 1 && count != 65_533),
                (25, right == 2 && figure != 2),
            ]);
            let roll = roll_of(count, figure);
            let issued = roll.issue(&KEY, ROUNDS, contractor, block, right);
            assert_eq!(number(issued), refused);
        }
    });
}

/// 32,767 times in and 32,767 times out take the count to 65,534.
#[test]
fn a_contractor_is_entered_32767_times_and_no_more() {
    let mut roll = Roll::new();
    for round in 0..32_767 {
        let right = if round % 3 == 0 { 1 } else { 2 };
        assert_eq!(entry(&roll, 200), (2 * round, 1));
        assert_eq!(roll.enter(200, right), Ok(()));
        assert_eq!(number(roll.enter(200, 3 - right)), 21);
        assert_eq!(entry(&roll, 200), (2 * round + 1, right));
        assert_eq!(roll.withdraw(200), Ok(()));
        assert_eq!(number(roll.withdraw(200)), 20);
        assert_eq!(number(roll.change_right(200, 2)), 20);
    }
    assert_eq!(entry(&roll, 200), (65_534, 1));
    assert_eq!(number(roll.enter(200, 1)), 22);
    assert_eq!(number(roll.enter(200, 2)), 22);
    assert_eq!(number(roll.withdraw(200)), 20);
    assert_eq!(entry(&roll, 200), (65_534, 1));
}

#[test]
fn plain_bytes_are_as_written_by_hand() {
    let cases: [(u16, u16, u32, u8, [u8; 12]); 3] = [
        (7, 1, 300, OVERWRITING, PLAIN),
        (
            200,
            65_533,
            4_294_967_295,
            READING,
            [
                0x00, 0xC8, 0xFF, 0xFD, 0xFF, 0xFF, 0xFF, 0xFF, 0x01, 0x47, 0x52, 0x44,
            ],
        ),
        (
            1,
            0x0203,
            0x0405_0607,
            READING,
            [
                0x00, 0x01, 0x02, 0x03, 0x04, 0x05, 0x06, 0x07, 0x01, 0x47, 0x52, 0x44,
            ],
        ),
    ];
    for (contractor, count, block, right, plain) in cases {
        let grant = Grant {
            contractor,
            count,
            block,
            right,
        };
        assert_eq!(grant.plain_bytes(), plain);
        assert_eq!(Grant::from_plain_bytes(&plain), Ok(grant));
    }
}

#[test]
fn an_issued_grant_has_the_plain_bytes_and_the_count_of_the_roll() {
    let keys: [(usize, [usize; 2]); 3] = [(12, [10, 11]), (18, [14, 17]), (24, [18, 23])];
    for (length, rounds) in keys {
        let key: Vec<u8> = (1..).take(length).collect();
        for rounds in rounds {
            let grant = roll_at(1).issue(&key, rounds, 7, 300, OVERWRITING);
            let grant = grant.expect("contractor 7 is in standing");
            assert_eq!(deciphered(&key, rounds, &grant), PLAIN);
            let grant = roll_at(65_533).issue(&key, rounds, 200, 1, READING);
            let grant = grant.expect("contractor 200 is in standing");
            let plain = [0, 200, 0xFF, 0xFD, 0, 0, 0, 1, 1, 0x47, 0x52, 0x44];
            assert_eq!(deciphered(&key, rounds, &grant), plain);
        }
    }
}

/// The right in an issued grant, the right asked for, and what is answered. For
/// another size block 9 comes first, whichever the rights are, but for size block 0, which
/// is before 1 and after the last, it is 14.
#[test]
fn an_issued_grant_is_accepted_for_its_block_and_what_its_right_covers() {
    let roll = roll_at(1);
    let cases = [
        (READING, READING, accepted(READING)),
        (READING, OVERWRITING, Err(Refusal::ReadingOnly)),
        (OVERWRITING, READING, accepted(READING)),
        (OVERWRITING, OVERWRITING, accepted(OVERWRITING)),
    ];
    for block in [1, 300, 4_294_967_295] {
        let refused = |asked: u32| if asked == 0 { 14 } else { 9 };
        for (granted, asked, answer) in cases {
            let grant = roll.issue(&KEY, ROUNDS, 7, block, granted).unwrap();
            let check = |block| roll.check(&KEY, ROUNDS, &grant, block, asked);
            assert_eq!(check(block), answer, "{} for {}", granted, asked);
            for other in [block.wrapping_add(1), block.wrapping_sub(1)] {
                assert_eq!(number(check(other)), refused(other));
            }
        }
    }
}

/// Of all pairs of bytes, three: reading for reading, overwriting for reading and
/// for overwriting.
#[test]
fn a_right_covers_what_the_rule_says_and_nothing_else() {
    for granted in 0..=255 {
        for asked in 0..=255 {
            let named = [(1, 1), (2, 1), (2, 2)].contains(&(granted, asked));
            assert_eq!(covers(granted, asked), named, "{} for {}", granted, asked);
        }
    }
}

/// What checks of one grant for reading and for overwriting answer. The grant has
/// the given contractor, count and right, and is for size block 300.
fn both_checks(
    (contractor, count, right): (u8, u8, u8),
    roll: &Roll,
    block: u32,
) -> [Result<Accepted, Refusal>; 2] {
    let plain = plain_with(&[(1, contractor), (3, count), (8, right)]);
    let grant = enciphered(&plain);
    [1, 2].map(|asked| roll.check(&KEY, ROUNDS, &grant, block, asked))
}

/// If a check for overwriting is accepted, then the same check for reading is, with
/// the same contractor and the right reading. It is accepted for 3 contractors with
/// counts 1 and 3, if the figure is 2, which is 6 times. The check for reading is accepted
/// for as many reading grants besides, and for both with figure 1 too. All contractors
/// are below 256.
#[test]
fn who_may_overwrite_may_look() {
    let (mut overwritten, mut read) = (0, 0);
    let grants = [(0, 300), (1, 300), (2, 300), (3, 300), (2, 301)];
    let counts = [(1, 1), (3, 3), (1, 3), (3, 1), (2, 2), (1, 2)];
    let rolls = counts.map(|(count, everyones)| {
        let with_figure = |figure| (count, roll_of(everyones, figure));
        [1, 2].map(with_figure)
    });
    for contractor in [0, 1, 7, 200, 201] {
        for (count, roll) in rolls.iter().flatten() {
            for (right, block) in grants {
                let of = (contractor, *count, right);
                let [for_reading, for_overwriting] = both_checks(of, roll, block);
                if let Ok(answer) = for_overwriting {
                    let contractor = u16::from(contractor);
                    assert_eq!((answer.contractor, answer.right), (contractor, 2));
                    let right = 1;
                    assert_eq!(for_reading, Ok(Accepted { contractor, right }));
                    overwritten += 1;
                }
                read += usize::from(for_reading.is_ok());
            }
        }
    }
    assert_eq!((overwritten, read), (6, 24));
}

#[test]
fn an_issue_needs_standing_and_a_contractor_and_a_right() {
    let issue = |count, contractor, right| {
        number(roll_at(count).issue(&KEY, ROUNDS, contractor, 300, right))
    };
    for count in [1, 3, 65_533] {
        assert_eq!(issue(count, 7, READING), 0);
    }
    for count in [0, 2, 65_534, 65_535] {
        assert_eq!(issue(count, 7, READING), 20);
    }
    for (contractor, refused) in [(0, 6), (1, 0), (200, 0), (201, 6), (65_535, 6)] {
        assert_eq!(issue(1, contractor, READING), refused);
    }
    for (right, refused) in [(0, 7), (1, 0), (2, 0), (3, 7), (255, 7)] {
        assert_eq!(issue(1, 7, right), refused);
    }
}

/// The numbers with which an issue, a check and a queue of one grant are refused, for a
/// key of `length` bytes, if nothing but the key or the rounds can be wrong.
fn numbers_for(length: usize, rounds: usize) -> [u8; 3] {
    let key = vec![0; length];
    let roll = roll_at(1);
    let issued = roll.issue(&key, rounds, 7, 300, READING);
    let grant = issued.clone().unwrap_or_else(|_| vec![0; 12]);
    let checked = roll.check(&key, rounds, &grant, 300, READING);
    let queued = roll.check_queue(&key, rounds, &grant, 300, READING, &mut [LENT]);
    [number(issued), number(checked), number(queued)]
}

#[test]
fn the_key_and_the_rounds_have_to_be_those_of_table_2() {
    for (length, least, greatest) in [(12, 10, 11), (18, 14, 17), (24, 18, 23)] {
        for rounds in 0..=30 {
            let refused = if rounds < least || rounds > greatest {
                2
            } else {
                0
            };
            assert_eq!(numbers_for(length, rounds), [refused; 3]);
        }
    }
    for length in [0, 1, 11, 13, 17, 19, 23, 25, 48] {
        for rounds in [0, 10, 14, 18, 99] {
            assert_eq!(numbers_for(length, rounds), [1; 3]);
        }
    }
}

#[test]
fn a_grant_of_another_length_is_refused() {
    let grant = enciphered(&PLAIN);
    for length in [0, 1, 11, 13, 24] {
        let other: Vec<u8> = grant.iter().copied().cycle().take(length).collect();
        let checked = roll_at(1).check(&KEY, ROUNDS, &other, 300, OVERWRITING);
        assert_eq!(number(checked), 3);
    }
}

#[test]
fn a_check_for_no_right_is_refused() {
    for right in [0, 3, 4, 255] {
        let checked = roll_at(1).check(&KEY, ROUNDS, &enciphered(&PLAIN), 300, right);
        assert_eq!(number(checked), 7);
    }
}

/// The number of a check of enciphered plain bytes, in a roll where everyone has
/// count 1, for size block 300 and overwriting.
fn number_for_plain(plain: &[u8]) -> u8 {
    number(roll_at(1).check(&KEY, ROUNDS, &enciphered(plain), 300, OVERWRITING))
}

#[test]
fn a_wrong_mark_is_refused() {
    assert_eq!(number_for_plain(&PLAIN), 0);
    for position in 9..12 {
        for bit in 0..8 {
            assert_eq!(number_for_plain(&plain_flipped(position, 1 << bit)), 8);
        }
    }
    assert_eq!(number_for_plain(&[0; 12]), 8);
}

#[test]
fn a_wrong_contractor_in_the_grant_is_refused() {
    let number_for = |high, low| number_for_plain(&plain_with(&[(0, high), (1, low)]));
    for low in [1, 7, 200] {
        assert_eq!(number_for(0, low), 0);
    }
    for low in [0, 201, 255] {
        assert_eq!(number_for(0, low), 8);
    }
    for (high, low) in [(1, 0), (1, 7), (7, 0), (128, 7), (255, 255)] {
        assert_eq!(number_for(high, low), 8);
    }
}

/// The right in the grant, and the numbers if reading and if overwriting is asked
/// for. Reason 8 comes before 10, and a number that is no right covers neither.
#[test]
fn a_wrong_right_in_the_grant_is_refused() {
    let cases = [
        (0, [8, 8]),
        (1, [0, 10]),
        (2, [0, 0]),
        (3, [8, 8]),
        (130, [8, 8]),
        (255, [8, 8]),
    ];
    for (right, refused) in cases {
        let answers = both_checks((7, 1, right), &roll_at(1), 300);
        assert_eq!(answers.map(number), refused, "right {}", right);
    }
}

#[test]
fn every_figure_but_2_closes_for_overwriting() {
    let grant = enciphered(&PLAIN);
    for figure in 0..=255 {
        let roll = roll_of(1, figure);
        let checked = roll.check(&KEY, ROUNDS, &grant, 300, OVERWRITING);
        let issued = roll.issue(&KEY, ROUNDS, 7, 300, OVERWRITING);
        if figure == 2 {
            assert_eq!(checked, accepted(OVERWRITING));
            assert_eq!(issued, Ok(grant.clone()));
        } else {
            assert_eq!(checked, Err(Refusal::AboveHighest));
            assert_eq!(issued, Err(Refusal::AboveHighest));
        }
    }
}

/// An overwriting grant opens for reading whatever the figure is, and a reading grant that
/// is asked for overwriting is refused with 10.
#[test]
fn no_figure_closes_for_reading() {
    let [reading, overwriting] = [1, 2].map(|right| enciphered(&plain_with(&[(8, right)])));
    for figure in [0, 1, 2, 3, 4, 127, 128, 130, 254, 255] {
        let roll = roll_of(1, figure);
        let check = |grant: &[u8], asked| roll.check(&KEY, ROUNDS, grant, 300, asked);
        assert_eq!(check(&overwriting, READING), accepted(READING));
        assert_eq!(check(&reading, READING), accepted(READING));
        assert_eq!(number(check(&reading, OVERWRITING)), 10);
        let issued = roll.issue(&KEY, ROUNDS, 7, 300, READING);
        assert_eq!(issued, Ok(reading.clone()));
    }
}

/// The roll has counts 1, 2 and 3, and the grant has them, for either right. Where the
/// count is 2, the contractor is not in standing. The grant is for size block 300, or an
/// old one for 0, and either is asked for. Of those that open for reading, there are 2
/// grants with 2 counts and 5 figures; of those for overwriting, 1 with 2 and 1. No old
/// grant is among them.
#[test]
fn a_check_is_refused_by_the_entry_in_its_order() {
    let mut opened = [0, 0];
    for (granted, count_in_grant) in [(1, 1), (1, 2), (1, 3), (2, 1), (2, 2), (2, 3)] {
        let [old, new] = [[0, 0], [0x01, 0x2C]].map(|[high, low]| {
            let changes = [(3, count_in_grant), (6, high), (7, low), (8, granted)];
            enciphered(&plain_with(&changes))
        });
        let by_entry = |count: u16, figure: u8, asked: u8| {
            first_of(&[
                (10, granted == 1 && asked == 2),
                (20, count == 2),
                (23, count != u16::from(count_in_grant)),
                (25, asked == 2 && figure != 2),
            ])
        };
        for (count, figure) in counts_and_figures() {
            let roll = roll_of(count, figure);
            for asked in [1, 2] {
                let check = |grant, block| number(roll.check(&KEY, ROUNDS, grant, block, asked));
                let refused = by_entry(count, figure, asked);
                assert_eq!(check(&new, 300), refused);
                assert_eq!(check(&old, 300), 9);
                assert_eq!([check(&new, 0), check(&old, 0)], [14, 14]);
                opened[usize::from(asked) - 1] += usize::from(refused == 0);
            }
        }
    }
    assert_eq!(opened, [20, 2]);
}

/// Each of the counts 1, 2 and 3 with each of five figures.
fn counts_and_figures() -> Vec<(u16, u8)> {
    let counts = [1, 2, 3].into_iter();
    counts
        .flat_map(|count| [0, 1, 2, 3, 255].map(|figure| (count, figure)))
        .collect()
}

/// Only contractor 7 may read and not more, and then only contractor 7 may overwrite.
#[test]
fn the_figures_of_others_have_no_bearing() {
    for (own, others, refused) in [(1, 2, 25), (2, 1, 0)] {
        let mut figures = [others; 200];
        figures[6] = own;
        let roll = Roll::with_entries([1; 200], figures);
        let refused_for = |contractor: u8| {
            if contractor == 7 {
                refused
            } else {
                25 - refused
            }
        };
        for contractor in [1, 6, 7, 8, 200] {
            let grant = enciphered(&plain_with(&[(1, contractor)]));
            let checked = roll.check(&KEY, ROUNDS, &grant, 300, OVERWRITING);
            assert_eq!(number(checked), refused_for(contractor));
            let issued = roll.issue(&KEY, ROUNDS, u16::from(contractor), 300, OVERWRITING);
            assert_eq!(number(issued), refused_for(contractor));
        }
    }
}

#[test]
fn plain_bytes_that_are_not_12_are_no_grant() {
    assert_eq!(Grant::from_plain_bytes(&[]), Err(Refusal::NoGrant));
    assert_eq!(Grant::from_plain_bytes(&PLAIN[..11]), Err(Refusal::NoGrant));
    let longer = [&PLAIN[..], &[0x44]].concat();
    assert_eq!(Grant::from_plain_bytes(&longer), Err(Refusal::NoGrant));
}

#[test]
fn every_byte_of_the_size_block_and_of_the_count_matters() {
    for position in 4..8 {
        assert_eq!(number_for_plain(&plain_flipped(position, 0x80)), 9);
    }
    for position in 2..4 {
        assert_eq!(number_for_plain(&plain_flipped(position, 0x80)), 23);
    }
}

/// The grant and the roll have the same count. Only with count 1 is the contractor
/// in standing.
#[test]
fn the_same_count_is_not_enough() {
    for (high, low, refused) in [
        (0, 1, 0),
        (0, 0, 20),
        (0, 2, 20),
        (255, 254, 20),
        (255, 255, 20),
    ] {
        let grant = enciphered(&plain_with(&[(2, high), (3, low)]));
        let roll = roll_at(u16::from(high) * 256 + u16::from(low));
        let checked = roll.check(&KEY, ROUNDS, &grant, 300, OVERWRITING);
        assert_eq!(number(checked), refused);
    }
}

#[test]
fn a_grant_ends_with_the_withdrawal() {
    let mut roll = Roll::new();
    roll.enter(7, OVERWRITING).unwrap();
    let grant = roll.issue(&KEY, ROUNDS, 7, 300, OVERWRITING).unwrap();
    let check = |roll: &Roll| roll.check(&KEY, ROUNDS, &grant, 300, OVERWRITING);
    assert_eq!(check(&roll), accepted(OVERWRITING));
    roll.enter(8, READING).unwrap();
    roll.withdraw(8).unwrap();
    assert_eq!(check(&roll), accepted(OVERWRITING));
    roll.withdraw(7).unwrap();
    assert_eq!(number(check(&roll)), 20);
    roll.enter(7, OVERWRITING).unwrap();
    assert_eq!(number(check(&roll)), 23);
    let later = roll.issue(&KEY, ROUNDS, 7, 300, OVERWRITING).unwrap();
    assert_eq!(deciphered(&KEY, ROUNDS, &later), plain_with(&[(3, 3)]));
    let checked = roll.check(&KEY, ROUNDS, &later, 300, OVERWRITING);
    assert_eq!(checked, accepted(OVERWRITING));
}

/// What is done to the roll, and then the numbers of four calls for contractor 7: an issue
/// for reading, one for overwriting, a check of the first overwriting grant for reading,
/// one for overwriting.
type Step = (fn(&mut Roll) -> Result<(), Refusal>, [u8; 4]);

#[test]
fn demoting_and_raising_are_as_worked_out_by_hand() {
    let mut roll = Roll::new();
    roll.enter(7, OVERWRITING).unwrap();
    let grant = roll.issue(&KEY, ROUNDS, 7, 300, OVERWRITING).unwrap();
    let steps: [Step; 9] = [
        (|_| Ok(()), [0, 0, 0, 0]),
        (|roll| roll.change_right(7, 1), [0, 25, 0, 25]),
        (|roll| roll.change_right(7, 1), [0, 25, 0, 25]),
        (|roll| roll.enter(8, 2), [0, 25, 0, 25]),
        (|roll| roll.change_right(7, 2), [0, 0, 0, 0]),
        (|roll| roll.withdraw(7), [20, 20, 20, 20]),
        (|roll| roll.enter(7, 1), [0, 25, 23, 23]),
        (|roll| roll.change_right(7, 2), [0, 0, 23, 23]),
        (|roll| roll.change_right(7, 1), [0, 25, 23, 23]),
    ];
    for (step, numbers) in steps {
        assert_eq!(step(&mut roll), Ok(()));
        let issue = |right| number(roll.issue(&KEY, ROUNDS, 7, 300, right));
        let check = |right| number(roll.check(&KEY, ROUNDS, &grant, 300, right));
        assert_eq!([issue(1), issue(2), check(1), check(2)], numbers);
    }
}

/// A call on the roll: 0 for enter, 1 for a change of right, 2 for withdraw; for whom; and
/// the right that is given, which withdrawing does not look at.
#[derive(Clone, Copy, Debug, PartialEq)]
struct Drawn {
    call: u8,
    contractor: u16,
    right: u8,
}

impl Drawn {
    /// A call that is drawn, for one of these contractors. Of eight rights, six are 1 or 2,
    /// and the others are 0 and 3.
    fn new(generator: &mut Generator, contractors: &[u16]) -> Self {
        let [call, place, right] = [(); 3].map(|_| generator.byte());
        Drawn {
            call: call % 3,
            contractor: contractors[usize::from(place) % contractors.len()],
            right: [1, 2, 1, 2, 1, 2, 0, 3][usize::from(right) % 8],
        }
    }

    /// The number of the call, which is made on the roll.
    fn make(self, roll: &mut Roll) -> u8 {
        number(match self.call {
            0 => roll.enter(self.contractor, self.right),
            1 => roll.change_right(self.contractor, self.right),
            _ => roll.withdraw(self.contractor),
        })
    }
}

/// What the words say of one contractor, in other terms than a count and a figure: how
/// often the contractor was entered, whether that lasts, and whether overwriting is
/// allowed.
#[derive(Clone, Copy, Default)]
struct Member {
    times: u16,
    inside: bool,
    overwrites: bool,
}

impl Member {
    /// The number of a call, which is made on the member.
    fn make(&mut self, drawn: Drawn) -> u8 {
        let no_right = (7, drawn.right == 0 || drawn.right == 3);
        let overwrites = drawn.right == 2;
        let (refused, after) = match drawn.call {
            0 => (
                first_of(&[no_right, (21, self.inside)]),
                (self.times + 1, true, overwrites),
            ),
            1 => (
                first_of(&[no_right, (20, !self.inside)]),
                (self.times, true, overwrites),
            ),
            _ => (first_of(&[(20, !self.inside)]), (self.times, false, false)),
        };
        if refused == 0 {
            (self.times, self.inside, self.overwrites) = after;
        }
        refused
    }

    /// The count and the figure. The count went up with every entering and every
    /// withdrawal, and only the last entering may be without a withdrawal.
    fn entry(&self) -> (u16, u8) {
        let outstanding = u16::from(self.inside);
        let figure = if self.overwrites { 2 } else { 1 };
        (2 * self.times - outstanding, figure)
    }

    /// The number of an issue for a right.
    fn issue(&self, right: u8) -> u8 {
        first_of(&[(20, !self.inside), (25, right == 2 && !self.overwrites)])
    }

    /// The number of a check of a grant that was issued in a standing, counted from 1,
    /// and has this right.
    fn check(&self, (standing, granted): (u16, u8), asked: u8) -> u8 {
        first_of(&[
            (10, granted == 1 && asked == 2),
            (20, !self.inside),
            (23, standing != self.times),
            (25, asked == 2 && !self.overwrites),
        ])
    }
}

/// Starting from an empty roll, no count comes near its limit, so that 22 does not occur.
#[test]
fn drawn_calls_do_what_the_model_does() {
    let contractors = [1, 2, 7, 200];
    let mut members = [Member::default(); 4];
    let mut roll = Roll::new();
    let mut generator = Generator::new(51);
    let mut numbers = Vec::new();
    for _ in 0..20_000 {
        let drawn = Drawn::new(&mut generator, &contractors);
        let place = contractors.iter().position(|c| *c == drawn.contractor);
        let member = &mut members[place.expect("one of them")];
        let refused = member.make(drawn);
        assert_eq!(drawn.make(&mut roll), refused, "{:?}", drawn);
        assert_eq!(entry(&roll, drawn.contractor), member.entry());
        numbers.push((drawn.call, refused));
    }
    let (mut counts, mut figures) = ([0; 200], [1; 200]);
    for (contractor, member) in contractors.iter().zip(members) {
        let place = usize::from(*contractor) - 1;
        (counts[place], figures[place]) = member.entry();
    }
    assert_eq!(roll, Roll::with_entries(counts, figures));
    numbers.sort_unstable();
    numbers.dedup();
    let all = [
        (0, 0),
        (0, 7),
        (0, 21),
        (1, 0),
        (1, 7),
        (1, 20),
        (2, 0),
        (2, 20),
    ];
    assert_eq!(numbers, all);
}

/// After each drawn call on contractor 7 or 8, contractor 7 is issued a grant for a drawn
/// right, and one of all the grants there are is checked for both rights.
#[test]
fn drawn_issues_and_checks_end_as_the_model_says() {
    let mut member = Member::default();
    let mut roll = Roll::new();
    let mut generator = Generator::new(52);
    let (mut grants, mut numbers) = (Vec::new(), Vec::new());
    for _ in 0..400 {
        let drawn = Drawn::new(&mut generator, &[7, 7, 8]);
        drawn.make(&mut roll);
        if drawn.contractor == 7 {
            member.make(drawn);
        }
        let right = 1 + generator.byte() % 2;
        let issued = roll.issue(&KEY, ROUNDS, 7, 300, right);
        assert_eq!(number(issued.clone()), member.issue(right));
        grants.extend(issued.map(|grant| (grant, (member.times, right))));
        // Half of the time it is one of the last four, most of which are of this standing.
        let choice = usize::from(generator.byte());
        let among = if choice % 2 == 0 {
            4
        } else {
            grants.len().max(1)
        };
        if let Some((grant, of)) = grants.iter().rev().nth(choice / 2 % among) {
            for asked in [1, 2] {
                let checked = number(roll.check(&KEY, ROUNDS, grant, 300, asked));
                assert_eq!(checked, member.check(*of, asked));
                numbers.push(checked);
            }
        }
    }
    numbers.sort_unstable();
    numbers.dedup();
    assert_eq!(numbers, [0, 10, 20, 23, 25]);
}

/// A roll in which contractor 7 was entered with overwriting, and grants for contractor 7
/// from it, one for reading and one for overwriting.
fn entered_with_grants() -> (Roll, Vec<Vec<u8>>) {
    let mut roll = Roll::new();
    assert_eq!(roll.enter(7, OVERWRITING), Ok(()));
    let issue = |right| roll.issue(&KEY, ROUNDS, 7, 300, right).expect("standing");
    let grants = vec![issue(READING), issue(OVERWRITING)];
    assert_eq!(opening(&roll, &grants, READING), 2);
    assert_eq!(opening(&roll, &grants, OVERWRITING), 1);
    (roll, grants)
}

/// How many of the grants open for a right.
fn opening(roll: &Roll, grants: &[Vec<u8>], right: u8) -> usize {
    let opens = |grant: &&Vec<u8>| roll.check(&KEY, ROUNDS, grant, 300, right).is_ok();
    grants.iter().filter(opens).count()
}

/// An overwriting grant for contractor 7 with the count that the roll has now, whether one
/// could be issued or not.
fn forged(roll: &Roll) -> Vec<u8> {
    let [high, low] = roll.count(7).expect("a contractor").to_be_bytes();
    enciphered(&plain_with(&[(2, high), (3, low)]))
}

/// Calls are drawn and made for contractors 7 and 8, but for the calls on 7 that would be
/// accepted and give the right to overwrite. Nothing opens for overwriting then: neither
/// the grants from before, nor those issued since, nor one that is made up. It is tested
/// that withdrawals and enterings with reading are among the calls.
#[test]
fn a_demoted_contractor_opens_nothing_for_overwriting_until_raised_or_entered_again() {
    let mut generator = Generator::new(53);
    let (mut withdrawn, mut entered, mut left_out) = (0, 0, 0);
    for _ in 0..60 {
        let (mut roll, mut grants) = entered_with_grants();
        assert_eq!(roll.change_right(7, READING), Ok(()));
        for _ in 0..10 {
            let drawn = Drawn::new(&mut generator, &[7, 7, 8]);
            let mut next = roll.clone();
            let done = drawn.make(&mut next) == 0 && drawn.contractor == 7;
            if done && drawn.call != 2 && drawn.right == 2 {
                left_out += 1;
                continue;
            }
            roll = next;
            withdrawn += usize::from(done && drawn.call == 2);
            entered += usize::from(done && drawn.call == 0);
            grants.extend(roll.issue(&KEY, ROUNDS, 7, 300, READING));
            assert_eq!(opening(&roll, &grants, OVERWRITING), 0);
            assert_eq!(opening(&roll, &[forged(&roll)], OVERWRITING), 0);
            assert!(roll.issue(&KEY, ROUNDS, 7, 300, OVERWRITING).is_err());
        }
    }
    assert!(withdrawn > 20 && entered > 20 && left_out > 20);
}

/// Calls are drawn and made for contractors 7 and 8, but for withdrawals of 7. Then a
/// change to overwriting lets every overwriting grant of this standing open again, the
/// first one and those issued since, and every grant open for reading.
#[test]
fn raising_lets_the_overwriting_grants_of_the_same_standing_open_again() {
    let mut generator = Generator::new(54);
    let (mut demoted, mut issued) = (0, 0);
    for _ in 0..60 {
        let (mut roll, mut grants) = entered_with_grants();
        for _ in 0..10 {
            let drawn = Drawn::new(&mut generator, &[7, 7, 8]);
            if (drawn.call, drawn.contractor) != (2, 7) {
                drawn.make(&mut roll);
            }
            if generator.byte() % 4 == 0 {
                grants.extend(roll.issue(&KEY, ROUNDS, 7, 300, OVERWRITING));
            }
        }
        assert_eq!(roll.change_right(7, READING), Ok(()));
        demoted += opening(&roll, &grants, OVERWRITING);
        assert_eq!(opening(&roll, &grants, READING), grants.len());
        assert_eq!(roll.change_right(7, OVERWRITING), Ok(()));
        assert_eq!(opening(&roll, &grants, READING), grants.len());
        assert_eq!(opening(&roll, &grants, OVERWRITING), grants.len() - 1);
        issued += grants.len() - 2;
    }
    assert_eq!(demoted, 0);
    assert!(issued > 20);
}

/// Any calls are drawn and made for contractors 7 and 8, changes of right among them. A
/// grant from before a withdrawal does not open any more, for neither right, also if it
/// was issued after an earlier withdrawal.
#[test]
fn a_withdrawn_contractors_grants_never_open_again() {
    let mut generator = Generator::new(55);
    let (mut entered, mut raised) = (0, 0);
    for _ in 0..40 {
        let (mut roll, mut old) = entered_with_grants();
        let mut new = Vec::new();
        assert_eq!(roll.withdraw(7), Ok(()));
        for _ in 0..12 {
            let drawn = Drawn::new(&mut generator, &[7, 7, 7, 8]);
            let done = drawn.make(&mut roll) == 0 && drawn.contractor == 7;
            entered += usize::from(done && drawn.call == 0);
            raised += usize::from(done && drawn.call == 1 && drawn.right == 2);
            if done && drawn.call == 2 {
                old.append(&mut new);
            }
            if done && drawn.call != 2 {
                new.extend(roll.issue(&KEY, ROUNDS, 7, 300, drawn.right));
            }
            assert_eq!(opening(&roll, &old, READING), 0);
            assert_eq!(opening(&roll, &old, OVERWRITING), 0);
            assert_eq!(opening(&roll, &new, READING), new.len());
        }
    }
    assert!(entered > 20 && raised > 10);
}

#[test]
fn a_grant_under_another_key_or_number_of_rounds_is_no_grant() {
    let roll = roll_at(1);
    let grant = roll.issue(&KEY, 10, 7, 300, OVERWRITING).unwrap();
    let mut other = KEY;
    other[11] ^= 1;
    let checked = roll.check(&other, 10, &grant, 300, OVERWRITING);
    assert_eq!(number(checked), 8);
    let checked = roll.check(&KEY, 11, &grant, 300, OVERWRITING);
    assert_eq!(number(checked), 8);
}

/// A key in which reason 1 holds if asked for, and a number of rounds in which
/// reason 2 holds if asked for.
fn key_and_rounds(reasons: &[u8]) -> (&'static [u8], usize) {
    let key = if reasons.contains(&1) {
        &KEY[..11]
    } else {
        &KEY
    };
    (key, if reasons.contains(&2) { 12 } else { ROUNDS })
}

/// The contractor, and the right that is asked for or given, of a call in which the given
/// reasons hold.
fn contractor_and_right(reasons: &[u8]) -> (u16, u8) {
    let contractor = if reasons.contains(&6) { 201 } else { 7 };
    (
        contractor,
        if reasons.contains(&7) { 3 } else { OVERWRITING },
    )
}

/// A roll in which everyone is in standing, unless reason 20 is given, and may overwrite,
/// unless reason 25 is given.
fn roll_with(reasons: &[u8]) -> Roll {
    let count = if reasons.contains(&20) { 2 } else { 1 };
    roll_of(count, if reasons.contains(&25) { 1 } else { 2 })
}

/// The number of an entering in which the given reasons hold.
fn enter_with(reasons: &[u8]) -> u8 {
    let (contractor, right) = contractor_and_right(reasons);
    let mut roll = roll_of(2, 1);
    if reasons.contains(&21) {
        roll = roll_of(1, 1);
    }
    if reasons.contains(&22) {
        roll = roll_of(65_534, 1);
    }
    number(roll.enter(contractor, right))
}

/// The number of a change of right in which the given reasons hold.
fn change_with(reasons: &[u8]) -> u8 {
    let (contractor, right) = contractor_and_right(reasons);
    number(roll_with(reasons).change_right(contractor, right))
}

/// The number of a withdrawal in which the given reasons hold.
fn withdraw_with(reasons: &[u8]) -> u8 {
    let (contractor, _) = contractor_and_right(reasons);
    number(roll_with(reasons).withdraw(contractor))
}

/// The size block that is asked for in a call in which the given reasons hold. Reasons 9
/// and 14 are those of a check.
fn asked_block(reasons: &[u8]) -> u32 {
    let holds = |reason: u8| reasons.contains(&reason);
    if holds(14) {
        0
    } else if holds(9) {
        301
    } else {
        300
    }
}

/// The number of an issue in which the given reasons hold.
fn issue_with(reasons: &[u8]) -> u8 {
    let (key, rounds) = key_and_rounds(reasons);
    let (contractor, right) = contractor_and_right(reasons);
    let block = asked_block(reasons);
    number(roll_with(reasons).issue(key, rounds, contractor, block, right))
}

/// The number of a check with these rights, in the grant and asked for, in which the
/// given reasons hold. For reason 7, 3 is asked for instead. For reason 20 the roll
/// has count 2, and the grant has it too unless reason 23 is given. For reason 25 the
/// figure is 1. For reason 14 size block 0 is asked for.
fn check_of(granted: u8, asked: u8, reasons: &[u8]) -> u8 {
    let holds = |reason: u8| reasons.contains(&reason);
    let (key, rounds) = key_and_rounds(reasons);
    let mut grant = grant_of(granted, reasons);
    grant.truncate(if holds(3) { 11 } else { 12 });
    let right = if holds(7) { 3 } else { asked };
    number(roll_with(reasons).check(key, rounds, &grant, asked_block(reasons), right))
}

/// The whole grant of a check in which the given reasons hold. For reason 14 it is an old
/// one for size block 0, unless reason 9 is given.
fn grant_of(granted: u8, reasons: &[u8]) -> Vec<u8> {
    let holds = |reason: u8| reasons.contains(&reason);
    let count = if holds(20) { 2 } else { 1 };
    let count_in_grant = if holds(23) { 3 } else { count };
    let last = if holds(8) { 0x45 } else { 0x44 };
    let mut changes = vec![(3, count_in_grant), (8, granted), (11, last)];
    if holds(14) && !holds(9) {
        changes.extend([(6, 0), (7, 0)]);
    }
    enciphered(&plain_with(&changes))
}

/// The number of a check for overwriting in which the given reasons hold. For reason
/// 10 it is one of a reading grant, otherwise of an overwriting grant. Reasons 7 and
/// 10 do not hold together, nor do 7 and 25; given 7 and 10, right 3 is asked of a
/// reading grant.
fn check_with(reasons: &[u8]) -> u8 {
    let granted = if reasons.contains(&10) {
        READING
    } else {
        OVERWRITING
    };
    check_of(granted, OVERWRITING, reasons)
}

/// The number of a check of an overwriting grant for reading in which the given
/// reasons hold. Reasons 10 and 25 are never among them.
fn look_with(reasons: &[u8]) -> u8 {
    check_of(OVERWRITING, READING, reasons)
}

/// The number of a check of a reading grant for reading in which the given reasons
/// hold. Reasons 10 and 25 are never among them.
fn read_with(reasons: &[u8]) -> u8 {
    check_of(READING, READING, reasons)
}

/// As `look_with`, for a contractor whose figure is 1.
fn demoted_look_with(reasons: &[u8]) -> u8 {
    look_with(&[reasons, &[25]].concat())
}

/// As `read_with`, for a contractor whose figure is 1.
fn demoted_read_with(reasons: &[u8]) -> u8 {
    read_with(&[reasons, &[25]].concat())
}

/// A call in which nothing is wrong is not refused; one in which one reason holds
/// is refused with it; one in which two or all hold, with the first of them.
fn check_order(order: &[u8], call: fn(&[u8]) -> u8) {
    assert_eq!(call(&[]), 0);
    assert_eq!(call(order), order[0]);
    for (k, &first) in order.iter().enumerate() {
        assert_eq!(call(&[first]), first);
        assert_eq!(call(&order[k..]), first);
        for &second in &order[k + 1..] {
            assert_eq!(call(&[first, second]), first, "{} and {}", first, second);
        }
    }
}

/// Reasons 21 and 22 do not hold together.
#[test]
fn a_call_that_writes_is_refused_with_the_first_of_two_reasons() {
    check_order(&[6, 7, 21], enter_with);
    check_order(&[6, 7, 22], enter_with);
    check_order(&[6, 7, 20], change_with);
    check_order(&[6, 20], withdraw_with);
}

#[test]
fn an_issue_is_refused_with_the_first_of_two_reasons() {
    check_order(&[1, 2, 6, 7, 14, 20, 25], issue_with);
}

#[test]
fn a_check_is_refused_with_the_first_of_two_reasons() {
    check_order(&[1, 2, 3, 7, 14, 8, 9, 10, 20, 23, 25], check_with);
}

/// An overwriting grant opens its size block for reading on the same terms as a
/// reading grant does, also for a contractor who may only read.
#[test]
fn a_check_for_reading_is_refused_with_the_first_of_the_same_reasons() {
    check_order(&[1, 2, 3, 7, 14, 8, 9, 20, 23], look_with);
    check_order(&[1, 2, 3, 7, 14, 8, 9, 20, 23], read_with);
    check_order(&[1, 2, 3, 7, 14, 8, 9, 20, 23], demoted_look_with);
    check_order(&[1, 2, 3, 7, 14, 8, 9, 20, 23], demoted_read_with);
}

/// The roll of PILE.
fn pile_roll() -> Roll {
    let (mut counts, mut figures) = ([0; 200], [1; 200]);
    for (contractor, count, figure) in PILE_ROLL {
        counts[contractor - 1] = count;
        figures[contractor - 1] = figure;
    }
    Roll::with_entries(counts, figures)
}

/// The grants of PILE, enciphered under a key and a number of rounds.
fn pile_grants(key: &[u8], rounds: usize) -> Vec<Vec<u8>> {
    PILE.iter()
        .map(|(changes, _)| encrypt(key, rounds, &plain_with(changes)))
        .map(|grant| grant.expect("a block of 12 bytes"))
        .collect()
}

/// The bytes of a queue, as many as wanted, of grants for contractor 7 that open for
/// size block 300 and both rights if the count is 1 and the figure is 2.
fn queue_bytes(length: usize) -> Vec<u8> {
    let grant = enciphered(&PLAIN);
    grant.iter().copied().cycle().take(length).collect()
}

/// The number of a queue with these bytes, asked for size block 300, and what the bytes
/// lent for the answers are after the call. Everyone has count 1 and may overwrite.
fn queue_of(grants: &[u8], lent: usize, right: u8) -> (u8, Vec<u8>) {
    let mut answers = vec![LENT; lent];
    let roll = roll_at(1);
    let called = roll.check_queue(&KEY, ROUNDS, grants, 300, right, &mut answers);
    (number(called), answers)
}

/// Lent bytes of which the first ones are the answer 0, and the others as before.
fn opened(answers: usize, lent: usize) -> Vec<u8> {
    let mut bytes = vec![0; answers];
    bytes.resize(lent, LENT);
    bytes
}

/// The answers for a queue on the roll of PILE, asked for size block 300.
fn pile_answers(grants: &[Vec<u8>], right: u8) -> Vec<u8> {
    let mut answers = vec![LENT; grants.len()];
    let queue = grants.concat();
    let called = pile_roll().check_queue(&KEY, ROUNDS, &queue, 300, right, &mut answers);
    assert_eq!(called, Ok(()));
    answers
}

/// The pile is handed over as it is and from its end, so that every grant stands at two
/// places. A grant that is refused has no bearing on the others.
#[test]
fn the_answers_for_a_pile_are_as_written_by_hand() {
    let mut grants = pile_grants(&KEY, ROUNDS);
    let mut for_reading = PILE.map(|(_, [answer, _])| answer);
    let mut for_overwriting = PILE.map(|(_, [_, answer])| answer);
    for _ in 0..2 {
        assert_eq!(pile_answers(&grants, READING), for_reading);
        assert_eq!(pile_answers(&grants, OVERWRITING), for_overwriting);
        grants.reverse();
        for_reading.reverse();
        for_overwriting.reverse();
    }
}

/// The answers for 64 grants, the pile again and again, have to be the numbers of 64
/// checks. The size block is the one in most grants, the one in some others, and one in
/// none.
#[test]
fn each_answer_is_the_number_of_a_check_of_that_grant_alone() {
    let roll = pile_roll();
    for (length, rounds) in [(12, 10), (12, 11), (18, 14), (18, 17), (24, 18), (24, 23)] {
        let key: Vec<u8> = (1..).take(length).collect();
        let pile = pile_grants(&key, rounds);
        let grants: Vec<u8> = pile.iter().cycle().take(64).flatten().copied().collect();
        for (block, right) in [(300, 1), (300, 2), (301, 1), (301, 2), (1, 1), (1, 2)] {
            let alone: Vec<u8> = grants
                .chunks(12)
                .map(|grant| number(roll.check(&key, rounds, grant, block, right)))
                .collect();
            let mut answers = vec![LENT; 64];
            let called = roll.check_queue(&key, rounds, &grants, block, right, &mut answers);
            assert_eq!(called, Ok(()));
            assert_eq!(answers, alone);
        }
    }
}

/// 1, 2, 3, 4, 7 and 14 are for the whole call, and 6, 21 and 22 for no check.
#[test]
fn an_answer_is_0_or_one_of_six_reasons() {
    let grants = pile_grants(&KEY, ROUNDS);
    let mut answers = [READING, OVERWRITING]
        .map(|right| pile_answers(&grants, right))
        .concat();
    answers.sort_unstable();
    answers.dedup();
    assert_eq!(answers, [0, 8, 9, 10, 20, 23, 25]);
}

/// Any bytes may stand in a queue. These decipher to no mark.
#[test]
fn what_is_no_grant_is_answered_with_8() {
    let bytes: Vec<u8> = (0..48).map(|k| k * 5).collect();
    assert_eq!(queue_of(&bytes, 4, READING), (0, vec![8; 4]));
    assert_eq!(queue_of(&[0; 768], 64, OVERWRITING), (0, vec![8; 64]));
}

/// The number of bytes, and the number of the call. 64 grants have 768 bytes. There are
/// lent bytes enough for any of them, and those past the answers stay.
#[test]
fn a_queue_has_0_to_64_whole_grants() {
    let cases = [
        (0, 0),
        (1, 3),
        (11, 3),
        (12, 0),
        (13, 3),
        (23, 3),
        (24, 0),
        (25, 3),
        (64, 3),
        (756, 0),
        (767, 3),
        (768, 0),
        (769, 3),
        (779, 3),
        (780, 3),
        (792, 3),
        (1_536, 3),
    ];
    for (length, refused) in cases {
        let called = queue_of(&queue_bytes(length), 200, OVERWRITING);
        let answers = if refused == 0 { length / 12 } else { 0 };
        assert_eq!(called, (refused, opened(answers, 200)), "{} bytes", length);
        assert_eq!(queue_length(length), refused == 0, "{} bytes", length);
    }
}

/// 65 numbers of bytes are a queue's: 0, 12, 24, ..., 768.
#[test]
fn every_twelfth_number_of_bytes_up_to_768_is_a_queues() {
    let lengths: Vec<usize> = (0..=5_000).filter(|&bytes| queue_length(bytes)).collect();
    assert_eq!((lengths.len(), lengths.last()), (65, Some(&768)));
    assert!((0..).step_by(12).take(65).eq(lengths));
    assert!(!queue_length(usize::MAX));
}

/// The number of grants, the number of bytes lent, and the number of the call. 65 grants
/// are refused with 3, however many bytes are lent for them.
#[test]
fn the_answers_need_one_byte_for_each_grant() {
    let cases = [
        (0, 0, 0),
        (0, 1, 0),
        (0, 64, 0),
        (1, 0, 4),
        (1, 1, 0),
        (1, 2, 0),
        (2, 1, 4),
        (2, 2, 0),
        (2, 3, 0),
        (63, 62, 4),
        (63, 63, 0),
        (63, 64, 0),
        (64, 0, 4),
        (64, 5, 4),
        (64, 63, 4),
        (64, 64, 0),
        (64, 65, 0),
        (64, 768, 0),
        (65, 0, 3),
        (65, 64, 3),
        (65, 65, 3),
        (65, 66, 3),
    ];
    for (grants, lent, refused) in cases {
        let called = queue_of(&queue_bytes(12 * grants), lent, OVERWRITING);
        let answers = if refused == 0 { grants } else { 0 };
        let after = (refused, opened(answers, lent));
        assert_eq!(called, after, "{} grants, {} lent", grants, lent);
    }
}

#[test]
fn a_queue_for_no_right_is_refused() {
    for (right, refused) in [(0, 7), (1, 0), (2, 0), (3, 7), (4, 7), (255, 7)] {
        let answers = if refused == 0 { 2 } else { 0 };
        let called = queue_of(&queue_bytes(24), 3, right);
        assert_eq!(called, (refused, opened(answers, 3)), "right {}", right);
    }
}

/// No grant is checked then, so that 1, 2, 7 and 14 have to be looked at all the same.
#[test]
fn a_queue_of_no_grants_is_refused_for_its_key_its_rounds_its_right_and_its_size_block() {
    let roll = roll_at(0);
    let cases = [
        (12, 10, READING, 300, 0),
        (12, 11, OVERWRITING, 300, 0),
        (11, 10, READING, 300, 1),
        (12, 9, READING, 300, 2),
        (12, 12, OVERWRITING, 300, 2),
        (12, 10, 0, 300, 7),
        (12, 10, 3, 300, 7),
        (12, 10, READING, 0, 14),
        (12, 11, OVERWRITING, 0, 14),
        (12, 10, READING, 1, 0),
        (12, 10, 3, 0, 7),
        (12, 12, READING, 0, 2),
        (11, 10, READING, 0, 1),
    ];
    for (length, rounds, right, block, refused) in cases {
        for lent in [0, 1, 64, 65] {
            let mut answers = vec![LENT; lent];
            let key = &KEY[..length];
            let called = roll.check_queue(key, rounds, &[], block, right, &mut answers);
            assert_eq!(number(called), refused);
            assert_eq!(answers, vec![LENT; lent]);
        }
    }
}

/// The number of a queue in which the given reasons hold. It has `good` bytes, and `bad`
/// bytes for reason 3. One byte is lent for each grant, also for one that is not whole;
/// for reason 4 it is one less than there are whole grants. Every grant opens if it is
/// looked at, or is for another size block if 0 is asked for, so that a refused call that
/// wrote an answer would show.
fn queue_call(good: usize, bad: usize, reasons: &[u8]) -> u8 {
    let holds = |reason: u8| reasons.contains(&reason);
    let (key, rounds) = key_and_rounds(reasons);
    let grants = queue_bytes(if holds(3) { bad } else { good });
    let lent = if holds(4) {
        grants.len() / 12 - 1
    } else {
        (grants.len() + 11) / 12
    };
    let right = if holds(7) { 3 } else { OVERWRITING };
    let mut answers = vec![LENT; lent];
    let block = asked_block(reasons);
    let called = roll_at(1).check_queue(key, rounds, &grants, block, right, &mut answers);
    let each = if reasons.is_empty() { 0 } else { LENT };
    assert_eq!(answers, vec![each; lent], "{:?}", reasons);
    number(called)
}

/// For reason 3 there is one grant too many.
fn long_queue_with(reasons: &[u8]) -> u8 {
    queue_call(768, 780, reasons)
}

/// For reason 3 the last grant is without its last byte.
fn cut_queue_with(reasons: &[u8]) -> u8 {
    queue_call(36, 35, reasons)
}

/// For reason 3 there is one byte after the last grant.
fn drawn_out_queue_with(reasons: &[u8]) -> u8 {
    queue_call(24, 25, reasons)
}

#[test]
fn a_queue_is_refused_with_the_first_of_two_reasons() {
    check_order(&[1, 2, 3, 4, 7, 14], long_queue_with);
    check_order(&[1, 2, 3, 4, 7, 14], cut_queue_with);
    check_order(&[1, 2, 3, 4, 7, 14], drawn_out_queue_with);
}

/// The size blocks that are tried around 0: each of 32 bits alone, and some of which one
/// or more whole bytes are 0, so that a part of the number would be taken for 0.
fn blocks_but_0() -> Vec<u32> {
    let bits = (0..32).map(|bit| 1 << bit);
    let others = [255, 300, 65_535, 0x0100_0001, 0xFF00_FF00, 0x00FF_00FF];
    bits.chain(others).chain([4_294_967_295]).collect()
}

#[test]
fn size_block_0_is_the_only_one_that_may_not_be_asked_for() {
    assert_eq!(ZERO_BLOCK, 0);
    assert!(!may_be_asked_for(0));
    for block in blocks_but_0() {
        assert!(may_be_asked_for(block), "size block {}", block);
    }
}

/// An issue, a check and a queue for every size block but 0 are accepted, and the grant has
/// all four bytes of the number.
#[test]
fn a_grant_for_any_other_size_block_is_issued_and_opens() {
    let roll = roll_at(1);
    for block in blocks_but_0() {
        let issued = roll.issue(&KEY, ROUNDS, 7, block, OVERWRITING);
        let grant = issued.expect("not size block 0");
        let [a, b, c, d] = block.to_be_bytes();
        let plain = plain_with(&[(4, a), (5, b), (6, c), (7, d)]);
        assert_eq!(deciphered(&KEY, ROUNDS, &grant), plain);
        let checked = roll.check(&KEY, ROUNDS, &grant, block, OVERWRITING);
        assert_eq!(checked, accepted(OVERWRITING), "size block {}", block);
        let mut answers = [LENT; 2];
        let called = roll.check_queue(&KEY, ROUNDS, &grant, block, READING, &mut answers);
        assert_eq!((called, answers), (Ok(()), [0, LENT]));
    }
}

#[test]
fn nothing_is_issued_for_size_block_0() {
    for right in [READING, OVERWRITING] {
        for (count, figure) in counts_and_figures() {
            let issued = roll_of(count, figure).issue(&KEY, ROUNDS, 7, 0, right);
            assert_eq!(issued, Err(Refusal::ZeroBlock));
        }
    }
    for (length, least, most) in [(12, 10, 11), (18, 14, 17), (24, 18, 23)] {
        let key: Vec<u8> = (1..).take(length).collect();
        for rounds in least..=most {
            let issued = roll_at(1).issue(&key, rounds, 200, 0, READING);
            assert_eq!(number(issued), 14);
        }
    }
}

/// The old grant of contractor 7 with count 1 under KEY and ROUNDS.
fn old_grant(right: u8) -> Vec<u8> {
    old_zero_grant(&KEY, ROUNDS, 7, 1, right).expect("an allowed key")
}

/// Bytes 4 to 7 are the size block.
#[test]
fn an_old_grant_has_the_plain_bytes_as_written_by_hand() {
    for (length, rounds) in [(12, 10), (12, 11), (18, 14), (18, 17), (24, 18), (24, 23)] {
        let key: Vec<u8> = (1..).take(length).collect();
        let grant = old_zero_grant(&key, rounds, 200, 0x0203, 1).expect("an allowed key");
        let plain = [0, 200, 2, 3, 0, 0, 0, 0, 1, 0x47, 0x52, 0x44];
        assert_eq!(deciphered(&key, rounds, &grant), plain);
        let read = Grant::from_plain_bytes(&plain).expect("a whole grant");
        assert_eq!((read.contractor, read.count), (200, 0x0203));
        assert_eq!((read.block, read.right), (0, 1));
        assert_eq!(read.enciphered(&key, rounds), Ok(grant));
    }
    assert_eq!(old_grant(2), enciphered(&plain_with(&[(6, 0), (7, 0)])));
}

/// Whoever had it, and whichever the count and the right were: that is not known any more.
#[test]
fn an_old_grant_is_made_unless_the_key_or_the_rounds_are_wrong() {
    for (length, rounds, refused) in [(11, 10, 1), (0, 99, 1), (12, 9, 2), (12, 12, 2)] {
        let made = old_zero_grant(&KEY[..length], rounds, 7, 1, OVERWRITING);
        assert_eq!(number(made), refused);
    }
    for (contractor, count, right) in [(0, 0, 0), (201, 65_535, 255), (7, 2, 3)] {
        assert!(old_zero_grant(&KEY, ROUNDS, contractor, count, right).is_ok());
    }
}

/// On the roll on which it would open if its size block could be asked for. A grant for
/// another size block is refused with 14 as well, and neither with 9.
#[test]
fn an_old_grant_asked_for_0_is_refused_with_14_and_for_another_with_9() {
    let roll = roll_at(1);
    for right in [READING, OVERWRITING] {
        let old = old_grant(right);
        for asked in [READING, OVERWRITING] {
            let check = |grant: &[u8], block| roll.check(&KEY, ROUNDS, grant, block, asked);
            assert_eq!(check(&old, 0), Err(Refusal::ZeroBlock));
            for block in blocks_but_0() {
                assert_eq!(check(&old, block), Err(Refusal::OtherBlock));
            }
            assert_eq!(check(&enciphered(&PLAIN), 0), Err(Refusal::ZeroBlock));
        }
    }
}

/// What is asked for is looked at before the grant is: any 12 bytes are refused with 14.
#[test]
fn any_bytes_asked_for_0_are_refused_with_14() {
    let mut generator = Generator::new(56);
    for _ in 0..20 {
        let bytes = generator.bytes(12);
        let check = |block| roll_at(1).check(&KEY, ROUNDS, &bytes, block, READING);
        assert_eq!([number(check(0)), number(check(1))], [14, 8]);
    }
}

/// Nothing is written for 0. For 300, the old grants are answered with 9, and those before
/// and after them as ever.
#[test]
fn a_queue_with_old_grants_is_refused_for_0_and_answers_9_otherwise() {
    let [reading, overwriting] = [READING, OVERWRITING].map(old_grant);
    let new = enciphered(&PLAIN);
    let grants = [&reading[..], &new, &overwriting, &overwriting, &new].concat();
    let queue = |block, right| {
        let mut answers = [LENT; 6];
        let roll = roll_at(1);
        let called = roll.check_queue(&KEY, ROUNDS, &grants, block, right, &mut answers);
        (number(called), answers)
    };
    for right in [READING, OVERWRITING] {
        assert_eq!(queue(0, right), (14, [LENT; 6]));
        assert_eq!(queue(300, right), (0, [9, 0, 9, 9, 0, LENT]));
        assert_eq!(queue(1, right), (0, [9, 9, 9, 9, 9, LENT]));
    }
    assert_eq!(queue(0, 3), (7, [LENT; 6]));
}

/// Every reason for which a grant is answered, and none: what the grants are has no
/// bearing on a queue that is asked for 0. For 300 the same queue is accepted.
#[test]
fn no_grant_is_looked_at_in_a_queue_for_0() {
    for reason in [8, 9, 10, 20, 23, 25, 0] {
        for count in [1, 64] {
            let reasons = [14, reason];
            let granted = if reason == 10 { READING } else { OVERWRITING };
            let grants = grant_of(granted, &reasons).repeat(count);
            let mut answers = vec![LENT; count];
            let roll = roll_with(&reasons);
            let called = roll.check_queue(&KEY, ROUNDS, &grants, 0, 2, &mut answers);
            assert_eq!((number(called), answers), (14, vec![LENT; count]));
            let grants = grant_of(granted, &[reason]).repeat(count);
            let block = asked_block(&[reason]);
            let mut answers = vec![LENT; count];
            let called = roll.check_queue(&KEY, ROUNDS, &grants, block, 2, &mut answers);
            assert_eq!((number(called), answers), (0, vec![reason; count]));
        }
    }
}

/// Calls are drawn and made for contractors 7 and 8. An old grant with the count that 7 has
/// opens nothing, whatever they are, and the roll is what it would be without it. Meanwhile
/// 7 is issued grants for size block 1 as the model says.
#[test]
fn an_old_grant_never_opens_and_changes_no_entry() {
    let mut generator = Generator::new(57);
    let mut member = Member::default();
    let mut roll = Roll::new();
    let (mut issued, mut numbers) = (0, Vec::new());
    for _ in 0..150 {
        let drawn = Drawn::new(&mut generator, &[7, 7, 8]);
        drawn.make(&mut roll);
        if drawn.contractor == 7 {
            member.make(drawn);
        }
        let right = 1 + generator.byte() % 2;
        let (count, _) = member.entry();
        let old = old_zero_grant(&KEY, ROUNDS, 7, count, right).expect("an allowed key");
        for (block, refused) in [(0, 14), (1, 9), (256, 9)] {
            let checked = number(roll.check(&KEY, ROUNDS, &old, block, right));
            assert_eq!(checked, refused);
        }
        assert_eq!(number(roll.issue(&KEY, ROUNDS, 7, 0, right)), 14);
        assert_eq!(entry(&roll, 7), member.entry());
        let new = roll.issue(&KEY, ROUNDS, 7, 1, right);
        numbers.push(number(new.clone()));
        assert_eq!(number(new.clone()), member.issue(right));
        issued += new.map_or(0, |grant| opening_for_1(&roll, &grant, right));
    }
    numbers.sort_unstable();
    numbers.dedup();
    assert_eq!(numbers, [0, 20, 25]);
    assert!(issued > 20);
}

/// 1 if a grant opens for size block 1 and a right, otherwise 0.
fn opening_for_1(roll: &Roll, grant: &[u8], right: u8) -> usize {
    usize::from(roll.check(&KEY, ROUNDS, grant, 1, right).is_ok())
}
