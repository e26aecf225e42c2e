//! What is expected of a call, against examples that were worked out by hand.

use gordzila_differential::call::Call;
use gordzila_differential::case::Case;
use gordzila_differential::expect::{expected, Effect, OVERWRITING, READING};
use gordzila_differential::opinion::second;
use gordzila_differential::oracle::{Oracle, Way};
use gordzila_differential::order::{name, number, read, LATE_11};
use gordzila_differential::rolls::{set_count, set_figure};
use gordzila_differential::tally::Line;

#[path = "expectations/pages.rs"]
mod pages;
#[path = "expectations/rights.rs"]
mod rights;
#[path = "expectations/zero.rs"]
mod zero;

/// Bytes from hex.
fn hex(text: &str) -> Vec<u8> {
    let digits: Vec<u32> = text
        .chars()
        .filter_map(|digit| digit.to_digit(16))
        .collect();
    digits
        .chunks(2)
        .map(|pair| (16 * pair[0] + pair[1]) as u8)
        .collect()
}

/// What is expected of a case, which a second opinion has to bear out where there is one.
fn effect(case: &Case) -> Effect {
    let effect = expected(case, &mut Oracle::new()).effect;
    if let Some(second) = second(case) {
        assert_eq!(second, effect, "{case}");
    }
    effect
}

fn answer(case: &Case) -> u64 {
    effect(case).answer
}

/// A case with the key 00 01 02 ..., as many bytes as said, and the block of the worked examples.
fn block_case(call: Call, key_length: u8, rounds: u32) -> Case {
    let mut case = Case::new(call);
    case.key = (0..key_length).collect();
    case.rounds = rounds;
    case.block = hex("00112233445566778899aabb");
    case.out = 12;
    case
}

/// A case on a holder with a key length, a stage number and the bytes that follow, with zeros after
/// them.
fn holder_case(call: Call, key_length: u8, number: u8, rest: &[u8]) -> Case {
    let mut case = Case::new(call);
    case.holder = [&[key_length, number], rest].concat();
    case.holder.resize(26, 0);
    case.out = 12;
    case
}

/// The calls on a holder.
const HOLDING: [Call; 4] = [
    Call::HolderForward,
    Call::HolderBack,
    Call::HolderWalk,
    Call::HolderSubkey,
];

/// A case on a roll on which contractor 7 has a count and may overwrite, and everyone else was never
/// entered.
fn roll_case(call: Call, contractor: u32, count: u16) -> Case {
    let mut case = block_case(call, 12, 10);
    case.roll = [vec![0; 400], vec![1; 200]].concat();
    set_count(&mut case.roll, 7, count);
    set_figure(&mut case.roll, 7, 2);
    case.contractor = contractor;
    case.size_block = 300;
    case.right = 2;
    case
}

#[test]
fn the_worked_examples_of_the_cipher() {
    let examples = [
        (12, 10, "6edf4c9cc8219ec403e58ec8"),
        (18, 14, "e4b4f601476b7acb9ff43006"),
        (24, 23, "98051dd95a030654913b231c"),
    ];
    for (key_length, rounds, result) in examples {
        let mut case = block_case(Call::Encipher, key_length, rounds);
        assert_eq!(effect(&case).written, hex(result));
        let block = std::mem::replace(&mut case.block, hex(result));
        case.call = Call::Decipher;
        assert_eq!(effect(&case).written, block);
    }
}

/// A case of a call in which no reason holds.
fn right(call: Call) -> Case {
    let mut case = match call {
        Call::Issue | Call::Check | Call::CheckQueue => roll_case(call, 7, 1),
        Call::ChangeRight | Call::Withdraw => roll_case(call, 7, 1),
        Call::Enter => roll_case(call, 7, 0),
        _ if HOLDING.contains(&call) => holder_case(call, 12, 0, &[1; 12]),
        _ if Call::ON_PAGES.contains(&call) => pages::page_case(call),
        _ => block_case(call, 12, 10),
    };
    match call {
        Call::PrepareEnciphering | Call::PrepareDeciphering => case.out = 132,
        Call::EmptyRoll => case.out = 600,
        Call::Stage => case.out = 24,
        Call::HolderMake => case.out = 26,
        Call::HolderWalk => case.stage = 7,
        Call::Run => case.list = vec![1; 132],
        Call::Check => case.block = effect(&right(Call::Issue)).written,
        Call::CheckQueue => {
            case.block = effect(&right(Call::Issue)).written.repeat(2);
            case.out = 2;
        }
        _ => {}
    }
    case
}

/// A grant for any contractor below 256, with any count below 256, any size block and any byte as its
/// right.
fn grant_for(contractor: u8, count: u8, size_block: u32, right: u8) -> Vec<u8> {
    let mut plain = [0, contractor, 0, count, 0, 0, 0, 0, right, 0x47, 0x52, 0x44];
    plain[4..8].copy_from_slice(&size_block.to_be_bytes());
    let key: Vec<u8> = (0..12).collect();
    Oracle::new().block(Way::Encipher, &key, 10, &plain)
}

/// The same for size block 300.
fn grant_of(contractor: u8, count: u8, right: u8) -> Vec<u8> {
    grant_for(contractor, count, 300, right)
}

/// The grant of a right check, but with any byte as its right.
fn grant_with(right: u8) -> Vec<u8> {
    grant_of(7, 1, right)
}

/// Makes a reason hold of a right case, and with it as few others as can be.
fn spoil(case: &mut Case, reason: u32) {
    match reason {
        1 if Call::ON_PAGES.contains(&case.call) => case.second_key = case.key.clone(),
        1 => case.key.push(0),
        2 => case.rounds = 99,
        3 if case.roll.is_empty() => case.block.push(0),
        3 => case.roll.push(0),
        4 => case.out = 0,
        5 if case.call == Call::Run => case.list.push(0),
        5 => case.stage = 99,
        6 => case.contractor = 201,
        7 => case.right = 3,
        8 => case.block[0] ^= 1,
        9 => case.size_block += 1,
        10 => case.block = grant_with(READING as u8),
        11 => case.block[8] ^= 1,
        12 => case.block.resize(493, 1),
        13 => case.block[511] ^= 1,
        14 => case.size_block = 0,
        LATE_11 => case.block = pages::filled_page(),
        20 => set_count(&mut case.roll, 7, 2),
        21 => set_count(&mut case.roll, 7, 1),
        22 => set_count(&mut case.roll, 7, 65_534),
        23 => set_count(&mut case.roll, 7, 3),
        24 => case.holder[1] = 12,
        25 => set_figure(&mut case.roll, 7, 1),
        other => panic!("{other} is no reason"),
    }
}

#[test]
fn a_right_case_is_done() {
    for call in Call::ALL {
        let done = match call {
            Call::Check => 2007,
            Call::HolderWalk => 2005,
            Call::OpenPage => 1 << 63 | 100 << 48 | 7 << 32 | 300,
            _ => 0,
        };
        assert_eq!(answer(&right(call)), done, "{}", call.name());
    }
}

#[test]
fn each_reason_can_hold() {
    for call in Call::ALL {
        for &reason in call.reasons() {
            let mut case = right(call);
            spoil(&mut case, reason);
            let found = expected(&case, &mut Oracle::new()).reasons;
            assert!(found.contains(&reason), "{case}: {reason}");
            assert_eq!(answer(&case), u64::from(number(found[0])), "{case}");
        }
    }
}

#[test]
fn of_two_reasons_the_one_that_comes_first_is_given() {
    for call in Call::ALL {
        for (first, other) in call.pairs() {
            let mut case = right(call);
            spoil(&mut case, other);
            spoil(&mut case, first);
            let found = expected(&case, &mut Oracle::new()).reasons;
            let both = found.contains(&first) && found.contains(&other);
            assert!(both, "{case}: {first} and {other}");
            assert_eq!(found[0], first, "{case}");
            assert_eq!(answer(&case), u64::from(number(first)), "{case}");
        }
    }
}

/// How many pairs there are, reckoned by hand. For each call the reasons make so many pairs, less
/// those of which one has no meaning where the other holds.
#[test]
fn so_many_pairs_of_reasons_can_hold_together() {
    let table = [
        (Call::Encipher, 6 - 1),
        (Call::Decipher, 6 - 1),
        (Call::PrepareEnciphering, 3 - 1),
        (Call::PrepareDeciphering, 3 - 1),
        (Call::Run, 3),
        (Call::Issue, 36 - 6),
        (Call::Check, 55 - 26),
        (Call::CheckQueue, 15 - 1),
        (Call::EmptyRoll, 0),
        (Call::Enter, 10 - 5),
        (Call::ChangeRight, 6 - 2),
        (Call::Withdraw, 3 - 2),
        (Call::Stage, 3 - 1),
        (Call::Subkey, 3 - 1),
        (Call::HolderMake, 1),
        (Call::HolderForward, 0),
        (Call::HolderBack, 0),
        (Call::HolderWalk, 1),
        (Call::HolderSubkey, 1),
        (Call::SealPage, 10),
        (Call::OpenPage, 15 - 2),
    ];
    for (call, pairs) in table {
        assert_eq!(call.pairs().len(), pairs, "{}", call.name());
    }
    let all: usize = Call::ALL.iter().map(|call| call.pairs().len()).sum();
    assert_eq!(all, 130);
}

#[test]
fn these_pairs_of_reasons_can_hold_of_a_queue_and_in_a_grant_of_it() {
    let queue = [
        (1, 3),
        (1, 4),
        (1, 7),
        (1, 14),
        (2, 3),
        (2, 4),
        (2, 7),
        (2, 14),
        (3, 4),
        (3, 7),
        (3, 14),
        (4, 7),
        (4, 14),
        (7, 14),
    ];
    assert_eq!(Call::CheckQueue.pairs(), queue);
    let in_a_grant = [
        (9, 10),
        (9, 20),
        (9, 23),
        (9, 25),
        (10, 20),
        (10, 23),
        (10, 25),
        (20, 23),
        (20, 25),
        (23, 25),
    ];
    assert_eq!(Line::Queued.pairs(), in_a_grant);
}

#[test]
fn the_table_of_orders_is_read() {
    let table = "# call | by value | in C\n\nlend | 2 1 2 | same\nturn | - | 10 3 2\n";
    assert_eq!(read(table, "lend"), [2, 1, 102]);
    assert_eq!(read(table, "turn"), [10, 3, 2]);
    for broken in [
        "lend | 1 2",
        "lend | 1 100 | same",
        "lend | 1 x | same",
        "lend | 1 | -",
        "send | 1 | 1",
    ] {
        let read = std::panic::catch_unwind(|| read(broken, "lend"));
        assert!(read.is_err(), "{broken}");
    }
}

/// What stands a second time in an order is another reason, and is given by the same number.
#[test]
fn a_late_reason_has_a_name_of_its_own() {
    assert_eq!(Call::OpenPage.reasons(), [1, 2, 4, 11, 13, LATE_11]);
    assert_eq!([11, LATE_11].map(number), [11, 11]);
    assert_eq!([11, LATE_11].map(name), ["11", "late 11"]);
}

#[test]
fn round_counts_are_those_of_the_table() {
    for (key_length, allowed) in [(12, 10..=11), (18, 14..=17), (24, 18..=23)] {
        for rounds in (0..300).chain([65_546, u32::MAX]) {
            let case = block_case(Call::Encipher, key_length, rounds);
            let right = if allowed.contains(&rounds) { 0 } else { 2 };
            let found = expected(&case, &mut Oracle::new()).effect.answer;
            assert_eq!(found, right, "{case}");
        }
    }
}

#[test]
fn a_list_needs_its_bytes() {
    let mut case = block_case(Call::PrepareEnciphering, 24, 23);
    case.out = 287;
    assert_eq!(answer(&case), 4);
    case.out = 288;
    assert_eq!(effect(&case).written.len(), 288);
}

#[test]
fn the_engine_takes_lists_of_132_to_288_bytes() {
    for length in 0..400 {
        let mut case = block_case(Call::Run, 0, 0);
        case.list = vec![1; length];
        let right = (11..=24).any(|subkeys| 12 * subkeys == length);
        assert_eq!(answer(&case), if right { 0 } else { 5 }, "{length}");
    }
}

#[test]
fn the_engine_over_a_prepared_list_enciphers() {
    let mut case = block_case(Call::Run, 0, 0);
    let mut prepare = block_case(Call::PrepareEnciphering, 24, 23);
    prepare.out = 288;
    case.list = effect(&prepare).written;
    assert_eq!(effect(&case).written, hex("98051dd95a030654913b231c"));
}

#[test]
fn stages_and_subkeys() {
    let mut case = block_case(Call::Stage, 12, 0);
    case.key = hex("c67e816b4bfbe2fb54f6bddf");
    case.out = 24;
    let stage = hex("c67e816b4bfbe2fb54f6bddf000000000000000000000000");
    assert_eq!(effect(&case).written, stage);
    case.call = Call::Subkey;
    assert_eq!(effect(&case).written, hex("d07e812a4bfb24fb546abddf"));
    case.stage = 12;
    assert_eq!(answer(&case), 5);
    case.stage = 11;
    case.out = 11;
    assert_eq!(answer(&case), 4);
}

/// Stage 1 of a key of zeros: S-box entries 0 to 3 are ba, 54, 2f and 74, in row 0; 1c times these,
/// in the field of 14d, is 13, 53, e3 and 04, and is added to all three rows.
#[test]
fn a_holder_of_a_key_of_zeros_by_hand() {
    let stage = hex("a91313 075353 cce3e3 700404");
    let case = holder_case(Call::HolderForward, 12, 0, &[]);
    let next = holder_case(Call::HolderBack, 12, 1, &stage);
    assert_eq!(effect(&case).holder, next.holder);
    assert_eq!(effect(&next).holder, case.holder);
    let subkey = holder_case(Call::HolderSubkey, 12, 1, &stage);
    let written = hex("8b1313 4d5353 30e3e3 0c0404");
    assert_eq!(effect(&subkey).written, written);
    assert_eq!(effect(&subkey).holder, next.holder);
}

#[test]
fn a_holder_is_made_at_stage_0() {
    for key_length in [12, 18, 24] {
        let mut case = block_case(Call::HolderMake, key_length, 0);
        let made = holder_case(Call::HolderMake, key_length, 0, &case.key);
        case.out = 26;
        assert_eq!(effect(&case).written, made.holder);
        case.out = 25;
        assert_eq!(answer(&case), 4);
        case.key.push(0);
        assert_eq!(answer(&case), 1);
    }
}

/// Walks from one stage of a key length to another, each with its answer.
#[test]
fn walks_by_hand() {
    let table = [
        (12, 0, 0, 1000),
        (12, 0, 1, 1001),
        (12, 0, 6, 1006),
        (12, 0, 7, 2005),
        (12, 0, 11, 2001),
        (12, 11, 0, 1001),
        (12, 11, 5, 1006),
        (12, 11, 6, 2005),
        (12, 5, 5, 1000),
        (18, 0, 9, 1009),
        (18, 0, 10, 2008),
        (18, 17, 8, 1009),
        (18, 17, 9, 2008),
        (18, 9, 0, 1009),
        (18, 10, 0, 1008),
        (24, 0, 12, 1012),
        (24, 0, 13, 2011),
        (24, 23, 23, 1000),
        (24, 23, 11, 1012),
        (24, 23, 12, 2011),
        (24, 2, 1, 2001),
    ];
    for (key_length, from, to, right) in table {
        let mut case = holder_case(Call::HolderWalk, key_length, from, &[7; 12]);
        case.stage = to;
        assert_eq!(answer(&case), right, "{case}");
        assert_eq!(effect(&case).holder[..2], [key_length, to as u8], "{case}");
        for past in [u32::from(key_length), 99, to + 256, to + 65_536, u32::MAX] {
            case.stage = past;
            assert_eq!(answer(&case), 5, "{case}");
            assert_eq!(effect(&case).holder, case.holder, "{case}");
        }
    }
}

#[test]
fn a_full_turn_comes_home_and_a_walk_is_its_steps() {
    for key_length in [12, 18, 24] {
        let bytes: Vec<u8> = (0..key_length).collect();
        let mut case = holder_case(Call::HolderForward, key_length, 3, &bytes);
        let first = case.holder.clone();
        for step in 1..=u32::from(key_length) {
            let before = case.holder.clone();
            case.holder = effect(&case).holder;
            let mut back = case.clone();
            back.call = Call::HolderBack;
            assert_eq!(effect(&back).holder, before, "{back}");
            let mut walk = holder_case(Call::HolderWalk, key_length, 3, &bytes);
            walk.stage = (3 + step) % u32::from(key_length);
            assert_eq!(effect(&walk).holder, case.holder, "{walk}");
        }
        assert_eq!(case.holder, first);
    }
}

#[test]
fn a_holder_is_at_the_stage_of_its_key() {
    for key_length in [12, 18, 24] {
        for number in 0..key_length {
            let mut stage = block_case(Call::Stage, key_length, 0);
            stage.stage = u32::from(number);
            stage.out = 24;
            let mut walk = holder_case(Call::HolderWalk, key_length, 0, &stage.key);
            walk.stage = u32::from(number);
            let walked = effect(&walk).holder;
            let right = [vec![key_length, number], effect(&stage).written].concat();
            assert_eq!(walked, right, "{walk}");
            stage.call = Call::Subkey;
            walk.call = Call::HolderSubkey;
            walk.holder = walked;
            assert_eq!(effect(&walk).written, effect(&stage).written, "{walk}");
        }
    }
}

/// Whether every call refuses a holder with 24, and leaves it as it is; or none does.
fn is_broken(holder: &[u8]) -> bool {
    let refuses = |&call: &Call| {
        let mut case = holder_case(call, 0, 0, &[]);
        case.holder = holder.to_vec();
        let effect = effect(&case);
        let refused = effect.answer == 24;
        assert!(!refused || effect.holder == holder && effect.written.is_empty());
        refused
    };
    let refusing = HOLDING.iter().filter(|call| refuses(call)).count();
    assert!(refusing == 0 || refusing == HOLDING.len(), "{holder:?}");
    refusing > 0
}

#[test]
fn a_holder_names_the_length_of_a_key() {
    for key_length in 0..=255 {
        let case = holder_case(Call::HolderForward, key_length, 0, &[1; 12]);
        let right = [12, 18, 24].contains(&key_length);
        assert_eq!(is_broken(&case.holder), !right, "{case}");
    }
}

#[test]
fn a_holder_is_at_a_stage_below_its_keys_length() {
    for key_length in [12, 18, 24] {
        for number in 0..=255 {
            let case = holder_case(Call::HolderForward, key_length, number, &[1; 12]);
            assert_eq!(is_broken(&case.holder), number >= key_length, "{case}");
        }
    }
}

#[test]
fn a_holder_has_zeros_past_its_key() {
    for key_length in [12, 18, 24] {
        for place in 2..26 {
            let mut case = holder_case(Call::HolderForward, key_length, 1, &[]);
            case.holder[place] = 0x80;
            let past = place >= 2 + usize::from(key_length);
            assert_eq!(is_broken(&case.holder), past, "{case}");
        }
    }
}

#[test]
fn a_holder_has_26_bytes() {
    for length in (0..100).chain([282, 65_562]) {
        let mut case = holder_case(Call::HolderForward, 12, 0, &[1; 12]);
        case.holder.resize(length, 0);
        assert_eq!(is_broken(&case.holder), length != 26, "{case}");
    }
}

/// What is wrong in a holder does not keep a stage from being past the key that it names, if it
/// names one.
#[test]
fn a_broken_holder_and_a_stage_past_its_key() {
    let mut case = holder_case(Call::HolderWalk, 18, 18, &[]);
    case.stage = 18;
    assert_eq!(expected(&case, &mut Oracle::new()).reasons, [24, 5]);
    case.stage = 17;
    assert_eq!(expected(&case, &mut Oracle::new()).reasons, [24]);
    case.holder[..2].copy_from_slice(&[12, 0]);
    case.holder[25] = 1;
    assert_eq!(expected(&case, &mut Oracle::new()).reasons, [24, 5]);
    case.holder[0] = 13;
    assert_eq!(expected(&case, &mut Oracle::new()).reasons, [24]);
    case.holder.push(0);
    case.holder[0] = 12;
    assert_eq!(expected(&case, &mut Oracle::new()).reasons, [24]);
}

#[test]
fn no_other_number_is_that_of_a_contractor() {
    for contractor in [0, 201, 256, 263, 65_536, 65_543, 7 << 16, u32::MAX] {
        for call in [Call::Enter, Call::ChangeRight, Call::Withdraw, Call::Issue] {
            assert_eq!(answer(&roll_case(call, contractor, 1)), 6);
        }
    }
}

/// A check of a grant with any byte as its right, for any right.
fn check_case(in_grant: u8, asked: u32) -> Case {
    let mut case = right(Call::Check);
    case.block = grant_with(in_grant);
    case.right = asked;
    case
}

#[test]
fn what_is_issued_is_the_grant_of_a_check() {
    for asked in [READING, OVERWRITING] {
        let mut case = right(Call::Issue);
        case.right = asked;
        assert_eq!(effect(&case).written, grant_with(asked as u8));
    }
}

/// The right in the grant, the right asked for, and the answer.
#[test]
fn each_right_in_a_grant_and_each_right_asked_for() {
    let table = [
        (1, 1, 1007),
        (1, 2, 10),
        (2, 1, 1007),
        (2, 2, 2007),
        (0, 1, 8),
        (0, 2, 8),
        (3, 1, 8),
        (3, 2, 8),
        (129, 1, 8),
        (130, 2, 8),
        (255, 1, 8),
        (255, 2, 8),
    ];
    for (in_grant, asked, right) in table {
        assert_eq!(answer(&check_case(in_grant, asked)), right, "{in_grant}");
    }
    for in_grant in [0, 1, 2, 3, 255] {
        for asked in [0, 3, 255, 256, 257, 258, 65_538, u32::MAX] {
            assert_eq!(answer(&check_case(in_grant, asked)), 7, "{asked}");
        }
    }
}

/// 10 holds of a reading grant that is asked for overwriting, and of no other, whatever else holds.
#[test]
fn ten_holds_only_where_overwriting_is_asked_of_a_reading_grant() {
    let table: [(u8, u32, &[u32]); 8] = [
        (1, 1, &[9, 20, 23]),
        (1, 2, &[9, 10, 20, 23]),
        (2, 1, &[9, 20, 23]),
        (2, 2, &[9, 20, 23]),
        (1, 3, &[7, 9, 20, 23]),
        (2, 0, &[7, 9, 20, 23]),
        (0, 2, &[8]),
        (3, 3, &[7, 8]),
    ];
    for (in_grant, asked, reasons) in table {
        let mut case = check_case(in_grant, asked);
        case.size_block = 301;
        set_count(&mut case.roll, 7, 2);
        let found = expected(&case, &mut Oracle::new()).reasons;
        assert_eq!(found, reasons, "{in_grant}, asked for {asked}");
        assert_eq!(answer(&case), u64::from(reasons[0]));
    }
}

/// A queue of so many grants of contractor 7 that open, asked for overwriting, with so many bytes for
/// the answers.
fn queue_case(grants: usize, out: usize) -> Case {
    let mut case = right(Call::CheckQueue);
    case.block = grant_with(OVERWRITING as u8).repeat(grants);
    case.out = out;
    case
}

/// A contractor, a count and a right in a grant, and its byte if reading is asked for, and if
/// overwriting is. On the roll contractor 7 has count 1, 8 has 2, 9 has 3, 10 has 5, 11 has 7, 12 has
/// 9, 13 has 11, and others have 0; 7 and 9 may overwrite, 10 has figure 3, 12 has 0, 13 has 255, and
/// others have 1.
const QUEUED: [(u8, u8, u8, u8, u8); 21] = [
    (7, 1, 1, 0, 10),
    (7, 1, 2, 0, 0),
    (7, 1, 3, 8, 8),
    (8, 2, 2, 20, 20),
    (8, 2, 1, 20, 10),
    (9, 1, 2, 23, 23),
    (9, 3, 2, 0, 0),
    (9, 3, 1, 0, 10),
    (0, 1, 1, 8, 8),
    (201, 1, 1, 8, 8),
    (200, 0, 2, 20, 20),
    (7, 3, 1, 23, 10),
    (10, 5, 2, 0, 25),
    (10, 3, 2, 23, 23),
    (10, 5, 1, 0, 10),
    (11, 7, 2, 0, 25),
    (11, 7, 1, 0, 10),
    (11, 5, 2, 23, 23),
    (11, 7, 3, 8, 8),
    (12, 9, 2, 0, 25),
    (13, 11, 2, 0, 25),
];

/// The queue of these grants, asked for a right, and the bytes that it has to get.
fn mixed_queue(asked: u32) -> (Case, Vec<u8>) {
    let mut case = queue_case(0, QUEUED.len() + 1);
    let grants = QUEUED.map(|(contractor, count, right, ..)| grant_of(contractor, count, right));
    case.block = grants.concat();
    case.right = asked;
    for (contractor, count, figure) in [
        (8, 2, 1),
        (9, 3, 2),
        (10, 5, 3),
        (11, 7, 1),
        (12, 9, 0),
        (13, 11, 255),
    ] {
        set_count(&mut case.roll, contractor, count);
        set_figure(&mut case.roll, contractor, figure);
    }
    let bytes = QUEUED.map(|(.., reading, overwriting)| match asked {
        READING => reading,
        _ => overwriting,
    });
    (case, bytes.to_vec())
}

#[test]
fn a_queue_by_hand() {
    for asked in [READING, OVERWRITING] {
        let (mut case, bytes) = mixed_queue(asked);
        assert_eq!(effect(&case).answer, 0);
        assert_eq!(effect(&case).written, bytes);
        // In the opposite order, and for another size block, where only 8 comes before 9.
        case.block = case.block.rchunks(12).collect::<Vec<_>>().concat();
        let turned: Vec<u8> = bytes.iter().rev().copied().collect();
        assert_eq!(effect(&case).written, turned);
        case.size_block += 1;
        let elsewhere = turned.iter().map(|&byte| if byte == 8 { 8 } else { 9 });
        assert_eq!(effect(&case).written, elsewhere.collect::<Vec<_>>());
    }
}

#[test]
fn each_byte_of_a_queue_is_what_the_single_check_says() {
    for asked in [READING, OVERWRITING] {
        let (queue, bytes) = mixed_queue(asked);
        let mut case = queue.clone();
        case.call = Call::Check;
        for (grant, byte) in queue.block.chunks(12).zip(bytes) {
            case.block = grant.to_vec();
            match answer(&case) {
                1000.. => assert_eq!(byte, 0, "{case}"),
                refusal => assert_eq!(u64::from(byte), refusal, "{case}"),
            }
        }
    }
}

/// All reasons of the grants in a queue, and not only those that are given.
#[test]
fn the_reasons_of_each_grant_in_a_queue() {
    let (mut case, _) = mixed_queue(OVERWRITING);
    case.size_block += 1;
    let found = expected(&case, &mut Oracle::new()).grants;
    assert_eq!(found[0], [9, 10]);
    assert_eq!(found[2], [8]);
    assert_eq!(found[4], [9, 10, 20, 25]);
    assert_eq!(found[11], [9, 10, 23]);
    assert_eq!(found[12], [9, 25]);
    assert_eq!(found[15], [9, 25]);
    assert_eq!(found[16], [9, 10, 25]);
    assert_eq!(found[18], [8]);
    case.size_block -= 1;
    set_count(&mut case.roll, 7, 2);
    let found = expected(&case, &mut Oracle::new()).grants;
    assert_eq!(found[0], [10, 20, 23]);
    assert_eq!(found[1], [20, 23]);
    assert_eq!(found[6], []);
    assert_eq!(found[13], [23, 25]);
    assert_eq!(found[14], [10, 25]);
    assert_eq!(found[15], [25]);
    assert_eq!(found[16], [10, 25]);
    assert_eq!(found[17], [23, 25]);
    assert_eq!(found[19], [25]);
    assert_eq!(found[20], [25]);
}

#[test]
fn a_queue_has_0_to_64_whole_grants() {
    let oracle = &mut Oracle::new();
    for length in (0..=800).chain([1024, 3072, 3084, 65_548]) {
        let mut case = queue_case(6000, 6000);
        case.block.truncate(length);
        let right = length % 12 == 0 && length <= 768;
        let effect = expected(&case, oracle).effect;
        assert_eq!(effect.answer, if right { 0 } else { 3 }, "{length}");
        let grants = if right { length / 12 } else { 0 };
        assert_eq!(effect.written, vec![0; grants], "{length}");
    }
}

/// So many grants, so many bytes for the answers, and all reasons that hold.
#[test]
fn a_queue_needs_a_byte_for_each_grant() {
    let table: [(usize, usize, &[u32]); 14] = [
        (0, 0, &[]),
        (0, 1, &[]),
        (1, 0, &[4]),
        (1, 1, &[]),
        (2, 1, &[4]),
        (2, 2, &[]),
        (2, 24, &[]),
        (64, 0, &[4]),
        (64, 63, &[4]),
        (64, 64, &[]),
        (64, 320, &[]),
        (65, 64, &[3, 4]),
        (65, 65, &[3]),
        (65, 780, &[3]),
    ];
    for (grants, out, reasons) in table {
        let case = queue_case(grants, out);
        let found = expected(&case, &mut Oracle::new()).reasons;
        assert_eq!(found, reasons, "{grants} and {out}");
        let effect = effect(&case);
        assert_eq!(effect.answer, reasons.first().map_or(0, |&one| one.into()));
        let written = if reasons.is_empty() { grants } else { 0 };
        assert_eq!(effect.written, vec![0; written], "{grants} and {out}");
    }
}

/// What is wrong with a queue of no grants is refused all the same.
#[test]
fn a_queue_of_no_grants_is_tried_too() {
    for (reason, out) in [(1, 0), (2, 0), (3, 0), (7, 0), (7, 1), (14, 0), (14, 1)] {
        let mut case = queue_case(0, out);
        assert_eq!(answer(&case), 0);
        spoil(&mut case, reason);
        assert_eq!(answer(&case), u64::from(reason), "{case}");
    }
    for asked in [0, 3, 255, 256, 257, 258, 65_538, u32::MAX] {
        for grants in [0, 1, 64] {
            let mut case = queue_case(grants, 64);
            case.right = asked;
            assert_eq!(answer(&case), 7, "{case}");
        }
    }
}

#[test]
fn a_roll_of_another_length_is_refused_with_3_before_4() {
    for length in [0, 1, 399, 400, 401, 599, 601, 1000] {
        let mut case = queue_case(2, 1);
        case.roll.resize(length, 0);
        case.right = 3;
        let found = expected(&case, &mut Oracle::new()).reasons;
        assert_eq!(found, [3, 4, 7], "{length}");
        assert_eq!(answer(&case), 3, "{length}");
    }
}
