//! Spoils one argument of a case: it is mostly wrong after that, and now and then only different.

use crate::call::{Argument, Call};
use crate::case::Case;
use crate::expect::{needed, BLOCK_BYTES, QUEUE_GRANTS};
use crate::family::{self, one_bit_changed};
use crate::holders::HOLDER_BYTES;
use crate::paging;
use crate::random::Random;
use crate::rolls::ROLL_BYTES;

/// Lengths of no key. The last one differs from 12 by 256.
const KEY_LENGTHS: [usize; 10] = [0, 1, 11, 13, 17, 19, 23, 25, 32, 268];

/// Lengths of no roll: none, parts of one, its counts alone, and more than one. Of 88, 856 and the last
/// one, the lowest 8 or 16 bits are those of 600.
const ROLL_LENGTHS: [usize; 13] = [
    0, 1, 88, 200, 399, 400, 401, 598, 599, 601, 602, 856, 66_136,
];

/// Lengths of no holder. The last two differ from 26 by 256 and by 65,536.
const HOLDER_LENGTHS: [usize; 7] = [0, 1, 24, 25, 27, 282, 65_562];

/// What a holder names as the length of its key: lengths of no key, and the three of keys.
const NAMED_LENGTHS: [u8; 11] = [0, 11, 13, 17, 19, 23, 25, 255, 12, 18, 24];

/// Lengths of no block and no grant. The last two differ from 12 by 256 and by 65,536.
const BLOCK_LENGTHS: [usize; 8] = [0, 1, 11, 13, 16, 24, 268, 65_548];

/// Lengths of no queue: bytes that are not whole grants, and more than 64 grants. Of the last four,
/// the number of bytes or that of grants is right if it is cut to 8 or 16 bits.
const QUEUE_LENGTHS: [usize; 12] = [1, 6, 11, 13, 767, 769, 775, 792, 1024, 3072, 3084, 65_548];

/// Lengths of no list. The last two differ from 132 by 256 and by 65,536.
const LIST_LENGTHS: [usize; 14] = [
    0, 1, 12, 24, 120, 131, 133, 143, 145, 287, 289, 300, 388, 65_668,
];

/// Spoils an argument.
pub fn spoil(case: &mut Case, argument: Argument, random: &mut Random) {
    match argument {
        Argument::Key if Call::ON_PAGES.contains(&case.call) => {
            paging::spoil_first_key(case, random);
        }
        Argument::Key => spoil_key(case, random),
        Argument::SecondKey => paging::spoil_second_key(case, random),
        Argument::Rounds => case.rounds = other_rounds(case.rounds, random),
        Argument::Stage => case.stage = other_stage(case, random),
        Argument::Roll => {
            let length = random.pick(&ROLL_LENGTHS);
            resize(&mut case.roll, length, random);
        }
        Argument::Holder => spoil_holder(&mut case.holder, random),
        Argument::List => spoil_list(case, random),
        Argument::Block | Argument::Grant => {
            let length = random.pick(&BLOCK_LENGTHS);
            resize(&mut case.block, length, random);
        }
        Argument::Grants => spoil_queue(case, random),
        Argument::Contractor => case.contractor = other_contractor(random),
        Argument::SizeBlock => case.size_block = other_size_block(case.size_block, random),
        Argument::Right => case.right = other_right(case.right, random),
        Argument::PageNumber => {
            case.page_number = paging::other_page_number(case.page_number, random);
        }
        Argument::Payload => paging::spoil_payload(&mut case.block, random),
        Argument::Page => paging::spoil_page(&mut case.block, random),
        Argument::Scratch => case.scratch = paging::shorter_scratch(random),
        Argument::Out => case.out = shorter_output(case, random),
    }
}

/// A key of a wrong length, of another right length, or with one bit changed.
fn spoil_key(case: &mut Case, random: &mut Random) {
    if case.key.is_empty() || random.below(16) > 1 {
        let length = random.pick(&KEY_LENGTHS);
        resize(&mut case.key, length, random);
    } else if random.once_in(2) {
        let length = random.pick(&[12, 18, 24]);
        resize(&mut case.key, length, random);
    } else {
        case.key = one_bit_changed(&case.key, 0..8 * case.key.len(), random);
    }
}

/// Cuts bytes, or adds random ones. Those that are long for no other reason end in one byte, to
/// save time.
pub fn resize(bytes: &mut Vec<u8>, length: usize, random: &mut Random) {
    let grown = length.saturating_sub(bytes.len());
    bytes.truncate(length);
    if grown < 1000 {
        bytes.extend(random.bytes(grown));
    } else {
        bytes.resize(length, random.byte());
    }
}

/// A round count in or around the table, or a huge one.
fn other_rounds(rounds: u32, random: &mut Random) -> u32 {
    match random.below(10) {
        0..=3 => random.below(28) as u32,
        4 => 266,
        5 => u32::MAX,
        6 => random.word(),
        7 => rounds ^ (1 << random.below(32)),
        _ => rounds.wrapping_add(random.pick(&[1 << 8, 1 << 16, 1 << 24, 1 << 31])),
    }
}

/// A stage at the end or past it, or a huge number.
fn other_stage(case: &Case, random: &mut Random) -> u32 {
    let turn = match case.call {
        Call::HolderWalk => case.holder.first().map_or(0, |&length| u32::from(length)),
        _ => case.key.len() as u32,
    };
    match random.below(8) {
        0 => turn,
        1 => turn + 1,
        2 => random.pick(&[11, 12, 17, 18, 23, 24, 25]),
        3 => u32::MAX,
        4 => random.word(),
        5 => case.stage.wrapping_add(turn),
        _ => case
            .stage
            .wrapping_add(random.pick(&[1 << 8, 1 << 16, 1 << 24, 1 << 31])),
    }
}

/// A holder of a wrong length, one with another key length, number or byte past the key, or one with
/// one bit changed, of the first two bytes or of all.
fn spoil_holder(holder: &mut Vec<u8>, random: &mut Random) {
    let fault = random.below(10);
    if holder.len() < HOLDER_BYTES || fault < 2 {
        let length = random.pick(&HOLDER_LENGTHS);
        return resize(holder, length, random);
    }
    match fault {
        2 | 3 => holder[0] = other_length(holder[0], random),
        4 | 5 => holder[1] = other_number(holder, random),
        6 | 7 if holder[0] < 24 => {
            let place = past_key(holder[0], random);
            holder[place] = 1 + random.below(255) as u8;
        }
        _ => {
            let bits = random.pick(&[16, 8 * HOLDER_BYTES]);
            *holder = one_bit_changed(holder, 0..bits, random);
        }
    }
}

/// What a holder names as the length of its key: one byte more or less, or another length.
fn other_length(length: u8, random: &mut Random) -> u8 {
    match random.below(4) {
        0 => length.wrapping_add(1),
        1 => length.wrapping_sub(1),
        _ => random.pick(&NAMED_LENGTHS),
    }
}

/// A place past a key of fewer than 24 bytes in a holder, often the first or the last.
fn past_key(length: u8, random: &mut Random) -> usize {
    let first = 2 + usize::from(length);
    match random.below(6) {
        0 => first,
        1 => HOLDER_BYTES - 1,
        _ => first + random.below(HOLDER_BYTES - first),
    }
}

/// The number of a stage at the end or past it, for a holder.
fn other_number(holder: &[u8], random: &mut Random) -> u8 {
    let turn = holder[0];
    match random.below(6) {
        0 => turn,
        1 => turn.wrapping_add(1),
        2 => random.pick(&[11, 12, 17, 18, 23, 24, 25]),
        3 => u8::MAX,
        4 => random.byte(),
        _ => holder[1] ^ 0x80,
    }
}

/// A list of a wrong length, or mostly so.
fn spoil_list(case: &mut Case, random: &mut Random) {
    let length = match random.below(3) {
        0 => random.below(400),
        _ => random.pick(&LIST_LENGTHS),
    };
    resize(&mut case.list, length, random);
}

/// A queue of a wrong length, or mostly so, often of one grant too many. Where it grows, its bytes
/// come again. Once in two times the output grows or shrinks with it.
fn spoil_queue(case: &mut Case, random: &mut Random) {
    let own = case.block.len();
    let length = match random.below(8) {
        0..=2 => BLOCK_BYTES * (QUEUE_GRANTS + 1),
        3 => own + 1,
        4 => own.saturating_sub(1),
        5 => own + BLOCK_BYTES,
        _ => random.pick(&QUEUE_LENGTHS),
    };
    match own {
        0 => resize(&mut case.block, length, random),
        _ => case.block = case.block.iter().copied().cycle().take(length).collect(),
    }
    if random.once_in(2) {
        case.out = needed(case) as usize;
    }
}

/// A number that is mostly that of no contractor.
fn other_contractor(random: &mut Random) -> u32 {
    let contractor = family::some_contractor(random);
    match random.below(10) {
        0 => 0,
        1 | 2 => 201,
        3 => (1 << 16) + contractor,
        4 => (1 << 8) + contractor,
        5 => contractor << 16,
        6 => u32::MAX,
        7 => random.word(),
        8 => 201 + random.below(56) as u32,
        _ => contractor,
    }
}

/// Size block 0, another one, or one that differs in one bit.
fn other_size_block(size_block: u32, random: &mut Random) -> u32 {
    match random.below(8) {
        0..=2 => 0,
        3 => size_block.wrapping_add(1),
        4 => size_block.swap_bytes(),
        5 | 6 => size_block ^ (1 << random.below(32)),
        _ => family::some_size_block(random),
    }
}

/// The other right, or something that is none.
fn other_right(right: u32, random: &mut Random) -> u32 {
    match random.below(8) {
        0..=2 => 3_u32.wrapping_sub(right),
        3 => random.below(4) as u32,
        4 => right.wrapping_add(1 << 8),
        5 => right.wrapping_add(1 << 16),
        6 => random.pick(&[0, 3, 257, u32::MAX]),
        _ => random.word(),
    }
}

/// The length of an output that is too short. None is for a queue of no grants. No output that is
/// written to has more bytes than a roll, but with a huge round count a call would need more.
fn shorter_output(case: &Case, random: &mut Random) -> usize {
    let needed = needed(case).min(ROLL_BYTES as u64) as usize;
    match random.below(4) {
        0 => 0,
        1 => 1,
        2 => needed.saturating_sub(1),
        _ => random.below(needed),
    }
}
