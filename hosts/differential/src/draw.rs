//! Draws cases from a family: one that is right, or nearly so, and then spoilt in some arguments.

use crate::call::{Argument, Call};
use crate::case::Case;
use crate::expect::{needed, BLOCK_BYTES, OVERWRITING, QUEUE_GRANTS, READING};
use crate::family::{self, Family, Held};
use crate::holders;
use crate::oracle::{Oracle, Way};
use crate::paging;
use crate::random::Random;
use crate::rolls::{set_count, set_figure, FIGURES};
use crate::spoil::spoil;

/// How many arguments are spoilt: often none. Cases on pages are few, and are spoilt more.
const SPOILT: [usize; 10] = [0, 0, 0, 0, 0, 1, 1, 1, 2, 3];
const SPOILT_ON_PAGES: [usize; 10] = [0, 0, 0, 0, 1, 1, 2, 2, 3, 4];

/// How often each call is drawn from a family without pages.
const WEIGHTS: [(Call, usize); 19] = [
    (Call::Encipher, 10),
    (Call::Decipher, 10),
    (Call::PrepareEnciphering, 7),
    (Call::PrepareDeciphering, 7),
    (Call::Run, 12),
    (Call::Issue, 14),
    (Call::Check, 28),
    (Call::CheckQueue, 13),
    (Call::EmptyRoll, 3),
    (Call::Enter, 10),
    (Call::ChangeRight, 10),
    (Call::Withdraw, 8),
    (Call::Stage, 7),
    (Call::Subkey, 7),
    (Call::HolderMake, 5),
    (Call::HolderForward, 9),
    (Call::HolderBack, 9),
    (Call::HolderWalk, 14),
    (Call::HolderSubkey, 10),
];

/// The same for a family with pages.
const ON_PAGES: [(Call, usize); 2] = [(Call::SealPage, 2), (Call::OpenPage, 3)];

/// Draws a case.
pub fn draw(family: &Family, oracle: &mut Oracle, random: &mut Random) -> Case {
    let (weights, spoilt) = match family.pages.is_empty() {
        true => (&WEIGHTS[..], SPOILT),
        false => (&ON_PAGES[..], SPOILT_ON_PAGES),
    };
    let call = some_call(weights, random);
    let mut case = right_case(call, family, oracle, random);
    for _ in 0..random.pick(&spoilt) {
        let argument = random.pick(call.arguments());
        spoil(&mut case, argument, random);
    }
    let shared = match Call::ON_PAGES.contains(&call) {
        true => &case.second_key,
        false => &case.block,
    };
    case.shared = case.shared && case.key.starts_with(shared);
    case
}

fn some_call(weights: &[(Call, usize)], random: &mut Random) -> Call {
    let total = weights.iter().map(|pair| pair.1).sum();
    let mut left = random.below(total);
    for &(call, weight) in weights {
        if left < weight {
            return call;
        }
        left -= weight;
    }
    unreachable!("the weights add up to their sum")
}

/// A case in which no argument is wrong by itself, but now and then for size block 0. The roll may still
/// have its reasons.
fn right_case(call: Call, family: &Family, oracle: &mut Oracle, random: &mut Random) -> Case {
    let mut case = Case::new(call);
    match call {
        Call::Encipher | Call::Decipher => {
            with_key(&mut case, family, random);
            with_block(&mut case, family, random);
        }
        Call::PrepareEnciphering | Call::PrepareDeciphering => with_key(&mut case, family, random),
        Call::Run => with_list(&mut case, family, oracle, random),
        Call::Issue => with_request(&mut case, family, random),
        Call::Check => with_grant(&mut case, family, random),
        Call::CheckQueue => with_queue(&mut case, family, random),
        Call::EmptyRoll => {}
        Call::Enter => {
            with_roll(&mut case, family, random);
            case.right = random.pick(&[READING, OVERWRITING]);
        }
        Call::ChangeRight => with_standing(&mut case, family, random),
        Call::Withdraw => with_roll(&mut case, family, random),
        Call::Stage | Call::Subkey => {
            case.key = family.key.clone();
            case.stage = random.below(case.key.len()) as u32;
        }
        Call::HolderMake => case.key = family.key.clone(),
        Call::HolderForward | Call::HolderBack | Call::HolderSubkey => {
            case.holder = some_holder(family, oracle, random);
        }
        Call::HolderWalk => {
            case.holder = some_holder(family, oracle, random);
            case.stage = some_end(&case.holder, random);
        }
        Call::SealPage => paging::with_payload(&mut case, family, random),
        Call::OpenPage => paging::with_page(&mut case, family, oracle, random),
    }
    if call.arguments().contains(&Argument::Out) {
        case.out = needed(&case) as usize + some_rest(random);
    }
    case
}

/// The bytes that an output or a scratch has more than it needs: none, a few, or so many that a byte
/// cannot hold their number.
pub fn some_rest(random: &mut Random) -> usize {
    match random.below(8) {
        0 => 1,
        1 => random.below(40),
        2 => 244 + random.below(40),
        _ => 0,
    }
}

/// The key of the family, mostly with its round count.
fn with_key(case: &mut Case, family: &Family, random: &mut Random) {
    case.key = family.key.clone();
    case.rounds = family.rounds;
    if random.once_in(16) {
        case.rounds = family::right_rounds(case.key.len(), random);
    }
}

/// A block of the family, a new one, or the first bytes of the key in their own place.
fn with_block(case: &mut Case, family: &Family, random: &mut Random) {
    let new_once_in = if case.call == Call::Decipher { 6 } else { 2 };
    if random.once_in(20) {
        case.block = case.key[..BLOCK_BYTES].to_vec();
        case.shared = true;
    } else if random.once_in(new_once_in) {
        case.block = family::bytes(BLOCK_BYTES, random);
    } else {
        case.block = random.pick(&family.blocks);
    }
}

/// Any list, or one of the key's two, and a block.
fn with_list(case: &mut Case, family: &Family, oracle: &mut Oracle, random: &mut Random) {
    case.list = match random.below(8) {
        0 => oracle.list(Way::Encipher, &family.key, family.rounds),
        1 => oracle.list(Way::Decipher, &family.key, family.rounds),
        _ => family::bytes(12 * (11 + random.below(14)), random),
    };
    with_block_of(case, family, random);
}

fn with_block_of(case: &mut Case, family: &Family, random: &mut Random) {
    case.block = match random.below(2) {
        0 => random.pick(&family.blocks),
        _ => family::bytes(BLOCK_BYTES, random),
    };
}

/// A holder of the key at any of its stages, or one of any bytes.
fn some_holder(family: &Family, oracle: &mut Oracle, random: &mut Random) -> Vec<u8> {
    if random.once_in(4) {
        return family::some_holder(random);
    }
    let number = family::some_stage(family.key.len(), random);
    oracle.holder(&family.key, number)
}

/// A stage to which a holder can walk: often its own, half a turn away, or one step more.
fn some_end(holder: &[u8], random: &mut Random) -> u32 {
    let stages = holders::stage(holder).len();
    let forward = match random.below(8) {
        0 => 0,
        1 => stages / 2,
        2 => stages / 2 + 1,
        _ => random.below(stages),
    };
    (holders::number(holder) + forward as u32) % stages as u32
}

/// A roll and a contractor, often with a count near an end, and often with another figure.
fn with_roll(case: &mut Case, family: &Family, random: &mut Random) {
    case.roll = random.pick(&family.rolls);
    case.contractor = family::some_contractor(random);
    if random.once_in(2) {
        set_count(&mut case.roll, case.contractor, family::some_count(random));
    }
    if random.once_in(2) {
        let figure = family::some_figure(random);
        set_figure(&mut case.roll, case.contractor, figure);
    }
}

/// The same with someone who is mostly in standing, and a right for them.
fn with_standing(case: &mut Case, family: &Family, random: &mut Random) {
    with_roll(case, family, random);
    if !random.once_in(4) {
        let count = family::standing_count(random);
        set_count(&mut case.roll, case.contractor, count);
    }
    case.right = random.pick(&[READING, OVERWRITING]);
}

/// What an issue is asked for, mostly by someone in standing.
fn with_request(case: &mut Case, family: &Family, random: &mut Random) {
    with_key(case, family, random);
    with_standing(case, family, random);
    case.size_block = family::any_size_block(random);
}

/// A grant, as issued or tampered with, asked for its right or the other one, and the roll of its
/// issue, or another.
fn with_grant(case: &mut Case, family: &Family, random: &mut Random) {
    let held = &family.held[random.below(family.held.len())];
    with_key(case, family, random);
    case.size_block = asked_block(held, random);
    case.right = held.right;
    if random.once_in(4) {
        case.right = READING + OVERWRITING - held.right;
    }
    case.block = match random.below(3) {
        0 => random.pick(&held.tampered),
        _ => held.grant.clone(),
    };
    case.roll = some_roll(held, family, random);
}

/// The size block that is asked for of a grant: mostly the one that it names. If that is 0, it is another
/// one once in two times, and if it is another one, it is now and then 0.
fn asked_block(held: &Held, random: &mut Random) -> u32 {
    match held.size_block {
        0 if random.once_in(2) => family::some_size_block(random),
        _ if random.once_in(16) => 0,
        own => own,
    }
}

/// The roll of a grant's issue, that roll after changes, or one of the family. Then often the contractor
/// of the grant has another figure, or everyone has: each their own, or all the same, as on a roll of
/// counts to which figures were added.
fn some_roll(held: &Held, family: &Family, random: &mut Random) -> Vec<u8> {
    let times = match random.below(16) {
        0 => random.below(2000),
        _ => 1 + random.below(6),
    };
    let mut roll = match random.below(16) {
        0..=4 => family::changed(&held.roll, held.contractor, times, random),
        5 | 6 => family::changed(&held.roll, family::some_contractor(random), times, random),
        7 => random.pick(&family.rolls),
        _ => held.roll.clone(),
    };
    match random.below(8) {
        0..=3 => set_figure(&mut roll, held.contractor, family::some_figure(random)),
        4 => roll[FIGURES..].fill_with(|| family::some_figure(random)),
        5 => roll[FIGURES..].fill(family::some_figure(random)),
        _ => {}
    }
    roll
}

/// Some grants on one roll, asked for one size block, mostly that of the family's first grant, and for
/// either right.
fn with_queue(case: &mut Case, family: &Family, random: &mut Random) {
    let held = &family.held[0];
    case.key = family.key.clone();
    case.rounds = family.rounds;
    case.size_block = asked_block(held, random);
    case.right = random.pick(&[READING, OVERWRITING]);
    case.roll = some_roll(held, family, random);
    let mut grants: Vec<Vec<u8>> = match random.below(4) {
        0 => vec![some_queued(family, random); some_queue(random)],
        _ => (0..some_queue(random))
            .map(|_| some_queued(family, random))
            .collect(),
    };
    if let Some(place) = some_place(grants.len(), random) {
        grants[place] = match random.below(16) {
            0 => random.bytes(BLOCK_BYTES),
            _ => some_queued(family, random),
        };
    }
    case.block = grants.concat();
}

/// The number of grants in a queue: often none, one, two, or as many as there can be.
fn some_queue(random: &mut Random) -> usize {
    match random.below(16) {
        0 | 1 => 0,
        2..=4 => 1,
        5..=7 => 2,
        8 => QUEUE_GRANTS - 1,
        9 => QUEUE_GRANTS,
        10 | 11 => random.below(QUEUE_GRANTS + 1),
        _ => 3 + random.below(10),
    }
}

/// A place in a queue of so many grants, if it has one: often the first or the last.
fn some_place(grants: usize, random: &mut Random) -> Option<usize> {
    let place = match random.below(3) {
        0 => 0,
        1 => grants.saturating_sub(1),
        _ => random.below(grants),
    };
    (place < grants).then_some(place)
}

/// A grant for a queue around the family's first grant: that one, one that was made of it, one of
/// another roll, or one beside it. They belong to the family, and few have to be deciphered.
fn some_queued(family: &Family, random: &mut Random) -> Vec<u8> {
    let [held, other] = [&family.held[0], &family.held[1]];
    match random.below(8) {
        0 | 1 => held.grant.clone(),
        2 => held.tampered[0].clone(),
        3 => other.grant.clone(),
        _ => random.pick(&family.beside),
    }
}
