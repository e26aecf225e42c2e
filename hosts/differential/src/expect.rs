//! What a call has to answer and to write, worked out from the header's words without the library.

use std::ops::RangeInclusive;

use curupira_reference::roll::Grant;

use crate::call::Call;
use crate::case::Case;
use crate::holders::{self, HOLDER_BYTES};
use crate::oracle::{Oracle, Way};
use crate::order::{number, LATE_11};
use crate::pages::{self, Keys, PAGE_BYTES, PAYLOAD_BYTES, SCRATCH_BYTES};
use crate::rolls::{self, count, figure, in_standing, is_contractor, may_overwrite, ROLL_BYTES};

/// The bytes of a block, and of a grant.
pub const BLOCK_BYTES: usize = 12;

/// The most grants in a queue.
pub const QUEUE_GRANTS: usize = 64;

/// The bytes of a stage.
pub const STAGE_BYTES: usize = 24;

/// The lengths of a subkey list.
const LIST_LENGTHS: RangeInclusive<usize> = 132..=288;

/// The least count at which nobody is entered.
const SPENT: u16 = 65_534;

/// The rights.
pub const READING: u32 = 1;
pub const OVERWRITING: u32 = 2;

/// The reasons of a check that are seen in what was deciphered.
pub const SEEN_IN_A_GRANT: [u32; 6] = [8, 9, 10, 20, 23, 25];

/// The reasons of opening that are seen with the keys only. Where one of them is given, the scratch is
/// cleared all the same.
pub const SEEN_IN_A_PAGE: [u32; 2] = [13, LATE_11];

/// What a call does.
#[derive(Clone, Debug, PartialEq, Eq)]
pub struct Effect {
    pub answer: u64,
    /// What it writes to the output, from the start.
    pub written: Vec<u8>,
    /// The roll after the call.
    pub roll: Vec<u8>,
    /// The holder after the call.
    pub holder: Vec<u8>,
    /// What it leaves in the scratch, from the start: zeros, or nothing where it does not touch it.
    pub scratch: Vec<u8>,
}

/// What a call has to do, and all reasons for which it has to refuse, in their order.
#[derive(Clone, Debug, PartialEq, Eq)]
pub struct Expected {
    pub effect: Effect,
    pub reasons: Vec<u32>,
    /// Of each grant in a queue that is not refused as a whole, all reasons for which the grant does
    /// not open, in the order of the single check.
    pub grants: Vec<Vec<u32>>,
}

/// What the call of a case has to do.
pub fn expected(case: &Case, oracle: &mut Oracle) -> Expected {
    let reasons = reasons(case, oracle);
    let grants = match case.call {
        Call::CheckQueue if reasons.is_empty() => queued(case, oracle),
        _ => Vec::new(),
    };
    let effect = match reasons.first() {
        Some(&reason) => refused(case, reason),
        None => success(case, &grants, oracle),
    };
    Expected {
        effect,
        reasons,
        grants,
    }
}

/// What a call does that refuses for a reason.
pub fn refused(case: &Case, reason: u32) -> Effect {
    let mut effect = only_answered(case, u64::from(number(reason)));
    if SEEN_IN_A_PAGE.contains(&reason) {
        effect.scratch = vec![0; SCRATCH_BYTES];
    }
    effect
}

/// What a call does that answers and writes nothing.
pub fn only_answered(case: &Case, answer: u64) -> Effect {
    Effect {
        answer,
        written: Vec::new(),
        roll: case.roll.clone(),
        holder: case.holder.clone(),
        scratch: Vec::new(),
    }
}

/// The allowed round counts of a key length.
pub fn allowed_rounds(key_length: usize) -> Option<RangeInclusive<u32>> {
    match key_length {
        12 => Some(10..=11),
        18 => Some(14..=17),
        24 => Some(18..=23),
        _ => None,
    }
}

/// The bytes that a call writes to its output where it does not refuse.
pub fn needed(case: &Case) -> u64 {
    match case.call {
        Call::PrepareEnciphering | Call::PrepareDeciphering => 12 * (u64::from(case.rounds) + 1),
        Call::Stage => STAGE_BYTES as u64,
        Call::HolderMake => HOLDER_BYTES as u64,
        Call::CheckQueue => (case.block.len() / BLOCK_BYTES) as u64,
        Call::EmptyRoll => ROLL_BYTES as u64,
        Call::SealPage => PAGE_BYTES as u64,
        Call::OpenPage => PAYLOAD_BYTES as u64,
        Call::Check | Call::Enter | Call::ChangeRight | Call::Withdraw => 0,
        Call::HolderForward | Call::HolderBack | Call::HolderWalk => 0,
        _ => BLOCK_BYTES as u64,
    }
}

/// All reasons that hold, in the order of the call. Left out is what has no meaning because of
/// another reason.
fn reasons(case: &Case, oracle: &mut Oracle) -> Vec<u32> {
    let seen = seen_with_key(case, oracle);
    let order = case.call.reasons().iter().copied();
    let holding = order.filter(|reason| match case.call {
        Call::Check if SEEN_IN_A_GRANT.contains(reason) => seen.contains(reason),
        Call::OpenPage if SEEN_IN_A_PAGE.contains(reason) => seen.contains(reason),
        _ => holds(case, *reason),
    });
    holding.collect()
}

/// The reasons that hold and are seen only with a key, where the case gives what it takes to see
/// them: a key of a right length and an allowed round count, and something that is long enough.
fn seen_with_key(case: &Case, oracle: &mut Oracle) -> Vec<u32> {
    match case.call {
        Call::Check if ![1, 2, 3].iter().any(|&reason| holds(case, reason)) => {
            let grant = opened(case, &case.block, oracle);
            let reasons = SEEN_IN_A_GRANT.into_iter();
            let holding = reasons.filter(|&one| holds_of_grant(case, grant.as_ref(), one));
            holding.collect()
        }
        Call::OpenPage if case.block.len() == PAGE_BYTES => {
            keys(case).map_or(Vec::new(), |keys| seen_in_page(&keys, &case.block, oracle))
        }
        _ => Vec::new(),
    }
}

/// Whether a reason holds that can be seen without a key.
fn holds(case: &Case, reason: u32) -> bool {
    match reason {
        1 => wrong_key(case),
        2 => rounds_of(case).map_or(false, |range| !range.contains(&case.rounds)),
        3 => wrong_input(case),
        4 => (case.out as u64) < needed(case) || short_scratch(case),
        5 if case.call == Call::Run => wrong_list(case.list.len()),
        5 => stages(case).map_or(false, |stages| case.stage as usize >= stages),
        6 => !is_contractor(case.contractor),
        7 => case.right != READING && case.right != OVERWRITING,
        11 => !pages::has_form(&case.block),
        12 => case.block.len() > PAYLOAD_BYTES,
        14 => case.size_block == 0,
        20 => own(case, count).map_or(false, |count| !in_standing(count)),
        21 => own(case, count).map_or(false, in_standing),
        22 => own(case, count).map_or(false, |count| count >= SPENT),
        24 => !holders::is_whole(&case.holder),
        25 => own(case, figure).map_or(false, |figure| is_above(case.right, figure)),
        other => panic!("reason {other} is not seen without a key"),
    }
}

/// Whether a key has a wrong length, or the two keys for a page are equal or of unequal lengths.
fn wrong_key(case: &Case) -> bool {
    match is_on_page(case) {
        true => rounds_of(case).is_none() || case.key == case.second_key,
        false => rounds_of(case).is_none(),
    }
}

/// The allowed round counts, where the key has a right length. Of two keys for a page, both have it.
fn rounds_of(case: &Case) -> Option<RangeInclusive<u32>> {
    let one_length = !is_on_page(case) || case.key.len() == case.second_key.len();
    allowed_rounds(case.key.len()).filter(|_| one_length)
}

fn is_on_page(case: &Case) -> bool {
    Call::ON_PAGES.contains(&case.call)
}

fn short_scratch(case: &Case) -> bool {
    is_on_page(case) && case.scratch < SCRATCH_BYTES
}

/// The two keys of a case on a page, where the lengths and the round count are right. Equal keys are
/// two keys too: what they make of a page is known, though no call does it.
fn keys(case: &Case) -> Option<Keys<'_>> {
    rounds_of(case)?.contains(&case.rounds).then_some(Keys {
        first: &case.key,
        second: &case.second_key,
        rounds: case.rounds,
    })
}

/// The reasons that hold of a page of 512 bytes and are seen with the keys only. A used count that is
/// too high leaves no byte unused.
fn seen_in_page(keys: &Keys<'_>, page: &[u8], oracle: &mut Oracle) -> Vec<u32> {
    let unused = pages::used(page).min(PAYLOAD_BYTES);
    let holds = |&reason: &u32| match reason {
        13 => !keys.is_checked(page, oracle),
        _ => !keys.is_zero_from(page, unused, oracle),
    };
    SEEN_IN_A_PAGE.into_iter().filter(holds).collect()
}

/// Whether the block, the grant, the queue or the roll has a wrong length.
fn wrong_input(case: &Case) -> bool {
    let wrong_block = case.block.len() != BLOCK_BYTES;
    let wrong_roll = case.roll.len() != ROLL_BYTES;
    match case.call {
        Call::Check => wrong_block || wrong_roll,
        Call::CheckQueue => wrong_queue(case.block.len()) || wrong_roll,
        Call::Issue | Call::Enter | Call::ChangeRight | Call::Withdraw => wrong_roll,
        _ => wrong_block,
    }
}

fn wrong_queue(length: usize) -> bool {
    length % BLOCK_BYTES != 0 || length > BLOCK_BYTES * QUEUE_GRANTS
}

fn wrong_list(length: usize) -> bool {
    !LIST_LENGTHS.contains(&length) || length % 12 != 0
}

/// How many stages the key has that is given, or that the holder names, if its length is right. A
/// broken holder can name one too.
fn stages(case: &Case) -> Option<usize> {
    match case.call {
        Call::HolderWalk => holders::key_length(&case.holder),
        _ => allowed_rounds(case.key.len()).map(|_| case.key.len()),
    }
}

/// What the roll has for the contractor that the case names, if there are both.
fn own<T>(case: &Case, part: fn(&[u8], u32) -> T) -> Option<T> {
    let present = case.roll.len() == ROLL_BYTES && is_contractor(case.contractor);
    present.then(|| part(&case.roll, case.contractor))
}

/// Whether a right that is asked for is above the highest that a figure stands for.
fn is_above(right: u32, figure: u8) -> bool {
    right == OVERWRITING && !may_overwrite(figure)
}

/// Whether a reason of a check holds that is seen in what was deciphered, which is a grant or not.
fn holds_of_grant(case: &Case, grant: Option<&Grant>, reason: u32) -> bool {
    let grant = match grant {
        Some(grant) => grant,
        None => return reason == 8,
    };
    let contractor = u32::from(grant.contractor);
    let count = count(&case.roll, contractor);
    match reason {
        8 => false,
        9 => grant.block != case.size_block,
        10 => u32::from(grant.right) == READING && case.right == OVERWRITING,
        20 => !in_standing(count),
        23 => grant.count != count,
        25 => is_above(case.right, figure(&case.roll, contractor)),
        other => panic!("reason {other} is not seen in a grant"),
    }
}

/// Of each grant in a queue, all reasons for which it does not open. The key, the round count, the
/// lengths, the right and the size block that are asked for are right.
fn queued(case: &Case, oracle: &mut Oracle) -> Vec<Vec<u32>> {
    let order = Call::Check.reasons().iter().copied();
    let order: Vec<u32> = order.filter(|r| SEEN_IN_A_GRANT.contains(r)).collect();
    let holding = |bytes: &[u8]| {
        let grant = opened(case, bytes, oracle);
        let order = order.iter().copied();
        let holding = order.filter(|&reason| holds_of_grant(case, grant.as_ref(), reason));
        holding.collect()
    };
    case.block.chunks(BLOCK_BYTES).map(holding).collect()
}

/// What the bytes of a grant decipher to, if that is one, under the key of a case.
fn opened(case: &Case, grant: &[u8], oracle: &mut Oracle) -> Option<Grant> {
    let plain = oracle.block(Way::Decipher, &case.key, case.rounds, grant);
    Grant::from_plain_bytes(&plain).ok()
}

/// What the call of a case does where no reason holds; `grants` has those of each grant in a queue.
fn success(case: &Case, grants: &[Vec<u32>], oracle: &mut Oracle) -> Effect {
    let mut effect = only_answered(case, 0);
    let (key, rounds) = (&case.key, case.rounds);
    match case.call {
        Call::Encipher => effect.written = oracle.block(Way::Encipher, key, rounds, &case.block),
        Call::Decipher => effect.written = oracle.block(Way::Decipher, key, rounds, &case.block),
        Call::PrepareEnciphering => effect.written = oracle.list(Way::Encipher, key, rounds),
        Call::PrepareDeciphering => effect.written = oracle.list(Way::Decipher, key, rounds),
        Call::Run => effect.written = Oracle::run(&case.list, &case.block),
        Call::Issue => effect.written = oracle.block(Way::Encipher, key, rounds, &plain(case)),
        Call::Check => effect.answer = opening(case, oracle),
        Call::CheckQueue => effect.written = grants.iter().map(|one| byte(one)).collect(),
        Call::EmptyRoll => effect.written = rolls::empty(),
        Call::Enter | Call::ChangeRight | Call::Withdraw => effect.roll = roll_after(case),
        Call::Stage => effect.written = Oracle::stage(key, case.stage),
        Call::Subkey => effect.written = oracle.subkey(key, case.stage),
        Call::HolderMake => effect.written = oracle.holder(key, 0),
        Call::HolderForward | Call::HolderBack | Call::HolderWalk => {
            let (answer, number) = moved(case);
            effect.answer = u64::from(answer);
            effect.holder = oracle.holder(&oracle.key_held(&case.holder), number);
        }
        Call::HolderSubkey => {
            let key = oracle.key_held(&case.holder);
            effect.written = oracle.subkey(&key, holders::number(&case.holder));
        }
        Call::SealPage | Call::OpenPage => effect = on_page(case, oracle),
    }
    effect
}

/// The roll after a call that writes to it. Entering and withdrawing count one on; entering and
/// changing write the right that is given, withdrawing that of reading.
fn roll_after(case: &Case) -> Vec<u8> {
    let mut roll = case.roll.clone();
    if case.call != Call::ChangeRight {
        let next = count(&roll, case.contractor) + 1;
        rolls::set_count(&mut roll, case.contractor, next);
    }
    let highest = match case.call {
        Call::Withdraw => READING,
        _ => case.right,
    };
    rolls::set_figure(&mut roll, case.contractor, highest as u8);
    roll
}

/// What a call on a page does where no reason holds.
fn on_page(case: &Case, oracle: &mut Oracle) -> Effect {
    let keys = keys(case).expect("no reason holds of the keys");
    let mut effect = only_answered(case, 0);
    effect.scratch = vec![0; SCRATCH_BYTES];
    match case.call {
        Call::SealPage => {
            let header = pages::header(case.size_block, case.page_number, case.block.len());
            effect.written = keys.sealed(&header, &case.block, oracle);
        }
        _ => {
            effect.answer = pages::answer(&case.block);
            effect.written = keys.payload(&case.block, oracle);
        }
    }
    effect
}

/// The answer to a step or a walk, and the number of the stage to which it leads.
fn moved(case: &Case) -> (u32, u32) {
    let stages = holders::stage(&case.holder).len() as u32;
    let number = holders::number(&case.holder);
    match case.call {
        Call::HolderForward => (0, (number + 1) % stages),
        Call::HolderBack => (0, (number + stages - 1) % stages),
        _ => (walked(stages, number, case.stage), case.stage),
    }
}

/// The answer to a walk from one stage of so many to another: the shorter way, and forward where
/// both are as long.
fn walked(stages: u32, from: u32, to: u32) -> u32 {
    let forward = (to + stages - from) % stages;
    match forward <= stages / 2 {
        true => 1000 + forward,
        false => 2000 + stages - forward,
    }
}

/// The plain bytes of the grant that an issue gives.
fn plain(case: &Case) -> Vec<u8> {
    let grant = Grant {
        contractor: case.contractor as u16,
        count: count(&case.roll, case.contractor),
        block: case.size_block,
        right: case.right as u8,
    };
    grant.plain_bytes()
}

/// The byte of a grant in a queue: 0, or the first of the reasons for which it does not open.
fn byte(reasons: &[u32]) -> u8 {
    reasons.first().map_or(0, |&reason| reason as u8)
}

/// The answer to a grant that opens: it has the right asked for, whichever the grant has.
fn opening(case: &Case, oracle: &mut Oracle) -> u64 {
    let grant = opened(case, &case.block, oracle).expect("a grant that opens is a grant");
    u64::from(1000 * case.right + u32::from(grant.contractor))
}
