//! A second opinion on what a call has to do: that of the independent program as a whole, with its
//! own checks and its own roll, wherever it takes what the case gives.

use curupira_reference::cipher::{decrypt, encrypt};
use curupira_reference::error::Error;
use curupira_reference::holder;
use curupira_reference::pages;
use curupira_reference::roll::{Refusal, Roll};

use crate::call::Call;
use crate::case::Case;
use crate::expect::{needed, only_answered, Effect, BLOCK_BYTES};
use crate::rolls::{model, ROLL_BYTES};

/// What stands where bytes are to be written. It is no answer to a grant in a queue.
const UNWRITTEN: u8 = 0xee;

/// What a second opinion on a page costs that is enciphered.
const PAGE_COST: u64 = 10;

/// What the independent program does, or nothing where it has no such call or does not take what
/// the case gives.
pub fn second(case: &Case) -> Option<Effect> {
    match case.call {
        Call::Encipher | Call::Decipher => cipher(case),
        Call::Issue => issue(case),
        Call::Check => check(case),
        Call::CheckQueue => queue(case),
        Call::EmptyRoll => empty_roll(case),
        Call::Enter | Call::ChangeRight | Call::Withdraw => roll(case),
        Call::HolderMake => Some(output(case, |out| holder::make(&case.key, out))),
        Call::HolderForward | Call::HolderBack | Call::HolderWalk => Some(moved(case)),
        Call::HolderSubkey => Some(output(case, |out| holder::subkey(&case.holder, out))),
        Call::SealPage => Some(on_page(case, seal)),
        Call::OpenPage => Some(on_page(case, open)),
        _ => None,
    }
}

/// What a second opinion costs, roughly, if most cost 1. It costs next to nothing where nothing is
/// deciphered, more for a queue the more grants it answers, and more for a page.
pub fn cost(case: &Case, effect: &Effect) -> u64 {
    match case.call {
        Call::EmptyRoll | Call::Enter | Call::ChangeRight | Call::Withdraw => 0,
        Call::HolderMake | Call::HolderSubkey => 0,
        Call::CheckQueue if effect.written.is_empty() => 0,
        Call::CheckQueue => 1 + effect.written.len() as u64 / 2,
        Call::SealPage | Call::OpenPage if effect.scratch.is_empty() => 0,
        Call::SealPage | Call::OpenPage => PAGE_COST,
        _ => 1,
    }
}

fn cipher(case: &Case) -> Option<Effect> {
    if case.out < BLOCK_BYTES {
        return None;
    }
    let rounds = case.rounds as usize;
    let result = match case.call {
        Call::Encipher => encrypt(&case.key, rounds, &case.block),
        _ => decrypt(&case.key, rounds, &case.block),
    };
    let number = |error| match error {
        Error::KeyLength(_) => 1,
        Error::Rounds { .. } => 2,
        _ => 3,
    };
    Some(effect(case, result.map_err(number)))
}

fn issue(case: &Case) -> Option<Effect> {
    if case.roll.len() != ROLL_BYTES || case.out < BLOCK_BYTES {
        return None;
    }
    let contractor = u16::try_from(case.contractor).ok()?;
    let right = u8::try_from(case.right).ok()?;
    let rounds = case.rounds as usize;
    let result = model(&case.roll).issue(&case.key, rounds, contractor, case.size_block, right);
    Some(effect(case, result.map_err(number)))
}

fn check(case: &Case) -> Option<Effect> {
    if case.roll.len() != ROLL_BYTES {
        return None;
    }
    let right = u8::try_from(case.right).ok()?;
    let rounds = case.rounds as usize;
    let result = model(&case.roll).check(&case.key, rounds, &case.block, case.size_block, right);
    let answer = match result {
        Ok(accepted) => 1000 * u64::from(accepted.right) + u64::from(accepted.contractor),
        Err(refusal) => number(refusal),
    };
    Some(only_answered(case, answer))
}

fn queue(case: &Case) -> Option<Effect> {
    if case.roll.len() != ROLL_BYTES {
        return None;
    }
    let right = u8::try_from(case.right).ok()?;
    let (key, rounds) = (&case.key, case.rounds as usize);
    let mut answers = vec![UNWRITTEN; case.out];
    let result = model(&case.roll).check_queue(
        key,
        rounds,
        &case.block,
        case.size_block,
        right,
        &mut answers,
    );
    Some(Effect {
        written: touched(answers, 0),
        ..only_answered(case, result.map_or_else(number, |()| 0))
    })
}

/// What a call does that writes to a lent roll.
fn roll(case: &Case) -> Option<Effect> {
    if case.roll.len() != ROLL_BYTES {
        return None;
    }
    let contractor = u16::try_from(case.contractor).ok()?;
    let right = u8::try_from(case.right).ok()?;
    let mut roll = model(&case.roll);
    let result = match case.call {
        Call::Enter => roll.enter(contractor, right),
        Call::ChangeRight => roll.change_right(contractor, right),
        _ => roll.withdraw(contractor),
    };
    let answer = result.map_or_else(number, |()| 0);
    Some(Effect {
        roll: roll.to_bytes(),
        ..only_answered(case, answer)
    })
}

/// An empty roll, which the independent program returns and does not write to a place of the
/// caller's.
fn empty_roll(case: &Case) -> Option<Effect> {
    let roll = Roll::new().to_bytes();
    (case.out >= roll.len()).then(|| effect(case, Ok(roll)))
}

/// What a call does that steps or walks a holder.
fn moved(case: &Case) -> Effect {
    let mut holder = case.holder.clone();
    let answer = match case.call {
        Call::HolderForward => holder::forward(&mut holder),
        Call::HolderBack => holder::back(&mut holder),
        _ => holder::walk_to(case.stage as usize, &mut holder),
    };
    Effect {
        holder,
        ..only_answered(case, u64::from(answer))
    }
}

/// What a call on a page does, which is given a scratch and an output.
fn on_page(case: &Case, call: fn(&Case, &mut [u8], &mut [u8]) -> u64) -> Effect {
    let mut scratch = vec![UNWRITTEN; case.scratch];
    let mut out = vec![UNWRITTEN; case.out];
    let answer = call(case, &mut scratch, &mut out);
    let written = match answer {
        1..=999 => 0,
        _ => needed(case) as usize,
    };
    Effect {
        written: touched(out, written),
        scratch: touched(scratch, 0),
        ..only_answered(case, answer)
    }
}

fn seal(case: &Case, scratch: &mut [u8], out: &mut [u8]) -> u64 {
    let result = pages::seal(
        &case.key,
        &case.second_key,
        case.rounds as usize,
        case.size_block,
        case.page_number,
        &case.block,
        scratch,
        out,
    );
    result.map_or_else(|refusal| u64::from(refusal.number()), |()| 0)
}

fn open(case: &Case, scratch: &mut [u8], out: &mut [u8]) -> u64 {
    let (first, second) = (&case.key, &case.second_key);
    match pages::open(
        first,
        second,
        case.rounds as usize,
        &case.block,
        scratch,
        out,
    ) {
        Ok(header) => {
            let used = 0x8000 | u64::from(header.used);
            let numbers = used << 16 | u64::from(header.page_number);
            numbers << 32 | u64::from(header.size_block)
        }
        Err(refusal) => u64::from(refusal.number()),
    }
}

/// All that was written to bytes, whatever the call answers and however far it goes: so many bytes, or
/// more.
fn touched(mut bytes: Vec<u8>, least: usize) -> Vec<u8> {
    let last = bytes.iter().rposition(|&byte| byte != UNWRITTEN);
    bytes.truncate(least.max(last.map_or(0, |last| last + 1)));
    bytes
}

/// What a call does that writes to an output.
fn output(case: &Case, call: impl Fn(&mut [u8]) -> u32) -> Effect {
    let mut out = vec![0; case.out];
    match call(&mut out) {
        0 => effect(case, Ok(out[..needed(case) as usize].to_vec())),
        number => effect(case, Err(u64::from(number))),
    }
}

/// What a call does that writes bytes, or refuses with a number.
fn effect(case: &Case, result: Result<Vec<u8>, u64>) -> Effect {
    let (answer, written) = match result {
        Ok(written) => (0, written),
        Err(number) => (number, Vec::new()),
    };
    Effect {
        written,
        ..only_answered(case, answer)
    }
}

fn number(refusal: Refusal) -> u64 {
    u64::from(refusal.number())
}
