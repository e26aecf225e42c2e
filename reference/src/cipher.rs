//! The complete cipher (section 3.9), its literal inverse, and the decryption
//! keys of Theorem 1 (section 3.10).

use std::ops::RangeInclusive;

use crate::error::Error;
use crate::layers::{
    gamma, inverse_gamma, inverse_pi, inverse_sigma, inverse_theta, pi, sigma, theta,
};
use crate::matrix::{Matrix, State};
use crate::schedule::round_subkeys;

/// The numbers of rounds that Table 2 (section 3.9) allows for a key of this
/// many bytes.
pub fn allowed_rounds(key_length: usize) -> Result<RangeInclusive<usize>, Error> {
    match key_length {
        12 => Ok(10..=11),
        18 => Ok(14..=17),
        24 => Ok(18..=23),
        other => Err(Error::KeyLength(other)),
    }
}

/// The encryption of a block of 12 bytes (section 3.9). The paper does not say
/// how the bytes of a block fill the state; they do it by columns, as those of
/// the key do (section 3.5).
pub fn encrypt(key: &[u8], rounds: usize, block: &[u8]) -> Result<Vec<u8>, Error> {
    let subkeys = checked_subkeys(key, rounds)?;
    let state = state_of(block)?;
    Ok(encrypt_with(&subkeys, &state)?.to_bytes())
}

/// The decryption of a block of 12 bytes: the literal inverse of `encrypt`.
pub fn decrypt(key: &[u8], rounds: usize, block: &[u8]) -> Result<Vec<u8>, Error> {
    let subkeys = checked_subkeys(key, rounds)?;
    let state = state_of(block)?;
    Ok(decrypt_with(&subkeys, &state)?.to_bytes())
}

/// The subkeys 0 to R of a key, for a number of rounds that Table 2 allows.
fn checked_subkeys(key: &[u8], rounds: usize) -> Result<Vec<State>, Error> {
    if !allowed_rounds(key.len())?.contains(&rounds) {
        return Err(Error::Rounds {
            key_length: key.len(),
            rounds,
        });
    }
    round_subkeys(key, rounds)
}

/// The state that a block of 12 bytes stands for, by columns.
pub(crate) fn state_of(block: &[u8]) -> Result<State, Error> {
    Matrix::from_bytes(block).ok_or(Error::BlockLength(block.len()))
}

/// The encryption rounds over any list of R + 1 subkeys, for any R from 1 up:
/// alpha[kappa^(0), ..., kappa^(R)] (sections 3.9 and 3.10).
pub fn encrypt_with(subkeys: &[State], block: &State) -> Result<State, Error> {
    let (first, middle, last) = split(subkeys)?;
    let mut state = sigma(first, block);
    for subkey in middle {
        state = round(subkey, &state);
    }
    Ok(last_round(last, &state))
}

/// The round function rho[kappa] (section 3.9): gamma, pi, theta, sigma.
fn round(subkey: &State, a: &State) -> State {
    sigma(subkey, &theta(&pi(&gamma(a))))
}

/// The last round function rho'[kappa] (section 3.9): gamma, pi, sigma.
fn last_round(subkey: &State, a: &State) -> State {
    sigma(subkey, &pi(&gamma(a)))
}

/// The literal inverse of `encrypt_with`: every map of section 3.9 is undone, in
/// reverse order, under the same subkeys in reverse order.
pub fn decrypt_with(subkeys: &[State], block: &State) -> Result<State, Error> {
    let (first, middle, last) = split(subkeys)?;
    let mut state = undo_last_round(last, block);
    for subkey in middle.iter().rev() {
        state = undo_round(subkey, &state);
    }
    Ok(inverse_sigma(first, &state))
}

/// The inverse of the round function (section 3.9): sigma, theta, pi and gamma
/// are undone in this order.
fn undo_round(subkey: &State, b: &State) -> State {
    inverse_gamma(&inverse_pi(&inverse_theta(&inverse_sigma(subkey, b))))
}

/// The inverse of the last round function (section 3.9): sigma, pi and gamma
/// are undone in this order.
fn undo_last_round(subkey: &State, b: &State) -> State {
    inverse_gamma(&inverse_pi(&inverse_sigma(subkey, b)))
}

/// The decryption keys of Theorem 1 (section 3.10): the list in reverse order,
/// with theta applied to all but the first and the last.
pub fn decryption_keys(subkeys: &[State]) -> Result<Vec<State>, Error> {
    let (first, middle, last) = split(subkeys)?;
    let mut keys = vec![*last];
    keys.extend(middle.iter().rev().map(theta));
    keys.push(*first);
    Ok(keys)
}

/// The first subkey, those between, and the last one of a list of at least two.
fn split(subkeys: &[State]) -> Result<(&State, &[State], &State), Error> {
    match subkeys {
        [first, middle @ .., last] => Ok((first, middle, last)),
        _ => Err(Error::TooFewSubkeys(subkeys.len())),
    }
}
