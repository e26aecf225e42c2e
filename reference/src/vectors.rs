//! The vectors that the program prints, as plain text; those of `routes` are in
//! `routes.rs`, those of `grants` in `grants.rs`, those of `zero` in `zero.rs`, and
//! those of `answers` in `answers.rs`, `right_answers.rs`, `page_answers.rs` and
//! `zero_answers.rs`.
//!
//! Every subcommand has a generator of its own that starts from seed 1 and
//! draws bytes for inputs only, in the order in which they are first printed. A
//! matrix is drawn and printed by columns: byte i + 3j is row i, column j.
//!
//! - `sbox` draws nothing.
//! - `layers` does this 32 times: draw IN (12 bytes), draw KEY (12 bytes), print
//!   the lines gamma, pi, theta and sigma, which all have the same IN. Then it
//!   prints 97 more lines theta and draws nothing for them: for d = 01, 02, 04,
//!   and so on up to 80 (hex), and for each of these for p = 0 to 11, IN is byte d
//!   at position p and 00 at all others; the last IN is twelve bytes ff.
//! - `rounds` does this 4 times for R = 1, then 4 times for R = 2, and so on up
//!   to R = 23: draw LIST (12(R+1) bytes, subkey 0 first), draw IN (12 bytes),
//!   print the lines rounds, inverse and turned, which all have the same LIST.
//! - `blocks` takes key lengths 12, 18, 24 in this order, for each its round
//!   counts upward (10..11, 14..17, 18..23), and for each of these does this 16
//!   times: draw KEY (12, 18 or 24 bytes), draw PLAIN (12 bytes), draw BLOCK (12
//!   bytes), print the lines encrypt and decrypt, which have the same KEY.
//! - `stages` takes key lengths 12, 18, 24 in this order; for each, the first
//!   key is all zero and draws nothing, and then it does this 3 times: draw KEY
//!   (12, 18 or 24 bytes). For every key it prints the lines r = 0 to 6t - 1
//!   before the next key is drawn.
//! - `constants` draws nothing. It takes key lengths 12, 18, 24 in this order, and
//!   for each prints the lines constant for s = 0 to 6t + 1, then for s = 33, 43, 44,
//!   65, 257, 65537 and 4294967295.
//! - `pages` takes key lengths 12, 18, 24 in this order, for each its round counts
//!   upward (10..11, 14..17, 18..23), and for each of these does this once: draw
//!   FIRST and then SECOND (12, 18 or 24 bytes each), draw BLOCK (4 bytes, big end
//!   first), draw NUMBER (2 bytes, big end first), draw two bytes x and y, draw as
//!   many bytes as USED, which is (256x + y) mod 493, for the payload, print the
//!   line page. The payload is not printed. No BLOCK that is drawn is 0, for which no
//!   page is sealed.

use crate::cipher::{
    allowed_rounds, decrypt, decrypt_with, decryption_keys, encrypt, encrypt_with,
};
use crate::error::Error;
use crate::generator::Generator;
use crate::layers::{gamma, pi, sigma, theta};
use crate::matrix::{Matrix, State};
use crate::pages::{seal, PAGE_LENGTH, PAYLOAD_LENGTH, SCRATCH_LENGTH};
use crate::sbox;
use crate::schedule::{cipher_key, psi, select, step_constant_bytes};

/// The seed from which every subcommand starts.
pub(crate) const SEED: u64 = 1;

/// The key lengths in bytes (section 3.5), in the order of Table 2.
pub(crate) const KEY_LENGTHS: [usize; 3] = [12, 18, 24];

/// The numbers far above 6t for which `constants` has lines. There are no such steps.
/// With the formula of section 3.6, an index into the S-box would be no byte from 33,
/// 43 and 65 on, for keys of 24, 18 and 12 bytes. For 18 bytes, all six indices would
/// be none from 44 on. A program that takes the number as one byte, or as two, has 1 for
/// 257, or for 65537.
const FAR_STEPS: [usize; 7] = [33, 43, 44, 65, 257, 65_537, 4_294_967_295];

/// Bytes as lowercase hexadecimal digits, two for each.
pub fn hex(bytes: &[u8]) -> String {
    bytes.iter().map(|byte| format!("{:02x}", byte)).collect()
}

/// A matrix as hexadecimal digits, by columns.
pub(crate) fn matrix_hex<const N: usize>(matrix: &Matrix<N>) -> String {
    hex(&matrix.to_bytes())
}

/// A list of states as hexadecimal digits, one after the other.
pub(crate) fn list_hex(states: &[State]) -> String {
    states.iter().map(matrix_hex).collect()
}

/// A state drawn from the generator: 12 bytes, by columns.
fn draw_state(generator: &mut Generator) -> State {
    let bytes = generator.bytes(12);
    Matrix::from_rule(|i, j| bytes[i + 3 * j])
}

/// A number of the given count of bytes, at most 4, drawn from the generator big end
/// first.
pub(crate) fn draw_number(generator: &mut Generator, count: usize) -> u32 {
    (0..count).fold(0, |number, _| 256 * number + u32::from(generator.byte()))
}

/// Adds a line to a text: the fields, with one space between each two.
pub(crate) fn add_line(text: &mut String, fields: &[&str]) {
    text.push_str(&fields.join(" "));
    text.push('\n');
}

/// The 256 values of the S-box (section 3.1), 16 a line.
pub fn sbox_text() -> String {
    let mut text = String::new();
    for row in 0..16 {
        let values: Vec<String> = (0..16)
            .map(|column| hex(&[sbox::substitute(16 * row + column)]))
            .collect();
        text.push_str(&values.join(" "));
        text.push('\n');
    }
    text
}

/// Values of the four layers (sections 3.1 to 3.4), then those of theta that
/// determine it.
pub fn layers_text() -> String {
    let mut generator = Generator::new(SEED);
    let mut text = String::new();
    for _ in 0..32 {
        let state = draw_state(&mut generator);
        let key = draw_state(&mut generator);
        add_layer_lines(&mut text, &state, &key);
    }
    add_basis_lines(&mut text);
    text
}

/// The four lines for one state and one key.
fn add_layer_lines(text: &mut String, state: &State, key: &State) {
    let input = matrix_hex(state);
    add_line(text, &["gamma", &input, &matrix_hex(&gamma(state))]);
    add_line(text, &["pi", &input, &matrix_hex(&pi(state))]);
    add_theta_line(text, state);
    let sum = matrix_hex(&sigma(key, state));
    add_line(text, &["sigma", &input, &matrix_hex(key), &sum]);
}

/// The line of theta (section 3.3) for one state.
fn add_theta_line(text: &mut String, state: &State) {
    let output = matrix_hex(&theta(state));
    add_line(text, &["theta", &matrix_hex(state), &output]);
}

/// The lines of theta (section 3.3) for the 96 states that have a single bit, and
/// for the sum of them all. Theta is linear, so that the 96 determine it.
fn add_basis_lines(text: &mut String) {
    for bit in 0..8 {
        for position in 0..12 {
            add_theta_line(text, &single_byte(position, 1 << bit));
        }
    }
    add_theta_line(text, &Matrix::from_rule(|_, _| 0xFF));
}

/// The state that has the given byte at one position, by columns (section 3.5), and
/// zero at the eleven others.
fn single_byte(position: usize, byte: u8) -> State {
    Matrix::from_rule(|i, j| if i + 3 * j == position { byte } else { 0 })
}

/// Encryptions over lists of arbitrary subkeys, their literal inverses, and the
/// decryption keys of Theorem 1 (sections 3.9 and 3.10).
pub fn rounds_text() -> Result<String, Error> {
    let mut generator = Generator::new(SEED);
    let mut text = String::new();
    for rounds in 1..=23 {
        for _ in 0..4 {
            let list: Vec<State> = (0..=rounds).map(|_| draw_state(&mut generator)).collect();
            let plain = draw_state(&mut generator);
            add_round_lines(&mut text, rounds, &list, &plain)?;
        }
    }
    Ok(text)
}

/// The three lines for one list of subkeys and one state.
fn add_round_lines(
    text: &mut String,
    rounds: usize,
    list: &[State],
    plain: &State,
) -> Result<(), Error> {
    let encrypted = encrypt_with(list, plain)?;
    let back = decrypt_with(list, &encrypted)?;
    let turned = decryption_keys(list)?;
    let number = rounds.to_string();
    let subkeys = list_hex(list);
    let output = matrix_hex(&encrypted);
    add_line(
        text,
        &["rounds", &number, &subkeys, &matrix_hex(plain), &output],
    );
    add_line(
        text,
        &["inverse", &number, &subkeys, &output, &matrix_hex(&back)],
    );
    add_line(text, &["turned", &number, &subkeys, &list_hex(&turned)]);
    Ok(())
}

/// Encryptions and decryptions of unrelated blocks for every key length and
/// every number of rounds in Table 2 (section 3.9).
pub fn blocks_text() -> Result<String, Error> {
    let mut generator = Generator::new(SEED);
    let mut text = String::new();
    for key_length in KEY_LENGTHS {
        for rounds in allowed_rounds(key_length)? {
            for _ in 0..16 {
                let key = generator.bytes(key_length);
                let plain = generator.bytes(12);
                let block = generator.bytes(12);
                add_block_lines(&mut text, &key, rounds, &plain, &block)?;
            }
        }
    }
    Ok(text)
}

/// The two lines for one key, one block to encrypt and one to decrypt.
fn add_block_lines(
    text: &mut String,
    key: &[u8],
    rounds: usize,
    plain: &[u8],
    block: &[u8],
) -> Result<(), Error> {
    let cipher = encrypt(key, rounds, plain)?;
    let result = decrypt(key, rounds, block)?;
    let key = hex(key);
    let number = rounds.to_string();
    add_line(
        text,
        &["encrypt", &key, &number, &hex(plain), &hex(&cipher)],
    );
    add_line(
        text,
        &["decrypt", &key, &number, &hex(block), &hex(&result)],
    );
    Ok(())
}

/// Key stages and subkeys over one whole period (sections 3.7 and 3.8).
pub fn stages_text() -> Result<String, Error> {
    let mut generator = Generator::new(SEED);
    let mut text = String::new();
    for key_length in KEY_LENGTHS {
        add_stage_lines(&mut text, &vec![0; key_length])?;
        for _ in 0..3 {
            add_stage_lines(&mut text, &generator.bytes(key_length))?;
        }
    }
    Ok(text)
}

/// The lines for one key of 12, 18 or 24 bytes.
fn add_stage_lines(text: &mut String, key: &[u8]) -> Result<(), Error> {
    match key.len() {
        12 => add_stage_lines_of::<4>(text, key),
        18 => add_stage_lines_of::<6>(text, key),
        24 => add_stage_lines_of::<8>(text, key),
        other => Err(Error::KeyLength(other)),
    }
}

/// The lines for one key of 3N bytes, for r from 0 to 6t - 1 = 3N - 1.
fn add_stage_lines_of<const N: usize>(text: &mut String, key: &[u8]) -> Result<(), Error> {
    let mut stage: Matrix<N> = cipher_key(key)?;
    for r in 0..3 * N {
        if r > 0 {
            stage = psi(r, &stage);
        }
        let subkey = matrix_hex(&select(&stage));
        let stage = matrix_hex(&stage);
        add_line(text, &["stage", &hex(key), &r.to_string(), &stage, &subkey]);
    }
    Ok(())
}

/// The constants of the steps of a turn, and of numbers outside a turn, for every key
/// length. The number of steps 6t is the key length in bytes.
pub fn constants_text() -> Result<String, Error> {
    let mut text = String::new();
    for key_length in KEY_LENGTHS {
        for s in (0..=key_length + 1).chain(FAR_STEPS) {
            add_constant_line(&mut text, key_length, s)?;
        }
    }
    Ok(text)
}

/// The line for the constant of step s for keys of 12, 18 or 24 bytes.
pub(crate) fn add_constant_line(
    text: &mut String,
    key_length: usize,
    s: usize,
) -> Result<(), Error> {
    let constant = hex(&step_constant_bytes(key_length, s)?);
    let length = key_length.to_string();
    add_line(text, &["constant", &length, &s.to_string(), &constant]);
    Ok(())
}

/// Sealed pages for every key length and every number of rounds in Table 2 (section
/// 3.9), one each.
pub fn pages_text() -> Result<String, Error> {
    let mut generator = Generator::new(SEED);
    let mut text = String::new();
    for key_length in KEY_LENGTHS {
        for rounds in allowed_rounds(key_length)? {
            add_page_line(&mut text, &mut generator, key_length, rounds);
        }
    }
    Ok(text)
}

/// The line for a page whose keys, numbers and payload are drawn.
fn add_page_line(text: &mut String, generator: &mut Generator, key_length: usize, rounds: usize) {
    let first = generator.bytes(key_length);
    let second = generator.bytes(key_length);
    let block = draw_number(generator, 4);
    let number = draw_number(generator, 2) as u16;
    let used = draw_number(generator, 2) as usize % (PAYLOAD_LENGTH + 1);
    let payload = generator.bytes(used);
    let mut scratch = [0; SCRATCH_LENGTH];
    let mut page = [0; PAGE_LENGTH];
    seal(
        &first,
        &second,
        rounds,
        block,
        number,
        &payload,
        &mut scratch,
        &mut page,
    )
    .expect("the keys differ, the size block is not 0, and all else is allowed");
    add_line(
        text,
        &[
            "page",
            &hex(&first),
            &hex(&second),
            &rounds.to_string(),
            &block.to_string(),
            &number.to_string(),
            &used.to_string(),
            &hex(&page),
        ],
    );
}
