//! What sections 3.9 and 3.10 say about the complete cipher.

use curupira_reference::cipher::{
    allowed_rounds, decrypt, decrypt_with, decryption_keys, encrypt, encrypt_with,
};
use curupira_reference::error::Error;
use curupira_reference::generator::Generator;
use curupira_reference::layers::{gamma, pi, sigma, theta};
use curupira_reference::matrix::{Matrix, State};
use curupira_reference::schedule::round_subkeys;
use curupira_reference::vectors::hex;

const KEY_LENGTHS: [usize; 3] = [12, 18, 24];

/// A state drawn from the generator.
fn draw_state(generator: &mut Generator) -> State {
    Matrix::from_bytes(&generator.bytes(12)).expect("a state has 12 bytes")
}

/// A list of R + 1 subkeys drawn from the generator.
fn draw_list(generator: &mut Generator, rounds: usize) -> Vec<State> {
    (0..=rounds).map(|_| draw_state(generator)).collect()
}

/// Bytes 0, step, 2 * step, and so on.
fn counting(count: u8, step: u8) -> Vec<u8> {
    (0..count).map(|k| k * step).collect()
}

#[test]
fn theorem_1_holds_for_arbitrary_subkeys() {
    let mut generator = Generator::new(30);
    for rounds in 1..=23 {
        for _ in 0..20 {
            let list = draw_list(&mut generator, rounds);
            let turned = decryption_keys(&list).unwrap();
            let a = draw_state(&mut generator);
            let b = encrypt_with(&list, &a).unwrap();
            assert_eq!(encrypt_with(&turned, &b), Ok(a));
            assert_eq!(encrypt_with(&turned, &a), decrypt_with(&list, &a));
            assert_eq!(decryption_keys(&turned), Ok(list));
        }
    }
}

#[test]
fn theorem_1_holds_for_the_subkeys_of_a_key() {
    let mut generator = Generator::new(31);
    for length in KEY_LENGTHS {
        for rounds in allowed_rounds(length).unwrap() {
            let key = generator.bytes(length);
            let block = generator.bytes(12);
            let subkeys = round_subkeys(&key, rounds).unwrap();
            let turned = decryption_keys(&subkeys).unwrap();
            let state = Matrix::from_bytes(&block).unwrap();
            let result = encrypt_with(&turned, &state).unwrap();
            assert_eq!(decrypt(&key, rounds, &block), Ok(result.to_bytes()));
        }
    }
}

/// The inverse as the proof of Theorem 1 writes it before the last regrouping,
/// with its middle factors applied in the order of the given list.
fn inverse_of_the_proof(first: &State, middle: &[State], last: &State, block: &State) -> State {
    let mut state = pi(&gamma(&sigma(last, block)));
    for subkey in middle {
        state = pi(&gamma(&sigma(&theta(subkey), &theta(&state))));
    }
    sigma(first, &state)
}

/// The proof of Theorem 1 writes the middle of the inverse as a product over r
/// from 1 to R-1 in which, by section 2.5, r = 1 is applied first. It has to be
/// the other product of section 2.5, in which r = R-1 is applied first. The
/// theorem itself is not touched by this.
#[test]
fn the_proof_has_the_middle_rounds_in_the_wrong_order() {
    let mut generator = Generator::new(32);
    for rounds in 3..=23 {
        let list = draw_list(&mut generator, rounds);
        let block = draw_state(&mut generator);
        let (first, last) = (list[0], list[rounds]);
        let as_printed: Vec<State> = list[1..rounds].to_vec();
        let reversed: Vec<State> = as_printed.iter().rev().copied().collect();
        let inverse = decrypt_with(&list, &block).unwrap();
        assert_ne!(
            inverse_of_the_proof(&first, &as_printed, &last, &block),
            inverse
        );
        assert_eq!(
            inverse_of_the_proof(&first, &reversed, &last, &block),
            inverse
        );
    }
}

#[test]
fn decryption_undoes_encryption_and_the_other_way_round() {
    let mut generator = Generator::new(33);
    for length in KEY_LENGTHS {
        for rounds in allowed_rounds(length).unwrap() {
            for _ in 0..8 {
                let key = generator.bytes(length);
                let block = generator.bytes(12);
                let cipher = encrypt(&key, rounds, &block).unwrap();
                assert_eq!(decrypt(&key, rounds, &cipher), Ok(block.clone()));
                let plain = decrypt(&key, rounds, &block).unwrap();
                assert_eq!(encrypt(&key, rounds, &plain), Ok(block));
            }
        }
    }
}

/// Section 3.9 with one and with two rounds, written out as in the paper.
#[test]
fn short_lists_of_subkeys_follow_the_formula() {
    let mut generator = Generator::new(34);
    let [k0, k1, k2, a] = [(); 4].map(|_| draw_state(&mut generator));
    let one_round = sigma(&k1, &pi(&gamma(&sigma(&k0, &a))));
    assert_eq!(encrypt_with(&[k0, k1], &a), Ok(one_round));
    let first_round = sigma(&k1, &theta(&pi(&gamma(&sigma(&k0, &a)))));
    let two_rounds = sigma(&k2, &pi(&gamma(&first_round)));
    assert_eq!(encrypt_with(&[k0, k1, k2], &a), Ok(two_rounds));
}

/// Section 3.9 says 4t - 2 <= R <= 6t - 1, but the least numbers in Table 2 are
/// 4t + 2.
#[test]
fn table_2_starts_at_four_t_plus_two() {
    for t in 2..=4 {
        assert_eq!(allowed_rounds(6 * t), Ok(4 * t + 2..=6 * t - 1));
    }
}

#[test]
fn only_the_rounds_of_table_2_are_accepted() {
    for length in KEY_LENGTHS {
        let allowed = allowed_rounds(length).unwrap();
        for rounds in 0..40 {
            let refused = Err(Error::Rounds {
                key_length: length,
                rounds,
            });
            let key = vec![0; length];
            if allowed.contains(&rounds) {
                assert!(encrypt(&key, rounds, &[0; 12]).is_ok());
                assert!(decrypt(&key, rounds, &[0; 12]).is_ok());
            } else {
                assert_eq!(encrypt(&key, rounds, &[0; 12]), refused);
                assert_eq!(decrypt(&key, rounds, &[0; 12]), refused);
            }
        }
    }
}

#[test]
fn bad_lengths_are_refused() {
    for length in (0..40).filter(|length| !KEY_LENGTHS.contains(length)) {
        let refused = Err(Error::KeyLength(length));
        assert_eq!(encrypt(&vec![0; length], 10, &[0; 12]), refused);
        assert_eq!(decrypt(&vec![0; length], 10, &[0; 12]), refused);
    }
    for length in (0..40).filter(|length| *length != 12) {
        let refused = Err(Error::BlockLength(length));
        assert_eq!(encrypt(&[0; 12], 10, &vec![0; length]), refused);
        assert_eq!(decrypt(&[0; 12], 10, &vec![0; length]), refused);
    }
    for count in 0..2 {
        let list = vec![State::zero(); count];
        let state = State::zero();
        assert_eq!(
            encrypt_with(&list, &state),
            Err(Error::TooFewSubkeys(count))
        );
        assert_eq!(
            decrypt_with(&list, &state),
            Err(Error::TooFewSubkeys(count))
        );
        assert_eq!(decryption_keys(&list), Err(Error::TooFewSubkeys(count)));
    }
}

/// The worked examples of README.md. The paper has no test vectors; these keep
/// the program from changing unnoticed.
#[test]
fn the_worked_examples_stay_the_same() {
    let block = counting(12, 0x11);
    let examples = [
        (12, 10, "6edf4c9cc8219ec403e58ec8"),
        (18, 14, "e4b4f601476b7acb9ff43006"),
        (24, 23, "98051dd95a030654913b231c"),
    ];
    for (key_length, rounds, expected) in examples {
        let key = counting(key_length, 1);
        let cipher = encrypt(&key, rounds, &block).unwrap();
        assert_eq!(hex(&cipher), expected);
        assert_eq!(decrypt(&key, rounds, &cipher), Ok(block.clone()));
    }
}
