//! What sections 3.5 to 3.8 say about the key schedule. A check over all key
//! sizes runs it for N = 2t = 4, 6 and 8 columns.

use curupira_reference::error::Error;
use curupira_reference::generator::Generator;
use curupira_reference::matrix::{Matrix, IDENTITY};
use curupira_reference::routes::{walk, Way};
use curupira_reference::sbox::substitute;
use curupira_reference::schedule::{
    accumulated_constant, cipher_key, closing_sum, e_matrix, inverse_mu, inverse_omega,
    inverse_psi, inverse_xi, key_of_stage, key_stage, mu, omega, omega_power, psi, round_subkeys,
    schedule_constant, select, step_constant, step_constant_bytes, xi,
};
use curupira_reference::vectors::hex;

/// A few cipher keys of N columns: the zero key, and pseudo-random ones.
fn some_keys<const N: usize>() -> Vec<Matrix<N>> {
    let mut generator = Generator::new(20);
    let mut keys = vec![Matrix::zero()];
    for _ in 0..8 {
        let bytes = generator.bytes(3 * N);
        keys.push(cipher_key(&bytes).expect("a key of the right length"));
    }
    keys
}

/// The basis of M_N of section 3.7: matrices with a single entry 1.
fn basis<const N: usize>() -> Vec<Matrix<N>> {
    let mut elements = Vec::new();
    for k in 0..3 {
        for l in 0..N {
            elements.push(Matrix::from_rule(|i, j| u8::from((i, j) == (k, l))));
        }
    }
    elements
}

#[test]
fn the_user_key_fills_the_cipher_key_by_columns() {
    let user_key: Vec<u8> = (0..18).collect();
    let key: Matrix<6> = cipher_key(&user_key).expect("18 bytes are 6 columns");
    assert_eq!(key.rows[0], [0, 3, 6, 9, 12, 15]);
    assert_eq!(key.rows[1], [1, 4, 7, 10, 13, 16]);
    assert_eq!(key.rows[2], [2, 5, 8, 11, 14, 17]);
    assert_eq!(key.to_bytes(), user_key);
    assert_eq!(cipher_key::<4>(&user_key), Err(Error::KeyLength(18)));
}

/// Section 3.6 says that exactly t S-box entries are used per round. By its own
/// definition they are 2t.
fn check_constants<const N: usize>() {
    assert_eq!(schedule_constant::<N>(0), Matrix::zero());
    let mut used = Vec::new();
    for s in 1..3 * N {
        let constant = schedule_constant::<N>(s);
        assert_eq!(constant.rows[1], [0; N]);
        assert_eq!(constant.rows[2], [0; N]);
        used.extend(constant.rows[0]);
    }
    let expected: Vec<u8> = (0..=255).take(N * (3 * N - 1)).map(substitute).collect();
    assert_eq!(used, expected);
}

#[test]
fn the_constants_take_two_t_sbox_entries_per_round() {
    check_constants::<4>();
    check_constants::<6>();
    check_constants::<8>();
}

/// Whether every two constants of the schedule are different.
fn constants_differ<const N: usize>() -> bool {
    (0..3 * N).all(|s| (0..s).all(|r| schedule_constant::<N>(r) != schedule_constant(s)))
}

/// The constants of the schedule that have a byte FF, in which all bit
/// positions are equal.
fn constants_with_ff<const N: usize>() -> Vec<usize> {
    (1..3 * N)
        .filter(|s| schedule_constant::<N>(*s).rows[0].contains(&0xFF))
        .collect()
}

/// Section 3.6: constants are different in each round; they should also not be
/// "equal for all bit positions in a byte". Among the bytes taken from the S-box
/// one is FF (that is S[42]), in q^(12) for t = 3 and in q^(9) for t = 4.
#[test]
fn the_constants_differ_but_one_byte_is_ff() {
    assert!(constants_differ::<4>() && constants_differ::<6>() && constants_differ::<8>());
    assert!(constants_with_ff::<4>().is_empty());
    assert_eq!(constants_with_ff::<6>(), [12]);
    assert_eq!(constants_with_ff::<8>(), [9]);
}

#[test]
fn xi_rotates_rows_in_the_stated_directions() {
    let a: Matrix<4> = Matrix {
        rows: [[0, 1, 2, 3], [10, 11, 12, 13], [20, 21, 22, 23]],
    };
    let b: Matrix<4> = Matrix {
        rows: [[0, 1, 2, 3], [11, 12, 13, 10], [23, 20, 21, 22]],
    };
    assert_eq!(xi(&a), b);
}

#[test]
fn mu_has_the_stated_inverse() {
    let inverse_e = e_matrix().inverse().expect("E is invertible");
    for key in some_keys::<8>() {
        assert_eq!(inverse_e.times(&mu(&key)), key);
    }
    // c^3 = 1 makes E^3 = I.
    let e = e_matrix();
    assert_eq!(e.times(&e.times(&e)), IDENTITY);
}

/// Section 3.7: omega is xi first and mu second. A single 1 at the start of the
/// second row moves to the last column, which is then multiplied by E.
#[test]
fn omega_rotates_before_it_mixes() {
    let a: Matrix<4> = Matrix {
        rows: [[0; 4], [1, 0, 0, 0], [0; 4]],
    };
    let b: Matrix<4> = Matrix {
        rows: [[0, 0, 0, 0x1C], [0, 0, 0, 0x1D], [0, 0, 0, 0x1C]],
    };
    assert_eq!(omega(&a), b);
}

/// Section 3.7: on each element of the basis, omega^m is the identity for
/// m = 6t and for no smaller positive m. As omega is linear over GF(2^8), it
/// has period exactly 6t on M_2t.
fn check_period<const N: usize>() {
    for element in basis::<N>() {
        let mut image = element;
        for _ in 1..3 * N {
            image = omega(&image);
            assert_ne!(image, element);
        }
        assert_eq!(omega(&image), element);
    }
}

#[test]
fn omega_has_period_exactly_six_t() {
    check_period::<4>();
    check_period::<6>();
    check_period::<8>();
}

/// What the check on the basis rests on.
fn check_linearity<const N: usize>() {
    for a in some_keys::<N>() {
        for b in some_keys::<N>() {
            let combination = a.scaled(0x53).plus(&b);
            let images = omega(&a).scaled(0x53).plus(&omega(&b));
            assert_eq!(omega(&combination), images);
        }
    }
}

#[test]
fn omega_is_linear() {
    check_linearity::<4>();
    check_linearity::<6>();
    check_linearity::<8>();
}

/// Section 3.7: K^(r) = omega^r(K) + Q^(r).
fn check_closed_form<const N: usize>() {
    for r in 0..3 * N {
        let constant = accumulated_constant(r);
        for key in some_keys::<N>() {
            let closed_form = omega_power(r, &key).plus(&constant);
            assert_eq!(key_stage(&key, r), closed_form);
        }
    }
}

#[test]
fn the_closed_form_of_a_stage_holds() {
    check_closed_form::<4>();
    check_closed_form::<6>();
    check_closed_form::<8>();
}

/// Section 3.7 with m = 6t: "K = omega(K^(m-1)) + Q^(m-1)". As printed, this is
/// false for every key. It misses K by the same nonzero amount,
/// omega(Q^(m-1)) + Q^(m-1), whatever the key.
fn check_printed_recovery_fails<const N: usize>() {
    let m = 3 * N;
    let constant: Matrix<N> = accumulated_constant(m - 1);
    let error = omega(&constant).plus(&constant);
    assert_ne!(error, Matrix::zero());
    for key in some_keys::<N>() {
        let printed = omega(&key_stage(&key, m - 1)).plus(&constant);
        assert_eq!(printed, key.plus(&error));
        assert_ne!(printed, key);
    }
}

#[test]
fn the_printed_recovery_of_the_key_is_false() {
    check_printed_recovery_fails::<4>();
    check_printed_recovery_fails::<6>();
    check_printed_recovery_fails::<8>();
}

/// What is true instead, with m = 6t: Q^(m-1) is to be added before omega, or
/// omega(Q^(m-1)) after it; or one more step of the schedule is made, and then
/// Q^(m) is added.
fn check_true_recovery<const N: usize>() {
    let m = 3 * N;
    let constant: Matrix<N> = accumulated_constant(m - 1);
    for key in some_keys::<N>() {
        let last = key_stage(&key, m - 1);
        assert_eq!(omega(&last.plus(&constant)), key);
        assert_eq!(omega(&last).plus(&omega(&constant)), key);
        assert_eq!(psi(m, &last).plus(&accumulated_constant(m)), key);
    }
}

#[test]
fn the_key_is_recovered_if_the_constant_is_added_before_omega() {
    check_true_recovery::<4>();
    check_true_recovery::<6>();
    check_true_recovery::<8>();
}

/// The constants that README.md prints for the recovery of the key.
fn check_recovery_constants<const N: usize>(constant: &str, image: &str) {
    let computed: Matrix<N> = accumulated_constant(3 * N - 1);
    assert_eq!(hex(&computed.to_bytes()), constant);
    assert_eq!(hex(&omega(&computed).to_bytes()), image);
}

#[test]
fn the_recovery_constants_of_the_readme_are_right() {
    check_recovery_constants::<4>("129b2e3b5b649eae1b0a310e", "e8a1f434a121e54a1fc352d2");
    check_recovery_constants::<6>(
        "1377e3aabf5ad61138c08949fdae13124e6b",
        "f8548069d220bae536abc55340f3f42e4b2f",
    );
    check_recovery_constants::<8>(
        "de830c3728881ad6223f464e18ed167cad899c8707980488",
        "02f45453b2685804ca5a8847b90cef18e3720d9518859e1a",
    );
}

/// The rows of the test of xi, the other way round.
#[test]
fn the_inverse_of_xi_rotates_rows_back() {
    let b: Matrix<4> = Matrix {
        rows: [[0, 1, 2, 3], [11, 12, 13, 10], [23, 20, 21, 22]],
    };
    let a: Matrix<4> = Matrix {
        rows: [[0, 1, 2, 3], [10, 11, 12, 13], [20, 21, 22, 23]],
    };
    assert_eq!(inverse_xi(&b), a);
}

/// The inverses undo the maps of section 3.7, and the maps undo the inverses, on the
/// basis and on keys.
fn check_inverses<const N: usize>() {
    for a in basis::<N>().iter().chain(&some_keys()) {
        assert_eq!((inverse_xi(&xi(a)), xi(&inverse_xi(a))), (*a, *a));
        assert_eq!((inverse_mu(&mu(a)), mu(&inverse_mu(a))), (*a, *a));
        assert_eq!(inverse_omega(&omega(a)), *a);
        assert_eq!(omega(&inverse_omega(a)), *a);
        for r in 1..3 * N {
            assert_eq!(inverse_psi(r, &psi(r, a)), *a);
            assert_eq!(psi(r, &inverse_psi(r, a)), *a);
        }
    }
}

#[test]
fn the_literal_inverses_undo_the_schedule() {
    check_inverses::<4>();
    check_inverses::<6>();
    check_inverses::<8>();
}

/// With m = 6t, omega^m is the identity, so that the inverse of omega is
/// omega^(m-1).
fn check_inverse_by_the_period<const N: usize>() {
    for key in some_keys::<N>() {
        assert_eq!(inverse_omega(&key), omega_power(3 * N - 1, &key));
    }
}

#[test]
fn the_inverse_of_omega_is_the_one_of_its_period() {
    check_inverse_by_the_period::<4>();
    check_inverse_by_the_period::<6>();
    check_inverse_by_the_period::<8>();
}

/// Every stage gives back its key. By the closed form the key is
/// omega^(m-r)(K^(r) + Q^(r)) with m = 6t, which for r = m - 1 is the recovery of
/// the key above.
fn check_keys_of_stages<const N: usize>() {
    for key in some_keys::<N>() {
        for r in 0..3 * N {
            let stage = key_stage(&key, r);
            assert_eq!(key_of_stage(&stage, r), key);
            let sum = stage.plus(&accumulated_constant(r));
            assert_eq!(omega_power(3 * N - r, &sum), key);
        }
    }
}

#[test]
fn every_stage_gives_back_its_key() {
    check_keys_of_stages::<4>();
    check_keys_of_stages::<6>();
    check_keys_of_stages::<8>();
}

/// Whatever stands at a stage, there is a key that has it there.
fn check_stages_of_keys<const N: usize>() {
    for stage in some_keys::<N>() {
        for r in 0..3 * N {
            assert_eq!(key_stage(&key_of_stage(&stage, r), r), stage);
        }
    }
}

#[test]
fn every_matrix_is_a_stage_of_some_key() {
    check_stages_of_keys::<4>();
    check_stages_of_keys::<6>();
    check_stages_of_keys::<8>();
}

/// Section 3.8: S on the first row, the rest as it is, four columns.
#[test]
fn the_subkey_is_the_first_four_columns() {
    let stage: Matrix<6> = Matrix {
        rows: [
            [0, 1, 2, 3, 4, 5],
            [10, 11, 12, 13, 14, 15],
            [20, 21, 22, 23, 24, 25],
        ],
    };
    let subkey = select(&stage);
    assert_eq!(subkey.rows[0], [0, 1, 2, 3].map(substitute));
    assert_eq!(subkey.rows[1], [10, 11, 12, 13]);
    assert_eq!(subkey.rows[2], [20, 21, 22, 23]);
}

/// Sections 3.7 and 3.8: subkeys follow the stages, from stage 0 on.
fn check_subkeys<const N: usize>() {
    for key in some_keys::<N>() {
        let subkeys = round_subkeys(&key.to_bytes(), 3 * N - 1).expect("an allowed key length");
        assert_eq!(subkeys.len(), 3 * N);
        for (r, subkey) in subkeys.iter().enumerate() {
            assert_eq!(*subkey, select(&key_stage(&key, r)));
        }
    }
}

#[test]
fn the_subkeys_are_selected_from_the_stages() {
    check_subkeys::<4>();
    check_subkeys::<6>();
    check_subkeys::<8>();
    assert_eq!(round_subkeys(&[0; 13], 10), Err(Error::KeyLength(13)));
}

/// Many cipher keys of N columns: the zero key, the key that is all ones, and
/// pseudo-random ones.
fn many_keys<const N: usize>() -> Vec<Matrix<N>> {
    let mut generator = Generator::new(21);
    let mut keys = vec![Matrix::zero(), Matrix::from_rule(|_, _| 0xFF)];
    for _ in 0..64 {
        let bytes = generator.bytes(3 * N);
        keys.push(cipher_key(&bytes).expect("a key of the right length"));
    }
    keys
}

/// The one statement about the constants of the steps: for every key and for each s
/// from 1 to 6t, the stage at s modulo 6t is omega of the stage s - 1 plus the constant
/// of step s. The stages are those of section 3.7, each from the key.
fn check_every_step<const N: usize>() {
    let turn = 3 * N;
    for s in 1..=turn {
        let constant = step_constant(s);
        for key in many_keys::<N>() {
            let sum = key_stage(&key, s - 1).plus(&constant);
            assert_eq!(omega(&sum), key_stage(&key, s % turn), "step {}", s);
        }
    }
}

#[test]
fn every_step_of_a_turn_adds_its_constant_before_omega() {
    check_every_step::<4>();
    check_every_step::<6>();
    check_every_step::<8>();
}

/// The steps of the paper are those with the constants of the steps, from step 1 to
/// step 6t - 1. In the step after these psi adds q^(6t), as it is defined, which is
/// not the closing sum.
fn check_paper_steps<const N: usize>() {
    let turn = 3 * N;
    for a in some_keys::<N>() {
        for r in 1..turn {
            let constant = step_constant(r);
            assert_eq!(psi(r, &a), omega(&a.plus(&constant)));
            assert_eq!(inverse_psi(r, &a), inverse_omega(&a).plus(&constant));
        }
        assert_ne!(psi(turn, &a), omega(&a.plus(&step_constant(turn))));
    }
}

#[test]
fn the_steps_of_the_paper_add_the_same_constants() {
    check_paper_steps::<4>();
    check_paper_steps::<6>();
    check_paper_steps::<8>();
}

/// The constant of step 6t is what the steps of the paper make of the zero key. It is
/// Q^(6t-1) of section 3.7. For any key it is what has to be added to the last stage,
/// so that omega gives the key.
fn check_closing_constant<const N: usize>() {
    let last = 3 * N - 1;
    let constant = step_constant::<N>(last + 1);
    assert_eq!(constant, closing_sum());
    assert_eq!(constant, accumulated_constant(last));
    assert_eq!(
        constant,
        (1..=last).fold(Matrix::zero(), |stage, r| psi(r, &stage))
    );
    for key in some_keys::<N>() {
        let before = inverse_omega(&key);
        assert_eq!(key_stage(&key, last).plus(&before), constant);
    }
}

#[test]
fn the_constant_of_the_last_step_is_the_closing_sum() {
    check_closing_constant::<4>();
    check_closing_constant::<6>();
    check_closing_constant::<8>();
}

/// Numbers above 6t, near and far: a sweep, the powers of two and their neighbours, and
/// numbers with which 2t(s-1) or 2t(s-1) + j would pass the greatest number or come
/// back from there to a small one.
fn numbers_above_a_turn<const N: usize>() -> Vec<usize> {
    let turn = 3 * N;
    let mut numbers: Vec<usize> = (turn + 1..=turn + 5_000).collect();
    for exponent in 8..usize::BITS {
        let power = 1 << exponent;
        numbers.extend([power - 1, power, power + 1, power + turn]);
    }
    let last = usize::MAX / N;
    numbers.extend([last, last + 1, last + 2, last + 3]);
    numbers.extend([usize::MAX - turn, usize::MAX - 1, usize::MAX]);
    numbers
}

/// The constant is zero for all numbers outside a turn, and for none of its steps.
fn check_zero_constants<const N: usize>() {
    assert_eq!(step_constant::<N>(0), Matrix::zero());
    for s in 1..=3 * N {
        assert_ne!(step_constant::<N>(s), Matrix::zero(), "step {}", s);
    }
    for s in numbers_above_a_turn::<N>() {
        assert!(s > 3 * N);
        assert_eq!(step_constant::<N>(s), Matrix::zero(), "step {}", s);
        let bytes = step_constant_bytes(3 * N, s);
        assert_eq!(bytes, Ok(vec![0; 3 * N]), "step {}", s);
    }
}

#[test]
fn the_constant_is_zero_outside_a_turn_only() {
    check_zero_constants::<4>();
    check_zero_constants::<6>();
    check_zero_constants::<8>();
}

/// Every constant differs from the one before, so that a number off by one shows: omega
/// takes no other sum to the stage. Every two constants of a turn differ.
fn check_constants_tell_steps_apart<const N: usize>() {
    let turn = 3 * N;
    let key = many_keys::<N>()[2];
    for s in 1..=turn {
        for other in (0..=turn + 1).filter(|other| *other != s) {
            let constant = step_constant(other);
            assert_ne!(constant, step_constant::<N>(s));
            let sum = key_stage(&key, s - 1).plus(&constant);
            assert_ne!(omega(&sum), key_stage(&key, s % turn));
        }
    }
}

#[test]
fn no_step_has_the_constant_of_another() {
    check_constants_tell_steps_apart::<4>();
    check_constants_tell_steps_apart::<6>();
    check_constants_tell_steps_apart::<8>();
}

/// One step forward from a place, by the constants alone: the place after it and the
/// stage there.
fn stepped_forward<const N: usize>(place: usize, stage: &Matrix<N>) -> (usize, Matrix<N>) {
    let s = place + 1;
    (s % (3 * N), omega(&stage.plus(&step_constant(s))))
}

/// One step back from a place, by the constants alone.
fn stepped_back<const N: usize>(place: usize, stage: &Matrix<N>) -> (usize, Matrix<N>) {
    let s = if place == 0 { 3 * N } else { place };
    (s - 1, inverse_omega(stage).plus(&step_constant(s)))
}

/// So many steps one way, by the constants alone.
fn stepped<const N: usize>(
    place: usize,
    stage: &Matrix<N>,
    steps: usize,
    way: Way,
) -> (usize, Matrix<N>) {
    let step = match way {
        Way::Forward => stepped_forward,
        Way::Back => stepped_back,
    };
    (0..steps).fold((place, *stage), |(place, stage), _| step(place, &stage))
}

/// A full turn, which is 6t steps on end one way, comes back to where it starts, from
/// any place and whatever the stage there.
fn check_full_turns<const N: usize>() {
    let turn = 3 * N;
    for stage in some_keys::<N>() {
        for place in 0..turn {
            for way in [Way::Forward, Way::Back] {
                let after = stepped(place, &stage, turn, way);
                assert_eq!(after, (place, stage));
            }
        }
    }
}

#[test]
fn full_turns_by_the_constants_come_back() {
    check_full_turns::<4>();
    check_full_turns::<6>();
    check_full_turns::<8>();
}

/// A walk by the constants alone arrives at the stage that the steps of the paper make
/// of the key, from every place to every place. So do the steps straight from the key.
fn check_walks<const N: usize>() {
    let turn = 3 * N;
    let key = many_keys::<N>()[2];
    let stages: Vec<Matrix<N>> = (0..turn).map(|s| key_stage(&key, s)).collect();
    for (to, stage) in stages.iter().enumerate() {
        for (from, start) in stages.iter().enumerate() {
            let walked = walk(turn, from, to);
            let arrived = stepped(from, start, walked.steps, walked.way);
            assert_eq!(arrived, (to, *stage));
        }
        assert_eq!(stepped(0, &key, to, Way::Forward), (to, *stage));
    }
}

#[test]
fn walks_by_the_constants_arrive_at_the_stages() {
    check_walks::<4>();
    check_walks::<6>();
    check_walks::<8>();
}

/// The bytes of the constants by the formula of section 3.6: byte 3j is
/// S[2t(s-1) + j] for steps 1 to 6t - 1, and all others are zero.
fn check_constant_bytes<const N: usize>() {
    let turn = 3 * N;
    for s in 0..=turn + 1 {
        let bytes = step_constant_bytes(turn, s).expect("an allowed key length");
        assert_eq!(bytes, step_constant::<N>(s).to_bytes());
        if (1..turn).contains(&s) {
            let mut expected = vec![0; turn];
            for j in 0..N {
                expected[3 * j] = substitute((N * (s - 1) + j) as u8);
            }
            assert_eq!(bytes, expected);
        }
    }
}

#[test]
fn the_bytes_of_the_constants_stand_by_columns() {
    check_constant_bytes::<4>();
    check_constant_bytes::<6>();
    check_constant_bytes::<8>();
}

/// The refusal is that of any other length of a key, whatever the step.
#[test]
fn other_key_lengths_have_no_constants() {
    for key_length in [0, 4, 6, 11, 13, 17, 19, 23, 25, 30, usize::MAX] {
        for s in [0, 1, 12, 25, usize::MAX] {
            let refused = step_constant_bytes(key_length, s);
            assert_eq!(refused, Err(Error::KeyLength(key_length)));
        }
    }
}
