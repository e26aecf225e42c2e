//! The key schedule (sections 3.5 to 3.8).
//!
//! A key of 48t bits is a matrix of N = 2t columns, so that N is 4, 6 or 8 and
//! the period 6t of the schedule is 3N.
//!
//! The inverses of xi, mu, omega and psi_r are written out on their own: they do
//! not lean on the paper's claims about the period of omega and the recovery of
//! the key (section 3.7), so that these can be tested. The cipher does not need
//! them.
//!
//! The closing sum and the constant for every step number stand last. The paper does
//! not have the latter, and the steps of the schedule do not use it: psi_r adds q^(r),
//! as it is defined, for r = 6t too.

use crate::error::Error;
use crate::layers::{inverse_sigma, sigma};
use crate::matrix::{Matrix, State, C, IDENTITY};
use crate::{field, sbox};

/// The cipher key K of a user key (section 3.5): byte i + 3j of the user key is
/// the entry in row i and column j.
pub fn cipher_key<const N: usize>(user_key: &[u8]) -> Result<Matrix<N>, Error> {
    Matrix::from_bytes(user_key).ok_or(Error::KeyLength(user_key.len()))
}

/// The schedule constant q^(s) (section 3.6): zero for s = 0; otherwise its
/// first row holds S[2t(s-1) + j] in column j and its other rows are zero.
///
/// Panics if 2t(s-1) + j would be no byte; the schedule stays far below that.
pub fn schedule_constant<const N: usize>(s: usize) -> Matrix<N> {
    Matrix::from_rule(|i, j| {
        if s > 0 && i == 0 {
            let index = u8::try_from(N * (s - 1) + j).expect("the index is a byte");
            sbox::substitute(index)
        } else {
            0
        }
    })
}

/// The transform xi (section 3.7): the first row stays, the second is rotated
/// one position to the left, the third one position to the right.
pub fn xi<const N: usize>(a: &Matrix<N>) -> Matrix<N> {
    Matrix::from_rule(|i, j| match i {
        0 => a.rows[0][j],
        1 => a.rows[1][(j + 1) % N],
        _ => a.rows[2][(j + N - 1) % N],
    })
}

/// The matrix E = I + cC (sections 2.3 and 3.7).
pub fn e_matrix() -> Matrix<3> {
    IDENTITY.plus(&C.scaled(field::CUBE_ROOT))
}

/// The transform mu (section 3.7): the product E * a.
pub fn mu<const N: usize>(a: &Matrix<N>) -> Matrix<N> {
    e_matrix().times(a)
}

/// The transform omega (section 3.7): first xi, then mu.
pub fn omega<const N: usize>(a: &Matrix<N>) -> Matrix<N> {
    mu(&xi(a))
}

/// The power omega^m (section 3.7): omega applied m times.
pub fn omega_power<const N: usize>(m: usize, a: &Matrix<N>) -> Matrix<N> {
    let mut result = *a;
    for _ in 0..m {
        result = omega(&result);
    }
    result
}

/// The accumulated schedule constant Q^(s) (section 3.7): the sum of
/// omega^(s-i+1)(q^(i)) for i from 0 to s. The stages are not computed from it;
/// it is here to test the closed form.
pub fn accumulated_constant<const N: usize>(s: usize) -> Matrix<N> {
    let mut sum = Matrix::zero();
    for i in 0..=s {
        sum = sum.plus(&omega_power(s - i + 1, &schedule_constant(i)));
    }
    sum
}

/// The key evolution psi_r (section 3.7): first sigma[q^(r)], then omega. It
/// takes the key stage r - 1 to the key stage r.
pub fn psi<const N: usize>(r: usize, previous_stage: &Matrix<N>) -> Matrix<N> {
    omega(&sigma(&schedule_constant(r), previous_stage))
}

/// The key stage K^(r) (section 3.7): psi_1, ..., psi_r applied to the key.
pub fn key_stage<const N: usize>(key: &Matrix<N>, r: usize) -> Matrix<N> {
    let mut stage = *key;
    for i in 1..=r {
        stage = psi(i, &stage);
    }
    stage
}

/// The inverse of xi (section 3.7): every entry goes back to the column from which
/// xi took it.
pub fn inverse_xi<const N: usize>(b: &Matrix<N>) -> Matrix<N> {
    let mut a = Matrix::zero();
    for j in 0..N {
        a.rows[0][j] = b.rows[0][j];
        a.rows[1][(j + 1) % N] = b.rows[1][j];
        a.rows[2][(j + N - 1) % N] = b.rows[2][j];
    }
    a
}

/// The inverse of mu (section 3.7): the product E^-1 * b, with the inverse matrix
/// computed from its minors.
pub fn inverse_mu<const N: usize>(b: &Matrix<N>) -> Matrix<N> {
    e_matrix().inverse().expect("E is invertible").times(b)
}

/// The inverse of omega (section 3.7): mu and xi are undone in this order.
pub fn inverse_omega<const N: usize>(b: &Matrix<N>) -> Matrix<N> {
    inverse_xi(&inverse_mu(b))
}

/// The inverse of psi_r (section 3.7): omega and sigma[q^(r)] are undone in this
/// order. It takes the key stage r to the key stage r - 1.
pub fn inverse_psi<const N: usize>(r: usize, stage: &Matrix<N>) -> Matrix<N> {
    inverse_sigma(&schedule_constant(r), &inverse_omega(stage))
}

/// The key whose key stage r is the given one (section 3.7): psi_r, ..., psi_1 are
/// undone in this order.
pub fn key_of_stage<const N: usize>(stage: &Matrix<N>, r: usize) -> Matrix<N> {
    let mut key = *stage;
    for i in (1..=r).rev() {
        key = inverse_psi(i, &key);
    }
    key
}

/// The key selection phi (section 3.8), given the key stage: the subkey is the
/// first four columns of the stage, with S applied to the first row.
pub fn select<const N: usize>(stage: &Matrix<N>) -> State {
    Matrix::from_rule(|i, j| {
        if i == 0 {
            sbox::substitute(stage.rows[0][j])
        } else {
            stage.rows[i][j]
        }
    })
}

/// The round subkeys 0 to R of a user key of 12, 18 or 24 bytes (sections 3.5
/// to 3.8). The number of rounds is not checked here.
pub fn round_subkeys(user_key: &[u8], rounds: usize) -> Result<Vec<State>, Error> {
    match user_key.len() {
        12 => Ok(subkeys_of(&cipher_key::<4>(user_key)?, rounds)),
        18 => Ok(subkeys_of(&cipher_key::<6>(user_key)?, rounds)),
        24 => Ok(subkeys_of(&cipher_key::<8>(user_key)?, rounds)),
        other => Err(Error::KeyLength(other)),
    }
}

/// The round subkeys 0 to R of a cipher key (section 3.8), each from its own
/// key stage.
fn subkeys_of<const N: usize>(key: &Matrix<N>, rounds: usize) -> Vec<State> {
    (0..=rounds).map(|r| select(&key_stage(key, r))).collect()
}

/// The closing sum: what the 6t - 1 = 3N - 1 steps of the schedule make of the zero
/// key. The last stage of any key plus this sum is taken back to the key by omega
/// (section 3.7; README.md says what is wrong in print there).
pub fn closing_sum<const N: usize>() -> Matrix<N> {
    key_stage(&Matrix::zero(), 3 * N - 1)
}

/// The constant of step s, for every number s. Step s takes the stage s - 1 plus this
/// constant to the stage s modulo 6t by omega. It is q^(s) (section 3.6) for s from 1
/// to 6t - 1 = 3N - 1, and the closing sum for s = 6t. A turn has no other steps; the
/// constant for 0 and above 6t is zero.
///
/// Never panics: no index is reckoned from a number of 6t or more.
pub fn step_constant<const N: usize>(s: usize) -> Matrix<N> {
    let turn = 3 * N;
    if s == 0 || s > turn {
        Matrix::zero()
    } else if s == turn {
        closing_sum()
    } else {
        schedule_constant(s)
    }
}

/// The bytes of the constant of step s, by columns, for keys of 12, 18 or 24 bytes.
/// There are as many as the key has.
pub fn step_constant_bytes(key_length: usize, s: usize) -> Result<Vec<u8>, Error> {
    match key_length {
        12 => Ok(step_constant::<4>(s).to_bytes()),
        18 => Ok(step_constant::<6>(s).to_bytes()),
        24 => Ok(step_constant::<8>(s).to_bytes()),
        other => Err(Error::KeyLength(other)),
    }
}
