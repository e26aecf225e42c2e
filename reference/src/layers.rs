//! The four layers of a round (sections 3.1 to 3.4) and their inverses.
//!
//! The inverses are written out on their own: they do not lean on the paper's
//! claim that each layer is an involution, so that this claim can be tested.

use crate::matrix::{Matrix, State};
use crate::{field, sbox};

/// The matrix D of the diffusion layer, as printed in section 3.3.
pub const D: Matrix<3> = Matrix {
    rows: [[3, 2, 2], [4, 5, 4], [6, 6, 7]],
};

/// The nonlinear layer gamma (section 3.1): b_{i,j} = S[a_{i,j}].
pub fn gamma<const N: usize>(a: &Matrix<N>) -> Matrix<N> {
    Matrix::from_rule(|i, j| sbox::substitute(a.rows[i][j]))
}

/// The permutation layer pi (section 3.2): b_{i,j} = a_{i, i xor j}.
///
/// The paper states it for any number of columns, but the rule stays inside the
/// matrix only if that number is a multiple of 4; the cipher uses 4.
pub fn pi(a: &State) -> State {
    Matrix::from_rule(|i, j| a.rows[i][i ^ j])
}

/// The linear diffusion layer theta (section 3.3): b = D * a.
pub fn theta<const N: usize>(a: &Matrix<N>) -> Matrix<N> {
    D.times(a)
}

/// The key addition sigma[k] (section 3.4): b_{i,j} = a_{i,j} xor k_{i,j}.
pub fn sigma<const N: usize>(k: &Matrix<N>, a: &Matrix<N>) -> Matrix<N> {
    Matrix::from_rule(|i, j| field::add(a.rows[i][j], k.rows[i][j]))
}

/// The inverse of gamma (section 3.1): every byte is replaced by its preimage.
pub fn inverse_gamma<const N: usize>(b: &Matrix<N>) -> Matrix<N> {
    Matrix::from_rule(|i, j| sbox::preimage(b.rows[i][j]))
}

/// The inverse of pi (section 3.2): b_{i,j} goes back to a_{i, i xor j}.
pub fn inverse_pi(b: &State) -> State {
    let mut a = State::zero();
    for i in 0..3 {
        for j in 0..4 {
            a.rows[i][i ^ j] = b.rows[i][j];
        }
    }
    a
}

/// The inverse of theta (section 3.3): a = D^-1 * b, with the inverse matrix
/// computed from its minors.
pub fn inverse_theta<const N: usize>(b: &Matrix<N>) -> Matrix<N> {
    D.inverse().expect("D is invertible").times(b)
}

/// The inverse of sigma[k] (section 3.4): the key is subtracted, which in
/// characteristic 2 is the same as adding it.
pub fn inverse_sigma<const N: usize>(k: &Matrix<N>, b: &Matrix<N>) -> Matrix<N> {
    Matrix::from_rule(|i, j| b.rows[i][j] ^ k.rows[i][j])
}
