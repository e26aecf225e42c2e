//! Matrices over GF(2^8) with three rows, and the matrices A, B and C of
//! section 2.3.

use crate::field;

/// An element of M_N (section 2.3): a matrix of 3 rows and N columns, in which
/// `rows[i][j]` is the entry in row i and column j.
#[derive(Clone, Copy, Debug, PartialEq, Eq)]
pub struct Matrix<const N: usize> {
    pub rows: [[u8; N]; 3],
}

/// A cipher state: an element of M_4 (section 3).
pub type State = Matrix<4>;

/// The nilpotent matrix A of section 2.3.
pub const A: Matrix<3> = Matrix {
    rows: [[1, 1, 1], [0, 0, 0], [1, 1, 1]],
};

/// The nilpotent matrix B of section 2.3.
pub const B: Matrix<3> = Matrix {
    rows: [[0, 0, 0], [1, 1, 1], [1, 1, 1]],
};

/// The idempotent matrix C of section 2.3.
pub const C: Matrix<3> = Matrix {
    rows: [[1, 1, 1], [1, 1, 1], [1, 1, 1]],
};

/// The identity matrix I of section 2.3.
pub const IDENTITY: Matrix<3> = Matrix {
    rows: [[1, 0, 0], [0, 1, 0], [0, 0, 1]],
};

impl<const N: usize> Matrix<N> {
    /// The matrix whose entry in row i and column j is `rule(i, j)`.
    pub fn from_rule(rule: impl Fn(usize, usize) -> u8) -> Self {
        let mut rows = [[0; N]; 3];
        for (i, row) in rows.iter_mut().enumerate() {
            for (j, entry) in row.iter_mut().enumerate() {
                *entry = rule(i, j);
            }
        }
        Matrix { rows }
    }

    /// The zero matrix O (section 2.3).
    pub fn zero() -> Self {
        Matrix::from_rule(|_, _| 0)
    }

    /// The matrix held by 3N bytes, by columns: byte i + 3j is the entry in row
    /// i and column j (section 3.5). Any other number of bytes gives none.
    pub fn from_bytes(bytes: &[u8]) -> Option<Self> {
        if bytes.len() == 3 * N {
            Some(Matrix::from_rule(|i, j| bytes[i + 3 * j]))
        } else {
            None
        }
    }

    /// The 3N bytes of the matrix, by columns (section 3.5, read backwards).
    pub fn to_bytes(&self) -> Vec<u8> {
        (0..3 * N).map(|k| self.rows[k % 3][k / 3]).collect()
    }

    /// The sum of two matrices, entry by entry (section 2.3).
    pub fn plus(&self, other: &Self) -> Self {
        Matrix::from_rule(|i, j| field::add(self.rows[i][j], other.rows[i][j]))
    }

    /// The product of a field element and the matrix, as in 2A or cC
    /// (section 2.3).
    pub fn scaled(&self, factor: u8) -> Self {
        Matrix::from_rule(|i, j| field::multiply(factor, self.rows[i][j]))
    }
}

impl Matrix<3> {
    /// The matrix product of this 3 x 3 matrix and a 3 x N matrix
    /// (sections 2.3, 3.3 and 3.7).
    pub fn times<const N: usize>(&self, other: &Matrix<N>) -> Matrix<N> {
        Matrix::from_rule(|i, j| {
            (0..3)
                .map(|k| field::multiply(self.rows[i][k], other.rows[k][j]))
                .fold(0, field::add)
        })
    }

    /// The determinant of what is left without row i and column j
    /// (section 2.3). Signs play no part in characteristic 2.
    pub fn minor(&self, i: usize, j: usize) -> u8 {
        let (top, bottom) = others(i);
        let (left, right) = others(j);
        field::add(
            field::multiply(self.rows[top][left], self.rows[bottom][right]),
            field::multiply(self.rows[top][right], self.rows[bottom][left]),
        )
    }

    /// The determinant, expanded along the first row (section 2.3).
    pub fn determinant(&self) -> u8 {
        (0..3)
            .map(|j| field::multiply(self.rows[0][j], self.minor(0, j)))
            .fold(0, field::add)
    }

    /// The inverse matrix: the transposed matrix of minors over the determinant
    /// (section 2.3 speaks of invertible matrices). A matrix of determinant 0
    /// has none.
    pub fn inverse(&self) -> Option<Self> {
        let factor = field::inverse(self.determinant())?;
        let transposed_minors: Matrix<3> = Matrix::from_rule(|i, j| self.minor(j, i));
        Some(transposed_minors.scaled(factor))
    }
}

/// The two indices from 0 to 2 that are not the given one, in order.
fn others(index: usize) -> (usize, usize) {
    match index {
        0 => (1, 2),
        1 => (0, 2),
        _ => (0, 1),
    }
}
