//! What section 2.3 says about the matrices A to E, what section 3.3 says about
//! circulant matrices, and Algorithms 2 and 3.

use curupira_reference::field::{add, inverse, multiply, CUBE_ROOT};
use curupira_reference::generator::Generator;
use curupira_reference::layers::{theta, D};
use curupira_reference::matrix::{Matrix, A, B, C, IDENTITY};
use curupira_reference::schedule::{e_matrix, mu};

/// Section 2.3: the matrix I + aA + bB.
fn d_of(a: u8, b: u8) -> Matrix<3> {
    IDENTITY.plus(&A.scaled(a)).plus(&B.scaled(b))
}

/// Section 2.3: the matrix I + cC.
fn e_of(c: u8) -> Matrix<3> {
    IDENTITY.plus(&C.scaled(c))
}

/// The determinants of all square submatrices of orders 1 and 2.
fn small_determinants(matrix: &Matrix<3>) -> Vec<u8> {
    let mut found = Vec::new();
    for i in 0..3 {
        for j in 0..3 {
            found.push(matrix.rows[i][j]);
            found.push(matrix.minor(i, j));
        }
    }
    found
}

/// Section 2.2: a matrix gives an MDS code iff all its square submatrices are
/// nonsingular.
fn is_mds(matrix: &Matrix<3>) -> bool {
    matrix.determinant() != 0 && small_determinants(matrix).iter().all(|d| *d != 0)
}

/// The circulant matrix of order 3 with the given first row.
fn circulant(first_row: [u8; 3]) -> Matrix<3> {
    Matrix::from_rule(|i, j| first_row[(j + 3 - i) % 3])
}

/// A column drawn from the generator.
fn draw_column(generator: &mut Generator) -> Matrix<1> {
    let bytes = generator.bytes(3);
    Matrix::from_rule(|i, _| bytes[i])
}

#[test]
fn a_and_b_are_nilpotent_and_c_is_idempotent() {
    assert_eq!(A.times(&A), Matrix::zero());
    assert_eq!(B.times(&B), Matrix::zero());
    assert_eq!(C.times(&C), C);
    assert_eq!(A.times(&B), Matrix::zero());
    assert_eq!(B.times(&A), Matrix::zero());
}

#[test]
fn every_matrix_of_the_form_of_d_is_an_involution() {
    for a in 0..=255 {
        for b in 0..=255 {
            let d = d_of(a, b);
            assert_eq!(d.times(&d), IDENTITY);
        }
    }
}

/// Section 2.3: the determinants of the square submatrices of D take one of the
/// forms a, a+1, b, b+1, a+b, a+b+1. This holds for orders 1 and 2; the
/// determinant of D itself is always 1, which the paper's list leaves out.
#[test]
fn the_submatrices_of_d_have_the_stated_determinants() {
    for a in 0..=255 {
        for b in 0..=255 {
            let d = d_of(a, b);
            let forms = [a, a ^ 1, b, b ^ 1, a ^ b, a ^ b ^ 1];
            assert!(small_determinants(&d).iter().all(|x| forms.contains(x)));
            assert_eq!(d.determinant(), 1);
        }
    }
    let forms_of_the_chosen_d = [2, 3, 4, 5, 6, 7];
    assert!(!forms_of_the_chosen_d.contains(&D.determinant()));
}

#[test]
fn d_is_mds_exactly_under_the_stated_condition() {
    for a in 0..=255 {
        for b in 0..=255 {
            let stated = a > 1 && b > 1 && b != a && b != a ^ 1;
            assert_eq!(is_mds(&d_of(a, b)), stated);
        }
    }
}

#[test]
fn the_printed_d_is_the_chosen_one() {
    assert_eq!(D, d_of(2, 4));
    assert!(is_mds(&D));
    // Coefficients of degree below 2 on both sides would not do.
    assert!((0..4).all(|a| (0..4).all(|b| !is_mds(&d_of(a, b)))));
    assert_eq!(D.inverse(), Some(D));
}

#[test]
fn e_is_invertible_unless_c_is_one() {
    for c in 0..=255 {
        match inverse(add(c, 1)) {
            Some(reciprocal) => {
                let stated = e_of(multiply(c, reciprocal));
                assert_eq!(e_of(c).times(&stated), IDENTITY);
                assert_eq!(e_of(c).inverse(), Some(stated));
            }
            None => {
                assert_eq!(c, 1);
                assert_eq!(e_of(c).inverse(), None);
            }
        }
    }
}

#[test]
fn the_submatrices_of_e_have_the_stated_determinants() {
    for c in 0..=255 {
        let e = e_of(c);
        let forms = [1, c, c ^ 1];
        assert!(small_determinants(&e).iter().all(|x| forms.contains(x)));
        assert!(forms.contains(&e.determinant()));
        assert_eq!(is_mds(&e), c > 1);
    }
}

#[test]
fn the_chosen_e_has_the_simple_inverse() {
    let e = e_matrix();
    let stated_inverse = e_of(add(CUBE_ROOT, 1));
    assert_eq!(e, e_of(CUBE_ROOT));
    assert_eq!(e.times(&stated_inverse), IDENTITY);
    assert_eq!(stated_inverse.times(&e), IDENTITY);
    assert_eq!(e.inverse(), Some(stated_inverse));
    assert!(is_mds(&e));
}

/// The general inverse, on which the literal decryption rests.
#[test]
fn the_general_inverse_is_one_on_both_sides() {
    let mut generator = Generator::new(2);
    let mut invertible = 0;
    for _ in 0..1000 {
        let bytes = generator.bytes(9);
        let matrix: Matrix<3> = Matrix::from_rule(|i, j| bytes[i + 3 * j]);
        if let Some(inverse) = matrix.inverse() {
            assert_eq!(matrix.times(&inverse), IDENTITY);
            assert_eq!(inverse.times(&matrix), IDENTITY);
            invertible += 1;
        }
    }
    assert!(invertible > 900);
}

/// Section 3.3: "no circulant matrix can be involutorial". The identity matrix
/// is circulant and is its own inverse. It is the only one of order 3: the
/// square of circ(a, b, c) is circ(a^2, c^2, b^2), and this is the identity only
/// if a = 1 and b = c = 0. In order 2 there are others, such as circ(2, 3).
#[test]
fn the_identity_is_the_only_circulant_involution_of_order_three() {
    let mut generator = Generator::new(3);
    for _ in 0..1000 {
        let row = [generator.byte(), generator.byte(), generator.byte()];
        let [a, b, c] = row.map(|x| multiply(x, x));
        assert_eq!(circulant(row).times(&circulant(row)), circulant([a, c, b]));
    }
    let roots_of =
        |value: u8| -> Vec<u8> { (0..=255).filter(|x| multiply(*x, *x) == value).collect() };
    assert_eq!(roots_of(0), [0]);
    assert_eq!(roots_of(1), [1]);
    assert_eq!(circulant([1, 0, 0]), IDENTITY);

    // The square of circ(2, 3) has 2*2 + 3*3 on the diagonal, 2*3 + 3*2 off it.
    assert_eq!(add(multiply(2, 2), multiply(3, 3)), 1);
    assert_eq!(add(multiply(2, 3), multiply(3, 2)), 0);
}

/// Algorithm 2 computes D * a.
#[test]
fn algorithm_2_is_theta() {
    let mut generator = Generator::new(4);
    for _ in 0..1000 {
        let a = draw_column(&mut generator);
        let [a0, a1, a2] = [a.rows[0][0], a.rows[1][0], a.rows[2][0]];
        let v = multiply(2, a0 ^ a1 ^ a2);
        let w = multiply(2, v);
        let b = Matrix {
            rows: [[a0 ^ v], [a1 ^ w], [a2 ^ v ^ w]],
        };
        assert_eq!(theta(&a), b);
    }
}

/// Algorithm 3 computes E * a and E^-1 * a.
#[test]
fn algorithm_3_is_mu_and_its_inverse() {
    let mut generator = Generator::new(5);
    for _ in 0..1000 {
        let a = draw_column(&mut generator);
        let [a0, a1, a2] = [a.rows[0][0], a.rows[1][0], a.rows[2][0]];
        let sum = a0 ^ a1 ^ a2;
        let product = multiply(CUBE_ROOT, sum);
        let algorithm_3 = |v: u8| Matrix {
            rows: [[a0 ^ v], [a1 ^ v], [a2 ^ v]],
        };
        assert_eq!(mu(&a), algorithm_3(product));
        let inverse_e = e_matrix().inverse().expect("E is invertible");
        assert_eq!(inverse_e.times(&a), algorithm_3(product ^ sum));
    }
}
