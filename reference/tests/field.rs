//! What section 2.1 says about the field, and the multiplications of section 5.

use curupira_reference::field::{add, inverse, multiply, power};
use curupira_reference::field::{CUBE_ROOT, GENERATOR, REDUCTION_POLYNOMIAL};

/// All field elements.
fn elements() -> impl Iterator<Item = u8> {
    0..=255
}

/// The product of two polynomials modulo a given one of degree 8. Unlike
/// `field::multiply`, it reduces after every shift.
fn multiply_modulo(a: u16, b: u16, modulus: u16) -> u16 {
    let mut product = 0;
    for k in (0..8).rev() {
        product <<= 1;
        if product & 0x100 != 0 {
            product ^= modulus;
        }
        if (b >> k) & 1 == 1 {
            product ^= a;
        }
    }
    product
}

/// The power x^n modulo a given polynomial of degree 8.
fn power_of_x_modulo(n: usize, modulus: u16) -> u16 {
    (0..n).fold(1, |power, _| multiply_modulo(power, 2, modulus))
}

/// Whether x generates all 255 nonzero residues modulo the polynomial.
fn is_primitive(modulus: u16) -> bool {
    let mut power = 1;
    for n in 1..=255 {
        power = multiply_modulo(power, 2, modulus);
        if power == 1 {
            return n == 255;
        }
    }
    false
}

/// The primitive polynomials of degree 8 that have exactly five terms.
fn primitive_pentanomials() -> Vec<u16> {
    (0x100..0x200)
        .filter(|p: &u16| p.count_ones() == 5 && is_primitive(*p))
        .collect()
}

/// The degree of a nonzero polynomial.
fn degree(polynomial: u16) -> u32 {
    15 - polynomial.leading_zeros()
}

/// Section 5: multiplication by x.
fn xtimes(u: u8) -> u8 {
    multiply(2, u)
}

#[test]
fn two_ways_to_multiply_agree() {
    for a in elements() {
        for b in elements() {
            let other = multiply_modulo(u16::from(a), u16::from(b), REDUCTION_POLYNOMIAL);
            assert_eq!(u16::from(multiply(a, b)), other);
        }
    }
}

#[test]
fn the_field_is_commutative_and_has_inverses() {
    for a in elements() {
        assert_eq!(multiply(a, 1), a);
        assert_eq!(add(a, a), 0);
        for b in elements() {
            assert_eq!(multiply(a, b), multiply(b, a));
        }
        match inverse(a) {
            Some(b) => assert_eq!(multiply(a, b), 1),
            None => assert_eq!(a, 0),
        }
    }
}

#[test]
fn multiplication_distributes_over_addition() {
    for a in elements() {
        for b in elements() {
            for c in [1, 2, 3, 0x1C, 0x80, 0xFF] {
                assert_eq!(multiply(c, add(a, b)), add(multiply(c, a), multiply(c, b)));
            }
        }
    }
}

#[test]
fn x_generates_the_multiplicative_group() {
    assert!(is_primitive(REDUCTION_POLYNOMIAL));
    for n in 1..255 {
        assert_ne!(power(GENERATOR, n), 1);
    }
    assert_eq!(power(GENERATOR, 255), 1);
}

#[test]
fn c_is_a_primitive_cube_root_of_unity() {
    let c = CUBE_ROOT;
    assert_eq!(c, 0b0001_1100);
    assert_eq!(power(GENERATOR, 85), c);
    assert_eq!(power(c, 2), add(c, 1));
    assert_ne!(c, 1);
    assert_ne!(power(c, 2), 1);
    assert_eq!(power(c, 3), 1);
}

/// Section 2.1: p(x) is the only primitive pentanomial of degree 8 for which a
/// primitive cube root of unity is a quartic trinomial. This holds.
#[test]
fn only_p_has_a_quartic_trinomial_as_cube_root() {
    let with_quartic_trinomial: Vec<u16> = primitive_pentanomials()
        .into_iter()
        .filter(|p| {
            [85, 170].iter().any(|n| {
                let root = power_of_x_modulo(*n, *p);
                degree(root) == 4 && root.count_ones() == 3
            })
        })
        .collect();
    assert_eq!(with_quartic_trinomial, [REDUCTION_POLYNOMIAL]);
}

/// Section 2.1 calls the quartic trinomial "the simplest form achievable". It
/// is so by degree, but not by the number of terms: modulo 165, the primitive
/// cube root x^170 is the binomial x^7 + x^3.
#[test]
fn the_cube_root_is_simplest_by_degree_only() {
    let mut roots = Vec::new();
    for p in primitive_pentanomials() {
        for n in [85, 170] {
            roots.push((p, power_of_x_modulo(n, p)));
        }
    }
    assert_eq!(roots.len(), 24);
    assert_eq!(roots.iter().map(|(_, root)| degree(*root)).min(), Some(4));
    let with_fewer_terms: Vec<(u16, u16)> = roots
        .into_iter()
        .filter(|(_, root)| root.count_ones() < 3)
        .collect();
    assert_eq!(with_fewer_terms, [(0x165, 0x88)]);
}

/// Section 5: c(x) * u(x) by four `xtimes` operations and two XORs.
#[test]
fn ctimes_is_multiplication_by_c() {
    for u in elements() {
        let ctimes = xtimes(xtimes(xtimes(xtimes(u) ^ u) ^ u));
        assert_eq!(ctimes, multiply(CUBE_ROOT, u));
    }
}
