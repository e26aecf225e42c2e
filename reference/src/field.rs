//! The finite field GF(2^8) of section 2.1: polynomials over GF(2) modulo
//! p(x) = x^8 + x^6 + x^3 + x^2 + 1. A byte stands for the polynomial whose
//! coefficient of x^k is bit k of the byte.

/// The reduction polynomial p(x), written 14D (section 2.1).
pub const REDUCTION_POLYNOMIAL: u16 = 0x14D;

/// The generator g(x) = x of the multiplicative group (section 2.1).
pub const GENERATOR: u8 = 0x02;

/// The primitive cube root of unity c(x) = x^4 + x^3 + x^2, written 1C
/// (section 2.1).
pub const CUBE_ROOT: u8 = 0x1C;

/// The sum of two field elements (section 2.1): coefficients are added modulo 2.
pub fn add(a: u8, b: u8) -> u8 {
    a ^ b
}

/// The product of two field elements (section 2.1): the product of the two
/// polynomials, reduced modulo p(x).
pub fn multiply(a: u8, b: u8) -> u8 {
    reduce(polynomial_product(a, b))
}

/// The product of two polynomials over GF(2), not reduced: the sum of
/// x^k * a(x) over all k for which b(x) has the term x^k.
fn polynomial_product(a: u8, b: u8) -> u16 {
    let mut product = 0;
    for k in 0..8 {
        if (b >> k) & 1 == 1 {
            product ^= u16::from(a) << k;
        }
    }
    product
}

/// The remainder of a polynomial of degree at most 15 modulo p(x): from the
/// highest term down, x^(8+k) is cleared by subtracting x^k * p(x).
fn reduce(polynomial: u16) -> u8 {
    let mut rest = polynomial;
    for k in (0..8).rev() {
        if (rest >> (8 + k)) & 1 == 1 {
            rest ^= REDUCTION_POLYNOMIAL << k;
        }
    }
    // Every term from x^8 upward is cleared, so the rest fits in a byte.
    rest as u8
}

/// The power a^n, as a product of n factors (section 2.1 uses x^85).
pub fn power(a: u8, n: usize) -> u8 {
    let mut result = 1;
    for _ in 0..n {
        result = multiply(result, a);
    }
    result
}

/// The inverse 1/a of a nonzero element (section 2.3 uses 1/(c+1)). The
/// multiplicative group has 255 elements, so that 1/a = a^254. Zero has no
/// inverse.
pub fn inverse(a: u8) -> Option<u8> {
    if a == 0 {
        None
    } else {
        Some(power(a, 254))
    }
}
