//! What sections 2.4, 3.1 and 4.1 say about the S-box, and a comparison with a
//! published table.

use curupira_reference::sbox::{preimage, substitute, P, Q};

/// The whole S-box.
fn table() -> [u8; 256] {
    let mut table = [0; 256];
    for (value, u) in table.iter_mut().zip(0..=255) {
        *value = substitute(u);
    }
    table
}

/// Section 2.4: the greatest entry of the difference table for a nonzero input
/// difference.
fn differential_uniformity(s: &[u8; 256]) -> usize {
    let mut greatest = 0;
    for a in 1..256 {
        let mut counts = [0; 256];
        for c in 0..256 {
            counts[usize::from(s[c ^ a] ^ s[c])] += 1;
        }
        for count in counts {
            greatest = std::cmp::max(greatest, count);
        }
    }
    greatest
}

/// Section 2.4: l_alpha(x), the sum of the bits of x that alpha selects.
fn linear(alpha: u8, x: u8) -> bool {
    (alpha & x).count_ones() % 2 == 1
}

/// Section 2.4: the correlation between l_i and l_j after S, in 1/128ths: the
/// number of agreements less 128.
fn correlation(s: &[u8; 256], i: u8, j: u8) -> i32 {
    let mut agreements = 0;
    for x in 0..=255 {
        if linear(i, x) == linear(j, s[usize::from(x)]) {
            agreements += 1;
        }
    }
    agreements - 128
}

/// All correlations for (i, j) other than (0, 0), in 1/128ths.
fn correlations(s: &[u8; 256]) -> Vec<i32> {
    let mut all = Vec::new();
    for i in 0..=255 {
        for j in 0..=255 {
            if (i, j) != (0, 0) {
                all.push(correlation(s, i, j));
            }
        }
    }
    all
}

/// Section 2.4: the nonlinear order of a Boolean function given by its values,
/// from its algebraic normal form.
fn nonlinear_order(values: &[bool; 256]) -> u32 {
    let mut form = *values;
    for bit in 0..8 {
        for x in 0..256 {
            if (x >> bit) & 1 == 1 {
                form[x] ^= form[x ^ (1 << bit)];
            }
        }
    }
    (0..256_usize)
        .filter(|term| form[*term])
        .map(|term| term.count_ones())
        .max()
        .unwrap_or(0)
}

/// The nonlinear order of l_alpha after S.
fn component_order(s: &[u8; 256], alpha: u8) -> u32 {
    let mut values = [false; 256];
    for (value, output) in values.iter_mut().zip(s) {
        *value = linear(alpha, *output);
    }
    nonlinear_order(&values)
}

#[test]
fn the_mini_boxes_are_involutions() {
    for u in 0..16 {
        assert_eq!(usize::from(P[usize::from(P[u])]), u);
        assert_eq!(usize::from(Q[usize::from(Q[u])]), u);
    }
}

#[test]
fn the_sbox_is_an_involution() {
    for u in 0..=255 {
        assert_eq!(substitute(substitute(u)), u);
        assert_eq!(preimage(u), substitute(u));
    }
}

/// Section 3.1: delta = 2^-5, so the differential uniformity is 8 = 2^8 * 2^-5.
#[test]
fn delta_is_as_stated() {
    assert_eq!(differential_uniformity(&table()), 8);
}

/// Section 3.1 gives lambda = 2^-2 and section 4.1 gives lambda = 13 * 2^-6.
/// In 1/128ths these are 32 and 26. Section 3.1 is right. The same value is
/// found whether or not signs count (section 2.4 takes the greatest
/// correlation, not the greatest absolute value).
#[test]
fn lambda_is_the_one_of_section_3_1() {
    let all = correlations(&table());
    let greatest = all.iter().copied().max();
    let greatest_size = all.iter().map(|c| c.abs()).max();
    assert_eq!(greatest, Some(32));
    assert_eq!(greatest_size, Some(32));
}

/// One pair that reaches lambda = 2^-2, so that a reader can check the finding
/// by hand: for i = j = E1 there are 160 agreements among the 256 inputs.
#[test]
fn one_pair_that_reaches_lambda() {
    assert_eq!(correlation(&table(), 0xE1, 0xE1), 32);
}

/// Section 3.1: nu = 7. The minimum of section 2.4 has to leave out alpha = 0,
/// for which l_alpha after S is constant and has order 0.
#[test]
fn nu_is_as_stated_for_nonzero_alpha() {
    let s = table();
    let least = (1..=255).map(|alpha| component_order(&s, alpha)).min();
    assert_eq!(least, Some(7));
    assert_eq!(component_order(&s, 0), 0);
}

/// `published/sbox.txt` holds the table of Khazad and Anubis as others published
/// it; see `published/README.md`.
#[test]
fn the_sbox_is_the_published_one() {
    let mut expected = String::new();
    for row in table().chunks(16) {
        let values: Vec<String> = row.iter().map(|v| format!("{:02X}", v)).collect();
        expected.push_str(&values.join(" "));
        expected.push('\n');
    }
    assert_eq!(include_str!("../published/sbox.txt"), expected);
}
