//! The S-box of section 3.1, computed from the mini-boxes of Table 1.

/// The mini-box P of Table 1.
pub const P: [u8; 16] = [
    0x3, 0xF, 0xE, 0x0, 0x5, 0x4, 0xB, 0xC, 0xD, 0xA, 0x9, 0x6, 0x7, 0x8, 0x2, 0x1,
];

/// The mini-box Q of Table 1.
pub const Q: [u8; 16] = [
    0x9, 0xE, 0x5, 0x6, 0xA, 0x2, 0x3, 0xC, 0xF, 0x0, 0x4, 0xD, 0x7, 0xB, 0x1, 0x8,
];

/// The value S[u] (Algorithm 1, step by step).
pub fn substitute(u: u8) -> u8 {
    // Step 1.
    let high = look_up(&P, (u >> 4) & 0xF);
    let low = look_up(&Q, u & 0xF);
    // Step 2.
    let (high, low) = (
        look_up(&Q, mixed_high(high, low)),
        look_up(&P, mixed_low(high, low)),
    );
    // Step 3.
    let (high, low) = (
        look_up(&P, mixed_high(high, low)),
        look_up(&Q, mixed_low(high, low)),
    );
    // Step 4.
    (high << 4) ^ low
}

/// The first index in steps 2 and 3 of Algorithm 1: (high & C) xor
/// ((low >> 2) & 3).
fn mixed_high(high: u8, low: u8) -> u8 {
    (high & 0xC) ^ ((low >> 2) & 3)
}

/// The second index in steps 2 and 3 of Algorithm 1: ((high << 2) & C) xor
/// (low & 3).
fn mixed_low(high: u8, low: u8) -> u8 {
    ((high << 2) & 0xC) ^ (low & 3)
}

/// The entry of a mini-box (Table 1) at a four-bit index.
fn look_up(mini_box: &[u8; 16], index: u8) -> u8 {
    mini_box[usize::from(index)]
}

/// The byte u with S[u] = v, found by trying all bytes. It makes no use of the
/// claim of section 3.1 that S is its own inverse.
pub fn preimage(v: u8) -> u8 {
    (0..=255)
        .find(|&u| substitute(u) == v)
        .expect("every byte is a value of S")
}
