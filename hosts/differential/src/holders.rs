//! Holders as bytes: the key's length, the stage's number, and the 24 bytes of the stage.

/// The bytes of a holder.
pub const HOLDER_BYTES: usize = 26;

/// The key length that a holder names, if it has its 26 bytes and there are keys of that length.
pub fn key_length(holder: &[u8]) -> Option<usize> {
    let length = usize::from(*holder.first()?);
    let right = holder.len() == HOLDER_BYTES && [12, 18, 24].contains(&length);
    right.then_some(length)
}

/// Whether a holder is whole: it names a key length and a stage of such a key, and past the key it
/// has nothing but zeros.
pub fn is_whole(holder: &[u8]) -> bool {
    key_length(holder).map_or(false, |length| {
        let past = &holder[2 + length..];
        usize::from(holder[1]) < length && past.iter().all(|&byte| byte == 0)
    })
}

/// The number of the stage that a holder is at.
pub fn number(holder: &[u8]) -> u32 {
    u32::from(holder[1])
}

/// The stage of a whole holder: as many bytes as the key has.
pub fn stage(holder: &[u8]) -> &[u8] {
    &holder[2..2 + usize::from(holder[0])]
}

/// The holder with a stage, which has as many bytes as the key, or more that are 0.
pub fn bytes(key_length: usize, number: u32, stage: &[u8]) -> Vec<u8> {
    let mut bytes = vec![key_length as u8, number as u8];
    bytes.extend_from_slice(stage);
    bytes.resize(HOLDER_BYTES, 0);
    bytes
}
