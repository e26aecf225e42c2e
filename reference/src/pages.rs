//! Sealed pages. They are not in the paper; what they are stands below and in
//! README.md.
//!
//! A page has 512 bytes, each number big end first:
//!
//! - bytes 0 to 11, the header, which stays plain: 4 for the number of the size block,
//!   2 for the page number, 2 for the used count, which is 0 to 492, and 4 zero bytes;
//! - bytes 12 to 503, the payload, 492 bytes, of which those from the used count on are
//!   zero. It is stored chained under the first key, from the header enciphered under
//!   this key;
//! - bytes 504 to 511, the check: the first 8 bytes of the last block of the chaining,
//!   from zero, of bytes 0 to 503 as they are stored, under the second key.
//!
//! Chaining takes blocks of 12 bytes. Each block is added to the enciphered block
//! before it, and then enciphered itself. The start is what the first block is added
//! to.
//!
//! These are the calls, with the numbers of the reasons for which each is refused. Of
//! several reasons that hold, the first in this order is given.
//!
//! - seal: makes the page of a size block, a page number and a payload of 0 to 492
//!   bytes; 1, 2, 4, 14, 12.
//! - open: gives the payload, all 492 bytes of it, and the numbers in the header; 1, 2,
//!   4, 11, 13, 11.
//!
//! Reason 11 is tried twice. What the page shows as it is stored comes before the
//! check. Whether the unused bytes of the payload are zero shows only after it was
//! deciphered, and comes after the check.
//!
//! No page is sealed for size block 0, which is reason 14. Pages were sealed for it before
//! there was this reason, and these still open: opening does not look at the number of the
//! size block, but only answers with it. `old_zero_page` makes such a page.
//!
//! The caller lends a scratch of at least 576 bytes, which is room for two lists of 24
//! subkeys. Its first 576 bytes are zero after a call that is not refused, after reason
//! 13, and after a reason 11 that is found after 13 was tried. They stay for every
//! other reason, and what the scratch has beyond them always stays. The lists are kept
//! elsewhere here, so that only the zeros are written to it. The output is written only
//! if the call is not refused, and what it has beyond the page or the payload stays.

use crate::cipher::{allowed_rounds, decrypt_with, encrypt_with};
use crate::matrix::{Matrix, State};
use crate::roll::{may_be_asked_for, ZERO_BLOCK};
use crate::schedule::round_subkeys;

/// The number of bytes in a page.
pub const PAGE_LENGTH: usize = 512;

/// The number of bytes in the header of a page.
pub const HEADER_LENGTH: usize = 12;

/// The number of bytes in the payload of a page, used or not.
pub const PAYLOAD_LENGTH: usize = 492;

/// The number of bytes in a page without its check: header and payload.
pub const CHECKED_LENGTH: usize = HEADER_LENGTH + PAYLOAD_LENGTH;

/// The number of bytes in the check of a page.
pub const CHECK_LENGTH: usize = PAGE_LENGTH - CHECKED_LENGTH;

/// The number of bytes of a scratch that are used.
pub const SCRATCH_LENGTH: usize = 576;

/// The number of bytes in a block.
const BLOCK_LENGTH: usize = 12;

/// Why a call is refused. The value of each is its number.
#[derive(Clone, Copy, Debug, PartialEq, Eq)]
pub enum Refusal {
    /// A key does not have 12, 18 or 24 bytes, or the two keys are equal or of unequal
    /// lengths.
    Keys = 1,
    /// The number of rounds is not one that Table 2 allows for the keys.
    Rounds = 2,
    /// The scratch has fewer than 576 bytes, or fewer bytes are lent for the output than
    /// are to be written.
    TooShort = 4,
    /// The page does not have 512 bytes, its used count is over 492, or one of its bytes
    /// 8 to 11 is not zero; or, tried after the check, an unused byte of the payload is
    /// not zero.
    NoPage = 11,
    /// The payload to be sealed has more than 492 bytes.
    LongPayload = 12,
    /// The check in the page is not the one that its other bytes have.
    OtherCheck = 13,
    /// A page is to be sealed for size block 0.
    ZeroBlock = 14,
}

impl Refusal {
    /// The number of the reason.
    pub fn number(self) -> u8 {
        self as u8
    }
}

/// What the header of a page says.
#[derive(Clone, Copy, Debug, PartialEq, Eq)]
pub struct Header {
    /// The number of the size block.
    pub size_block: u32,
    /// The page number.
    pub page_number: u16,
    /// The used count: how many bytes of the payload are used.
    pub used: u16,
}

impl Header {
    /// The 12 bytes of the header, each number big end first: 4 for the size block, 2
    /// for the page number, 2 for the used count, 4 zero bytes.
    pub fn to_bytes(&self) -> Vec<u8> {
        let mut bytes = Vec::with_capacity(HEADER_LENGTH);
        bytes.extend(self.size_block.to_be_bytes());
        bytes.extend(self.page_number.to_be_bytes());
        bytes.extend(self.used.to_be_bytes());
        bytes.resize(HEADER_LENGTH, 0);
        bytes
    }

    /// What the header of a page says. This is where reason 11 is tried for the first
    /// time, and no key is needed for it: the page has to have 512 bytes, a used count
    /// of at most 492, and zeros in bytes 8 to 11.
    pub fn from_page(page: &[u8]) -> Result<Self, Refusal> {
        let header = match *page {
            [a, b, c, d, e, f, g, h, 0, 0, 0, 0, ..] if page.len() == PAGE_LENGTH => Header {
                size_block: u32::from_be_bytes([a, b, c, d]),
                page_number: u16::from_be_bytes([e, f]),
                used: u16::from_be_bytes([g, h]),
            },
            _ => return Err(Refusal::NoPage),
        };
        if usize::from(header.used) <= PAYLOAD_LENGTH {
            Ok(header)
        } else {
            Err(Refusal::NoPage)
        }
    }
}

/// Chains blocks: each is added to the enciphered block before it, the first one to the
/// start, and the sum is enciphered. `encipher` may be any function of a block.
pub fn chain(encipher: impl Fn(&State) -> State, start: &State, blocks: &[State]) -> Vec<State> {
    let mut previous = *start;
    let mut chained = Vec::with_capacity(blocks.len());
    for block in blocks {
        previous = encipher(&block.plus(&previous));
        chained.push(previous);
    }
    chained
}

/// Undoes `chain`, given the inverse of its function: each block is deciphered, and the
/// enciphered block before it is subtracted, which in characteristic 2 is the same as
/// adding it.
pub fn unchain(decipher: impl Fn(&State) -> State, start: &State, chained: &[State]) -> Vec<State> {
    let mut previous = *start;
    let mut blocks = Vec::with_capacity(chained.len());
    for block in chained {
        blocks.push(decipher(block).plus(&previous));
        previous = *block;
    }
    blocks
}

/// The page that has the given header and payload, with any function of a block in the
/// place of enciphering under the first and under the second key. The 504 bytes may be
/// any, also some that are never sealed: nothing is refused here.
pub fn page_with(
    first: impl Fn(&State) -> State,
    second: impl Fn(&State) -> State,
    plain: &[u8; CHECKED_LENGTH],
) -> Vec<u8> {
    let (header, payload) = plain.split_at(HEADER_LENGTH);
    let start = first(&block_of(header));
    let chained = chain(first, &start, &blocks_of(payload));
    let mut page = header.to_vec();
    page.extend(chained.iter().flat_map(State::to_bytes));
    let check = check_with(second, &page);
    page.extend(check);
    page
}

/// The header and the payload of a page that was made by `page_with`. Besides the same
/// two functions it takes the inverse of the first. It is refused for 11, 13 and 11
/// again.
pub fn opened_with(
    first: impl Fn(&State) -> State,
    undo_first: impl Fn(&State) -> State,
    second: impl Fn(&State) -> State,
    page: &[u8],
) -> Result<(Header, Vec<u8>), Refusal> {
    let header = Header::from_page(page)?;
    let payload = payload_with(first, undo_first, second, page, &header)?;
    Ok((header, payload))
}

/// The part of opening that needs the keys: the payload of a page whose header is known
/// to be good. It is refused for 13 and for 11 thereafter.
fn payload_with(
    first: impl Fn(&State) -> State,
    undo_first: impl Fn(&State) -> State,
    second: impl Fn(&State) -> State,
    page: &[u8],
    header: &Header,
) -> Result<Vec<u8>, Refusal> {
    let (stored, check) = page.split_at(CHECKED_LENGTH);
    if check_with(second, stored) != check {
        return Err(Refusal::OtherCheck);
    }
    let (plain, chained) = stored.split_at(HEADER_LENGTH);
    let start = first(&block_of(plain));
    let blocks = unchain(undo_first, &start, &blocks_of(chained));
    let payload: Vec<u8> = blocks.iter().flat_map(State::to_bytes).collect();
    let unused = &payload[usize::from(header.used)..];
    if unused.iter().any(|byte| *byte != 0) {
        return Err(Refusal::NoPage);
    }
    Ok(payload)
}

/// The check of the bytes of a page before it, as they are stored: the first 8 bytes of
/// the last of their blocks, chained from zero.
fn check_with(second: impl Fn(&State) -> State, stored: &[u8]) -> Vec<u8> {
    let chained = chain(second, &State::zero(), &blocks_of(stored));
    let last = chained.last().expect("there are 42 blocks");
    last.to_bytes()[..CHECK_LENGTH].to_vec()
}

/// The blocks that bytes stand for, 12 bytes each.
fn blocks_of(bytes: &[u8]) -> Vec<State> {
    bytes.chunks(BLOCK_LENGTH).map(block_of).collect()
}

/// The block that 12 bytes stand for.
fn block_of(bytes: &[u8]) -> State {
    Matrix::from_bytes(bytes).expect("a block has 12 bytes")
}

/// Whether two keys may be used for a page: both have 12, 18 or 24 bytes, their lengths
/// are equal, and they themselves are not.
pub fn keys_allowed(first_key: &[u8], second_key: &[u8]) -> bool {
    allowed_rounds(first_key.len()).is_ok()
        && first_key.len() == second_key.len()
        && first_key != second_key
}

/// Refuses two keys that may not be used for a page, then a number of rounds that Table
/// 2 (section 3.9) does not allow for them.
fn check_keys_and_rounds(
    first_key: &[u8],
    second_key: &[u8],
    rounds: usize,
) -> Result<(), Refusal> {
    if !keys_allowed(first_key, second_key) {
        return Err(Refusal::Keys);
    }
    match allowed_rounds(first_key.len()) {
        Ok(allowed) if allowed.contains(&rounds) => Ok(()),
        _ => Err(Refusal::Rounds),
    }
}

/// Refuses a scratch that is too short, or an output that has fewer bytes than are to be
/// written.
fn check_lent(scratch: &[u8], out: &[u8], written: usize) -> Result<(), Refusal> {
    if scratch.len() < SCRATCH_LENGTH || out.len() < written {
        Err(Refusal::TooShort)
    } else {
        Ok(())
    }
}

/// Refuses a payload that is too long for a page.
fn check_payload(payload: &[u8]) -> Result<(), Refusal> {
    if payload.len() > PAYLOAD_LENGTH {
        Err(Refusal::LongPayload)
    } else {
        Ok(())
    }
}

/// The subkeys of a key for a number of rounds. Both are known to be allowed.
fn list_of(key: &[u8], rounds: usize) -> Vec<State> {
    round_subkeys(key, rounds).expect("the key has an allowed length")
}

/// Enciphering with a list of subkeys (section 3.9).
fn enciphering(list: &[State]) -> impl Fn(&State) -> State + '_ {
    move |block| encrypt_with(list, block).expect("there are subkeys")
}

/// Deciphering with a list of subkeys: the literal inverse of enciphering.
fn deciphering(list: &[State]) -> impl Fn(&State) -> State + '_ {
    move |block| decrypt_with(list, block).expect("there are subkeys")
}

/// The page that has the given header and payload, under two keys with a number of
/// rounds. It is refused for 1 and 2 only: the 504 bytes may be any, also some that are
/// never sealed, so that there is a page with a right check for everything that opening
/// has to refuse.
pub fn page_under(
    first_key: &[u8],
    second_key: &[u8],
    rounds: usize,
    plain: &[u8; CHECKED_LENGTH],
) -> Result<Vec<u8>, Refusal> {
    check_keys_and_rounds(first_key, second_key, rounds)?;
    let first = list_of(first_key, rounds);
    let second = list_of(second_key, rounds);
    Ok(page_with(enciphering(&first), enciphering(&second), plain))
}

/// The header and the payload of a page, not chained yet. Payload bytes past those that
/// are given are zero. The used count of the header may be another than there are.
///
/// Panics if more than 492 payload bytes are given.
pub fn plain_bytes(header: &Header, payload: &[u8]) -> [u8; CHECKED_LENGTH] {
    let mut plain = [0; CHECKED_LENGTH];
    plain[..HEADER_LENGTH].copy_from_slice(&header.to_bytes());
    plain[HEADER_LENGTH..HEADER_LENGTH + payload.len()].copy_from_slice(payload);
    plain
}

/// An old page for size block 0: one that was sealed before 14 was a reason, and is stored
/// still. `seal` makes none any more. It is refused for 1, 2 and 12, as it was then.
pub fn old_zero_page(
    first_key: &[u8],
    second_key: &[u8],
    rounds: usize,
    page_number: u16,
    payload: &[u8],
) -> Result<Vec<u8>, Refusal> {
    check_keys_and_rounds(first_key, second_key, rounds)?;
    check_payload(payload)?;
    let header = Header {
        size_block: ZERO_BLOCK,
        page_number,
        used: payload.len() as u16,
    };
    let plain = plain_bytes(&header, payload);
    page_under(first_key, second_key, rounds, &plain)
}

/// Seals a payload: writes its page to the first 512 bytes of the output. The used count
/// is the length of the payload. The scratch and all reasons for which this is refused
/// are told of above.
// The call has this many inputs; bundling some would only hide it.
#[allow(clippy::too_many_arguments)]
pub fn seal(
    first_key: &[u8],
    second_key: &[u8],
    rounds: usize,
    size_block: u32,
    page_number: u16,
    payload: &[u8],
    scratch: &mut [u8],
    out: &mut [u8],
) -> Result<(), Refusal> {
    check_keys_and_rounds(first_key, second_key, rounds)?;
    check_lent(scratch, out, PAGE_LENGTH)?;
    if !may_be_asked_for(size_block) {
        return Err(Refusal::ZeroBlock);
    }
    check_payload(payload)?;
    let header = Header {
        size_block,
        page_number,
        used: payload.len() as u16,
    };
    let plain = plain_bytes(&header, payload);
    let page = page_under(first_key, second_key, rounds, &plain)?;
    scratch[..SCRATCH_LENGTH].fill(0);
    out[..PAGE_LENGTH].copy_from_slice(&page);
    Ok(())
}

/// Opens a page: writes all 492 bytes of its payload to the first bytes of the output,
/// and answers with the numbers in its header. The scratch and all reasons for which
/// this is refused are told of above.
pub fn open(
    first_key: &[u8],
    second_key: &[u8],
    rounds: usize,
    page: &[u8],
    scratch: &mut [u8],
    out: &mut [u8],
) -> Result<Header, Refusal> {
    check_keys_and_rounds(first_key, second_key, rounds)?;
    check_lent(scratch, out, PAYLOAD_LENGTH)?;
    let header = Header::from_page(page)?;
    let first = list_of(first_key, rounds);
    let payload = payload_with(
        enciphering(&first),
        deciphering(&first),
        enciphering(&list_of(second_key, rounds)),
        page,
        &header,
    );
    // From here on the scratch was used, whether there is a payload or not.
    scratch[..SCRATCH_LENGTH].fill(0);
    out[..PAYLOAD_LENGTH].copy_from_slice(&payload?);
    Ok(header)
}
