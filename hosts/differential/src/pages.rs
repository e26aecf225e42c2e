//! Pages as bytes, and how they are sealed and opened: block by block, over the cipher of the
//! independent program. What that program makes of a page as a whole is asked for a second opinion
//! only.

use crate::expect::BLOCK_BYTES;
use crate::oracle::{Oracle, Way};

/// The bytes of a page.
pub const PAGE_BYTES: usize = 512;

/// The bytes of a page's header, which is a block.
pub const HEADER_BYTES: usize = BLOCK_BYTES;

/// The bytes of a payload, used or not.
pub const PAYLOAD_BYTES: usize = 492;

/// The bytes of a page that its check is made of: the header, and the payload as it is stored.
pub const CHECKED_BYTES: usize = HEADER_BYTES + PAYLOAD_BYTES;

/// The bytes of a scratch that a call uses, and clears.
pub const SCRATCH_BYTES: usize = 576;

/// The two keys for a page. They have one length, and the round count is allowed for it; they may be
/// equal.
#[derive(Clone, Copy)]
pub struct Keys<'a> {
    pub first: &'a [u8],
    pub second: &'a [u8],
    pub rounds: u32,
}

impl Keys<'_> {
    /// The page with a header and a payload, of which the bytes that are not given are 0. Any header
    /// and any payload of up to 492 bytes will do, also such as are never sealed.
    pub fn sealed(&self, header: &[u8], payload: &[u8], oracle: &mut Oracle) -> Vec<u8> {
        let mut plain = payload.to_vec();
        plain.resize(PAYLOAD_BYTES, 0);
        let mut page = header.to_vec();
        let mut previous = self.start(header, oracle);
        for block in plain.chunks(BLOCK_BYTES) {
            previous = oracle.made_of(self.first, self.rounds, &sum(block, &previous));
            page.extend_from_slice(&previous);
        }
        self.with_check(&page, oracle)
    }

    /// The page that begins with these 504 bytes as they are stored.
    pub fn with_check(&self, stored: &[u8], oracle: &mut Oracle) -> Vec<u8> {
        [stored, &self.check(stored, oracle)].concat()
    }

    /// Whether the check of a page is that of its first 504 bytes.
    pub fn is_checked(&self, page: &[u8], oracle: &mut Oracle) -> bool {
        self.check(&page[..CHECKED_BYTES], oracle) == page[CHECKED_BYTES..]
    }

    /// The payload of a page.
    pub fn payload(&self, page: &[u8], oracle: &mut Oracle) -> Vec<u8> {
        let blocks = 0..PAYLOAD_BYTES / BLOCK_BYTES;
        let plain = blocks.flat_map(|block| self.plain_block(page, block, oracle));
        plain.collect()
    }

    /// Whether the payload of a page is 0 from a place on. It takes no more time than that shows.
    pub fn is_zero_from(&self, page: &[u8], place: usize, oracle: &mut Oracle) -> bool {
        let (first, mut skipped) = (place / BLOCK_BYTES, place % BLOCK_BYTES);
        (first..PAYLOAD_BYTES / BLOCK_BYTES).all(|block| {
            let plain = self.plain_block(page, block, oracle);
            let looked_at = std::mem::take(&mut skipped)..;
            plain[looked_at].iter().all(|&byte| byte == 0)
        })
    }

    /// A block of the payload of a page, counted from 0: deciphered, and added to the one that is
    /// stored before it.
    fn plain_block(&self, page: &[u8], block: usize, oracle: &mut Oracle) -> Vec<u8> {
        let (before, own) = page[BLOCK_BYTES * block..].split_at(BLOCK_BYTES);
        let previous = match block {
            0 => self.start(before, oracle),
            _ => before.to_vec(),
        };
        let own = &own[..BLOCK_BYTES];
        let plain = oracle.block(Way::Decipher, self.first, self.rounds, own);
        sum(&plain, &previous)
    }

    /// What the first block of a payload is added to: the header, enciphered.
    fn start(&self, header: &[u8], oracle: &mut Oracle) -> Vec<u8> {
        oracle.block(Way::Encipher, self.first, self.rounds, header)
    }

    fn check(&self, stored: &[u8], oracle: &mut Oracle) -> Vec<u8> {
        let mut previous = vec![0; BLOCK_BYTES];
        for block in stored.chunks(BLOCK_BYTES) {
            let sum = sum(block, &previous);
            previous = oracle.block(Way::Encipher, self.second, self.rounds, &sum);
        }
        previous.truncate(PAGE_BYTES - CHECKED_BYTES);
        previous
    }
}

/// The header with these numbers.
pub fn header(size_block: u32, page_number: u16, used: usize) -> Vec<u8> {
    let mut header = size_block.to_be_bytes().to_vec();
    header.extend(page_number.to_be_bytes());
    header.extend((used as u16).to_be_bytes());
    header.resize(HEADER_BYTES, 0);
    header
}

/// The used count in a header or in a page.
pub fn used(page: &[u8]) -> usize {
    usize::from(page[6]) << 8 | usize::from(page[7])
}

/// Gives a header or a page another used count.
pub fn set_used(page: &mut [u8], used: usize) {
    page[6..8].copy_from_slice(&(used as u16).to_be_bytes());
}

/// Whether bytes have the form of a page, as far as it is seen without a key.
pub fn has_form(page: &[u8]) -> bool {
    page.len() == PAGE_BYTES && used(page) <= PAYLOAD_BYTES && page[8..HEADER_BYTES] == [0; 4]
}

/// The answer to a page that opens: the highest bit, and the numbers of the header below it, from the
/// used count to the size block.
pub fn answer(page: &[u8]) -> u64 {
    let number = |from: usize, to: usize| {
        let bytes = page[from..to].iter();
        bytes.fold(0, |number, &byte| number << 8 | u64::from(byte))
    };
    1 << 63 | number(6, 8) << 48 | number(4, 6) << 32 | number(0, 4)
}

fn sum(block: &[u8], other: &[u8]) -> Vec<u8> {
    let pairs = block.iter().zip(other);
    pairs.map(|(one, other)| one ^ other).collect()
}
