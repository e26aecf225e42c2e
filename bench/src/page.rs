//! What is sealed or opened: two keys, the numbers of a header, and a payload or a page.

use curupira_reference::generator::Generator;
use curupira_reference::pages;

use crate::interface::LIBRARY;
use crate::question::draw_number;

pub const PAGE_BYTES: usize = pages::PAGE_LENGTH;
pub const PAYLOAD_BYTES: usize = pages::PAYLOAD_LENGTH;
pub const SCRATCH_BYTES: usize = pages::SCRATCH_LENGTH;

/// What a page that opens answers, but for its numbers.
const OPENS: u64 = 1 << 63;

#[derive(Clone, Debug)]
pub struct Page {
    pub first_key: Vec<u8>,
    pub second_key: Vec<u8>,
    pub rounds: u32,
    pub size_block: u32,
    pub page_number: u16,
    /// The payload that is sealed, or the page that is opened.
    pub bytes: Vec<u8>,
}

impl Page {
    /// A payload of so many bytes to be sealed.
    pub fn to_seal(
        generator: &mut Generator,
        key_length: usize,
        rounds: u32,
        payload_length: usize,
    ) -> Self {
        Page {
            first_key: generator.bytes(key_length),
            second_key: generator.bytes(key_length),
            rounds,
            size_block: draw_number(generator, 4),
            page_number: draw_number(generator, 2) as u16,
            bytes: generator.bytes(payload_length),
        }
    }

    /// The same with the page that the library makes of the payload, to be opened.
    pub fn sealed(&self) -> Self {
        let (mut scratch, mut out) = ([0; SCRATCH_BYTES], [0; PAGE_BYTES]);
        let number = LIBRARY.seal_page(self, &mut scratch, &mut out);
        assert_eq!(number, 0, "the payload is sealed");
        Page {
            bytes: out.to_vec(),
            ..self.clone()
        }
    }

    /// What the independent program answers to sealing.
    pub fn independent_seal(&self, scratch: &mut [u8], out: &mut [u8]) -> u64 {
        let sealed = pages::seal(
            &self.first_key,
            &self.second_key,
            self.rounds as usize,
            self.size_block,
            self.page_number,
            &self.bytes,
            scratch,
            out,
        );
        sealed.map_or_else(|refusal| u64::from(refusal.number()), |()| 0)
    }

    /// The same for opening, as the number that the C call gives.
    pub fn independent_open(&self, scratch: &mut [u8], out: &mut [u8]) -> u64 {
        let (first, second) = (&self.first_key, &self.second_key);
        let rounds = self.rounds as usize;
        match pages::open(first, second, rounds, &self.bytes, scratch, out) {
            Ok(header) => {
                let used = u64::from(header.used) << 48;
                let page_number = u64::from(header.page_number) << 32;
                OPENS + used + page_number + u64::from(header.size_block)
            }
            Err(refusal) => u64::from(refusal.number()),
        }
    }
}
