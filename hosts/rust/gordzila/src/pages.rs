//! Sealed pages: up to 492 bytes of a size block, enciphered and with a check.

use crate::calls::written;
use crate::{raw, Reason, SizeBlock};
use std::fmt;

/// How many bytes a page has.
pub const PAGE_BYTES: usize = 512;

/// How many bytes the payload of a page has at most.
pub const PAYLOAD_BYTES: usize = 492;

/// How many bytes of scratch the calls of [`raw`] need for a page.
pub const SCRATCH_BYTES: usize = 576;

/// The two keys of pages: the payload is enciphered under the first, and the check made
/// under the second. They have one length and are not equal; other keys are refused with
/// [`Reason::KeyLength`].
///
/// Take a pair for pages and for nothing else, and make neither key from the other. `{:?}`
/// does not show them.
#[derive(Clone, Copy)]
pub struct PageKeys<'a> {
    /// The key under which the payload is enciphered.
    pub first: &'a [u8],
    /// The key under which the check is made.
    pub second: &'a [u8],
}

/// How many bytes each key has. The keys are left out.
impl fmt::Debug for PageKeys<'_> {
    fn fmt(&self, formatter: &mut fmt::Formatter<'_>) -> fmt::Result {
        formatter
            .debug_struct("PageKeys")
            .field("first_length", &self.first.len())
            .field("second_length", &self.second.len())
            .finish_non_exhaustive()
    }
}

/// The numbers that a page was sealed with, which stand in it for all to read.
#[derive(Clone, Copy, Debug, PartialEq, Eq)]
pub struct PageHeader {
    /// The number of the size block. It is 0 in some pages from before version 0.7.
    pub size_block: u32,
    /// The number of the page.
    pub page_number: u16,
    /// How many bytes the payload has, 0 to 492.
    pub used: u16,
}

/// What a page was sealed with. `{:?}` does not show the payload.
#[derive(Clone, PartialEq, Eq)]
pub struct OpenedPage {
    /// The number of the size block. It is 0 in some pages from before version 0.7, and
    /// [`SizeBlock::new`] gives none for it: no new page is sealed for 0.
    pub size_block: u32,
    /// The number of the page.
    pub page_number: u16,
    /// The payload, 0 to 492 bytes.
    pub payload: Vec<u8>,
}

/// The numbers, and how many bytes the payload has. The payload is left out.
impl fmt::Debug for OpenedPage {
    fn fmt(&self, formatter: &mut fmt::Formatter<'_>) -> fmt::Result {
        formatter
            .debug_struct("OpenedPage")
            .field("size_block", &self.size_block)
            .field("page_number", &self.page_number)
            .field("payload_length", &self.payload.len())
            .finish_non_exhaustive()
    }
}

/// Seals a page of a size block. The payload has 0 to 492 bytes ([`PAYLOAD_BYTES`]).
/// Refuses with [`Reason::KeyLength`], also where the keys are equal or of unequal lengths,
/// [`Reason::RoundCount`] or [`Reason::PayloadTooLong`].
///
/// Nothing in a page is drawn at random: the same payload with the same numbers under the
/// same keys gives the same page. The size block, the page number and the payload's length
/// stand in it for all to read.
///
/// ```
/// use gordzila::{open_page, seal_page, PageKeys, Reason, SizeBlock};
///
/// let (keys, rounds) = (PageKeys { first: &[1; 12], second: &[2; 12] }, 10);
/// let block = SizeBlock::try_from(300)?;
/// let page = seal_page(keys, rounds, block, 4, b"front panel")?;
/// assert_eq!(page[..12], [0, 0, 1, 44, 0, 4, 0, 11, 0, 0, 0, 0]);
/// assert_eq!(open_page(keys, rounds, &page)?.payload, b"front panel");
///
/// let too_long = seal_page(keys, rounds, block, 4, &[0; 493]);
/// assert_eq!(too_long, Err(Reason::PayloadTooLong));
/// let equal = PageKeys { first: &[1; 12], second: &[1; 12] };
/// assert_eq!(seal_page(equal, rounds, block, 4, b""), Err(Reason::KeyLength));
/// # Ok::<(), Reason>(())
/// ```
pub fn seal_page(
    keys: PageKeys<'_>,
    rounds: u32,
    size_block: SizeBlock,
    page_number: u16,
    payload: &[u8],
) -> Result<[u8; PAGE_BYTES], Reason> {
    let (block, scratch) = (size_block.number(), &mut [0; SCRATCH_BYTES]);
    written(|out| raw::seal_page(keys, rounds, block, page_number, payload, scratch, out))
}

/// Opens a page, which may have any length: it comes from outside. Refuses with
/// [`Reason::KeyLength`], also where the keys are equal or of unequal lengths,
/// [`Reason::RoundCount`], [`Reason::NotAPage`] or [`Reason::CheckDiffers`].
///
/// A page is not bound to its place: compare its size block and its page number with those
/// that you wanted. An older page with the same numbers opens too, and that pages are
/// missing, or stand in another order, is not noticed.
///
/// A page that was sealed for size block 0, before version 0.7, opens, with 0 as its size
/// block. To keep what it holds up to date, seal that for another size block.
///
/// ```
/// use gordzila::{open_page, seal_page, PageKeys, Reason, SizeBlock};
///
/// let (keys, rounds) = (PageKeys { first: &[1; 24], second: &[2; 24] }, 18);
/// let (block, number) = (SizeBlock::try_from(300)?, 4);
/// let mut page = seal_page(keys, rounds, block, number, b"front panel")?;
///
/// let opened = open_page(keys, rounds, &page)?;
/// let wanted = (block.number(), number);
/// assert_eq!((opened.size_block, opened.page_number), wanted);
/// assert_eq!(opened.payload, b"front panel");
///
/// page[100] ^= 1;
/// assert_eq!(open_page(keys, rounds, &page), Err(Reason::CheckDiffers));
/// assert_eq!(open_page(keys, rounds, &page[1..]), Err(Reason::NotAPage));
/// # Ok::<(), Reason>(())
/// ```
///
/// # Panics
///
/// It panics where the library answers a number that the header does not have. That takes
/// an archive that does not belong to this package.
pub fn open_page(keys: PageKeys<'_>, rounds: u32, page: &[u8]) -> Result<OpenedPage, Reason> {
    let mut out = [0; PAYLOAD_BYTES];
    let header = raw::open_page(keys, rounds, page, &mut [0; SCRATCH_BYTES], &mut out)?;
    Ok(OpenedPage {
        size_block: header.size_block,
        page_number: header.page_number,
        payload: out[..header.used.into()].to_vec(),
    })
}

#[cfg(test)]
mod tests {
    use super::{OpenedPage, PageKeys};

    #[test]
    fn keys_are_not_shown() {
        let (first, second) = (&[171; 12], &[205; 18]);
        let shown = format!("{:?}", PageKeys { first, second });
        assert_eq!(
            shown,
            "PageKeys { first_length: 12, second_length: 18, .. }"
        );
    }

    #[test]
    fn payload_is_not_shown() {
        let opened = OpenedPage {
            size_block: 300,
            page_number: 4,
            payload: vec![171; 27],
        };
        assert_eq!(
            format!("{opened:?}"),
            "OpenedPage { size_block: 300, page_number: 4, payload_length: 27, .. }"
        );
    }
}
