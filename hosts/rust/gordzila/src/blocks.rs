//! Numbers of size blocks.

use crate::Reason;
use std::fmt;
use std::num::NonZeroU32;

/// The number of a size block that can be asked for: any but 0, which was for practice.
///
/// A form that was left blank sends 0, so that a number that comes from outside is looked at
/// once, where it comes in. [`SizeBlock::new`] gives none for 0, and `try_from` gives
/// [`Reason::BlockZero`], so that `?` hands it on.
///
/// ```
/// use gordzila::{Reason, SizeBlock};
///
/// let block = SizeBlock::try_from(300)?;
/// assert_eq!((block.number(), block.to_string()), (300, "300".to_string()));
/// assert_eq!(SizeBlock::new(300), Some(block));
///
/// assert_eq!(SizeBlock::new(0), None);
/// assert_eq!(SizeBlock::try_from(0), Err(Reason::BlockZero));
/// # Ok::<(), Reason>(())
/// ```
#[derive(Clone, Copy, Debug, PartialEq, Eq, PartialOrd, Ord, Hash)]
pub struct SizeBlock(NonZeroU32);

impl SizeBlock {
    /// The size block that has a number; none for 0.
    pub const fn new(number: u32) -> Option<SizeBlock> {
        match NonZeroU32::new(number) {
            Some(number) => Some(SizeBlock(number)),
            None => None,
        }
    }

    /// The number of the size block.
    pub const fn number(self) -> u32 {
        self.0.get()
    }
}

/// Refuses 0, as the calls of [`raw`](crate::raw) do, with [`Reason::BlockZero`].
impl TryFrom<u32> for SizeBlock {
    type Error = Reason;

    fn try_from(number: u32) -> Result<SizeBlock, Reason> {
        SizeBlock::new(number).ok_or(Reason::BlockZero)
    }
}

impl From<SizeBlock> for u32 {
    fn from(block: SizeBlock) -> u32 {
        block.number()
    }
}

/// The number, in decimal digits.
impl fmt::Display for SizeBlock {
    fn fmt(&self, formatter: &mut fmt::Formatter<'_>) -> fmt::Result {
        self.0.fmt(formatter)
    }
}

#[cfg(test)]
mod tests {
    use super::SizeBlock;
    use crate::Reason;
    use std::collections::{BTreeSet, HashSet};

    /// Some have one byte alone that is not 0, each in another place.
    const NUMBERS: [u32; 6] = [1, 256, 300, 65_536, 1 << 24, u32::MAX];

    #[test]
    fn zero_is_no_size_block() {
        assert_eq!(SizeBlock::new(0), None);
        assert_eq!(SizeBlock::try_from(0), Err(Reason::BlockZero));
    }

    #[test]
    fn every_other_number_is_one() {
        for number in NUMBERS {
            let block = SizeBlock::new(number).unwrap();
            assert_eq!(block.number(), number);
            assert_eq!(u32::from(block), number);
            assert_eq!(SizeBlock::try_from(number), Ok(block));
        }
    }

    #[test]
    fn a_size_block_is_shown_by_its_number() {
        let block = SizeBlock::new(300).unwrap();
        assert_eq!(block.to_string(), "300");
        assert_eq!(format!("{block:>5}|{block:<5}"), "  300|300  ");
        assert_eq!(format!("{block:?}"), "SizeBlock(300)");
    }

    #[test]
    fn size_blocks_have_the_order_of_their_numbers() {
        let blocks = || NUMBERS.into_iter().rev().filter_map(SizeBlock::new);
        let ordered: BTreeSet<SizeBlock> = blocks().collect();
        assert!(ordered.into_iter().map(SizeBlock::number).eq(NUMBERS));
        let distinct: HashSet<SizeBlock> = blocks().chain(blocks()).collect();
        assert_eq!(distinct.len(), NUMBERS.len());
    }

    /// It can be known when the program is compiled.
    #[test]
    fn a_size_block_may_be_a_constant() {
        const BLOCK: Option<SizeBlock> = SizeBlock::new(300);
        assert_eq!(BLOCK.map(SizeBlock::number), Some(300));
    }
}
