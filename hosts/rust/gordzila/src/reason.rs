//! The reasons for which a call refuses, with the numbers and the words of the
//! header.

use std::error::Error;
use std::fmt;

/// Why a call refused. A call that refuses changes nothing, but for the scratch of
/// [`raw::open_page`](crate::raw::open_page).
///
/// Later versions may have more reasons: a `match` with an arm for others, `_`, stays whole.
///
/// ```
/// use gordzila::{PageKeys, Reason, SizeBlock};
///
/// let keys = PageKeys { first: &[1; 12], second: &[2; 12] };
/// let block = SizeBlock::try_from(300)?;
/// let reason = gordzila::seal_page(keys, 10, block, 4, &[0; 493]).unwrap_err();
/// assert_eq!(reason, Reason::PayloadTooLong);
/// assert_eq!(reason.number(), 12);
/// assert_eq!(reason.to_string(), "payload over 492 bytes");
/// # Ok::<(), Reason>(())
/// ```
#[derive(Clone, Copy, Debug, PartialEq, Eq)]
pub enum Reason {
    /// 1: key not 12, 18 or 24 bytes; two keys for a page that are equal or of unequal
    /// lengths.
    KeyLength = 1,
    /// 2: round count not 10..11, 14..17 or 18..23, by the key's length.
    RoundCount = 2,
    /// 3: block or grant not 12 bytes; roll not 600 bytes; queue of grants over 768
    /// bytes, or no multiple of 12.
    InputLength = 3,
    /// 4: out shorter than what is to be written; answers shorter than the number of
    /// grants; scratch under 576 bytes. Only the calls of [`raw`](crate::raw) can give it.
    OutputTooShort = 4,
    /// 5: stage number not below the key's length in bytes; subkey list under 132
    /// bytes, over 288, or no multiple of 12.
    StageOrList = 5,
    /// 6: contractor outside 1 to 200.
    Contractor = 6,
    /// 7: right neither 1 nor 2. Only the calls of [`raw`](crate::raw) can give it.
    Right = 7,
    /// 8: the deciphered bytes have a wrong mark, contractor or right.
    NotAGrant = 8,
    /// 9: grant for another size block.
    OtherBlock = 9,
    /// 10: overwriting asked of a reading grant. The name is older than this rule, and
    /// stays for those who use it.
    OtherRight = 10,
    /// 11: page not 512 bytes; used count over 492; bytes 8 to 11, or unused payload bytes,
    /// not zero.
    NotAPage = 11,
    /// 12: payload over 492 bytes.
    PayloadTooLong = 12,
    /// 13: the page's check differs: it was changed, or sealed with another second key or
    /// another round count.
    CheckDiffers = 13,
    /// 14: size block number 0 asked for. Only the calls of [`raw`](crate::raw) can give it,
    /// and [`SizeBlock::try_from`](crate::SizeBlock), where a number comes in.
    BlockZero = 14,
    /// 20: contractor not in standing.
    NotInStanding = 20,
    /// 21: entering someone in standing.
    InStanding = 21,
    /// 22: entering at count 65,534 or 65,535.
    CountSpent = 22,
    /// 23: the grant's count differs from the roll's.
    OtherCount = 23,
    /// 24: holder not 26 bytes, or not whole: a wrong key length, a stage number not below
    /// it, or bytes past it that are not zero. Only the calls of [`raw`](crate::raw) and
    /// [`KeyHolder::from_bytes`](crate::KeyHolder::from_bytes) can give it.
    BrokenHolder = 24,
    /// 25: right asked for above the contractor's highest: overwriting, of a contractor who
    /// may only read.
    AboveHighest = 25,
}

/// The words of [`Reason::BrokenHolder`].
const BROKEN_HOLDER: &str = "holder not 26 bytes, or not whole: a wrong key length, \
                             a stage number not below it, or bytes past it that are not zero";

impl Reason {
    /// Every reason, in the order of the numbers.
    pub const ALL: [Reason; 20] = [
        Reason::KeyLength,
        Reason::RoundCount,
        Reason::InputLength,
        Reason::OutputTooShort,
        Reason::StageOrList,
        Reason::Contractor,
        Reason::Right,
        Reason::NotAGrant,
        Reason::OtherBlock,
        Reason::OtherRight,
        Reason::NotAPage,
        Reason::PayloadTooLong,
        Reason::CheckDiffers,
        Reason::BlockZero,
        Reason::NotInStanding,
        Reason::InStanding,
        Reason::CountSpent,
        Reason::OtherCount,
        Reason::BrokenHolder,
        Reason::AboveHighest,
    ];

    /// The number of the reason.
    pub fn number(self) -> u32 {
        self as u32
    }

    /// The reason that has a number, if there is one.
    ///
    /// ```
    /// use gordzila::Reason;
    ///
    /// assert_eq!(Reason::from_number(23), Some(Reason::OtherCount));
    /// assert_eq!(Reason::from_number(0), None);
    /// ```
    pub fn from_number(number: u32) -> Option<Reason> {
        Reason::ALL
            .into_iter()
            .find(|reason| reason.number() == number)
    }

    fn words(self) -> &'static str {
        match self {
            Reason::KeyLength => {
                "key not 12, 18 or 24 bytes; \
                 two keys for a page that are equal or of unequal lengths"
            }
            Reason::RoundCount => "round count not 10..11, 14..17 or 18..23, by the key's length",
            Reason::InputLength => {
                "block or grant not 12 bytes; roll not 600 bytes; \
                 queue of grants over 768 bytes, or no multiple of 12"
            }
            Reason::OutputTooShort => {
                "out shorter than what is to be written; \
                 answers shorter than the number of grants; scratch under 576 bytes"
            }
            Reason::StageOrList => {
                "stage number not below the key's length in bytes; \
                 subkey list under 132 bytes, over 288, or no multiple of 12"
            }
            Reason::Contractor => "contractor outside 1 to 200",
            Reason::Right => "right neither 1 nor 2",
            Reason::NotAGrant => "the deciphered bytes have a wrong mark, contractor or right",
            Reason::OtherBlock => "grant for another size block",
            Reason::OtherRight => "overwriting asked of a reading grant",
            Reason::NotAPage => {
                "page not 512 bytes; used count over 492; \
                 bytes 8 to 11, or unused payload bytes, not zero"
            }
            Reason::PayloadTooLong => "payload over 492 bytes",
            Reason::CheckDiffers => "the page's check differs",
            Reason::BlockZero => "size block number 0 asked for",
            Reason::NotInStanding => "contractor not in standing",
            Reason::InStanding => "entering someone in standing",
            Reason::CountSpent => "entering at count 65,534 or 65,535",
            Reason::OtherCount => "the grant's count differs from the roll's",
            Reason::BrokenHolder => BROKEN_HOLDER,
            Reason::AboveHighest => "right asked for above the contractor's highest",
        }
    }
}

/// The reason in words, as in the header.
impl fmt::Display for Reason {
    fn fmt(&self, formatter: &mut fmt::Formatter<'_>) -> fmt::Result {
        formatter.pad(self.words())
    }
}

impl Error for Reason {}

#[cfg(test)]
mod tests {
    use super::Reason;

    #[test]
    fn every_reason_is_found_by_its_number() {
        for reason in Reason::ALL {
            assert_eq!(Reason::from_number(reason.number()), Some(reason));
        }
    }

    #[test]
    fn the_numbers_are_1_to_14_and_20_to_25() {
        let numbers: Vec<u32> = Reason::ALL.into_iter().map(Reason::number).collect();
        let expected: Vec<u32> = (1..=14).chain(20..=25).collect();
        assert_eq!(numbers, expected);
    }

    #[test]
    fn no_other_number_is_a_reason() {
        for number in [0, 15, 19, 26, 257, 1001, 2200, u32::MAX] {
            assert_eq!(Reason::from_number(number), None, "{number}");
        }
    }

    #[test]
    fn a_reason_is_an_error_with_words() {
        for reason in Reason::ALL {
            let error: Box<dyn std::error::Error> = Box::new(reason);
            assert!(!error.to_string().is_empty());
        }
    }
}
