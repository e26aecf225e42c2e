//! The C calls over any slices and any numbers.
//!
//! They are for those who have to reach every refusal. The calls at the top of the
//! package take types that leave out some of them.
//!
//! Each call stands here twice: with a name that ends in `_number` it gives the number
//! that the C call answers, without it a `Result`. Where a call refuses, it writes
//! nothing, but for the scratch of [`open_page`]. Where it does not, it writes the bytes
//! that are said, from the start of `out` or `answers`, and none after them. Of several
//! reasons that hold, it gives the first in the order that stands with the call.
//!
//! ```
//! use gordzila::{raw, Reason};
//!
//! let mut out = [0xee; 13];
//! assert_eq!(raw::encipher(&[0; 12], 10, &[0; 12], &mut out[..11]), Err(Reason::OutputTooShort));
//! assert_eq!(out, [0xee; 13]);
//! assert_eq!(raw::encipher_number(&[0; 12], 10, &[0; 12], &mut out), 0);
//! assert_eq!(out[12], 0xee);
//! ```
//!
//! # Panics
//!
//! The calls that give a `Result` panic where the library answers a number that the
//! header does not have. That takes an archive that does not belong to this package.

pub use crate::sys::{
    change_right_number, check_number, check_queue_number, decipher_number, empty_roll_number,
    encipher_number, enter_number, holder_back_number, holder_forward_number, holder_make_number,
    holder_subkey_number, holder_walk_number, issue_number, open_page_number,
    prepare_deciphering_number, prepare_enciphering_number, run_number, seal_page_number,
    stage_number, subkey_number, withdraw_number,
};
use crate::{Opened, PageHeader, PageKeys, Reason, Right, Walked, Way, CONTRACTORS, PAYLOAD_BYTES};

/// An answer from this number on says that a grant opens; it is this number times the
/// right asked for, plus the contractor.
const OPENS: u32 = 1000;

/// An answer from this number on says that a holder walked; it is this number, or twice
/// this number for a walk back, plus the steps.
const WALKED: u32 = 1000;

/// An answer from this number on says that a page opens; it is this number plus the used
/// count, the page number and the size block, in 15, 16 and 32 bits.
const PAGE_OPENS: u64 = 1 << 63;

/// Checks a grant for one size block and one right, which is the one in the answer. A
/// grant for overwriting opens for reading too. Order: 1, 2, 3 (grant or roll), 7, 14, 8,
/// 9, 10, 20, 23, 25.
///
/// 14 is about the size block asked for, whatever the grant is. A grant that was issued for
/// size block 0, before version 0.7, opens nothing: asked for another it is 9.
pub fn check(
    key: &[u8],
    rounds: u32,
    roll: &[u8],
    grant: &[u8],
    size_block: u32,
    right: u32,
) -> Result<Opened, Reason> {
    opened(check_number(key, rounds, roll, grant, size_block, right))
}

/// Checks a queue of 0 to 64 grants, 12 bytes each, for one size block and one right: a
/// byte for each grant to `answers`, 0 if it opens, else the number with which [`check`]
/// refuses it. Order: 1, 2, 3 (roll or grants), 4, 7, 14. No byte is 14: that refuses the
/// whole call.
///
/// `Ok` does not say that a grant opens, only that each has its byte. Take every byte but 0
/// for a refusal. `answers` keeps its bytes where the whole call is refused, so that those
/// that were 0 before would look like grants that open:
///
/// ```
/// use gordzila::{raw, Reason};
///
/// let (key, roll, grants) = (&[9; 12], &[0; gordzila::ROLL_BYTES], &[0; 24]);
/// let mut answers = [0xff; 3];
/// let refused = raw::check_queue(key, 10, roll, grants, 300, 3, &mut answers);
/// assert_eq!((refused, answers), (Err(Reason::Right), [0xff; 3]));
/// let done = raw::check_queue(key, 10, roll, grants, 300, 1, &mut answers);
/// assert_eq!((done, answers), (Ok(()), [8, 8, 0xff]));
/// ```
pub fn check_queue(
    key: &[u8],
    rounds: u32,
    roll: &[u8],
    grants: &[u8],
    size_block: u32,
    right: u32,
    answers: &mut [u8],
) -> Result<(), Reason> {
    done(check_queue_number(
        key, rounds, roll, grants, size_block, right, answers,
    ))
}

/// The roll on which nobody was ever entered: as many bytes to `out` as a roll has. Order:
/// 4.
pub fn empty_roll(out: &mut [u8]) -> Result<(), Reason> {
    done(empty_roll_number(out))
}

/// Enters a contractor on a roll, with `right` as their highest right. Order: 3, 6, 7, 21,
/// 22.
pub fn enter(roll: &mut [u8], contractor: u32, right: u32) -> Result<(), Reason> {
    done(enter_number(roll, contractor, right))
}

/// Changes the highest right of a contractor in standing on a roll to `right`. Order: 3, 6,
/// 7, 20.
pub fn change_right(roll: &mut [u8], contractor: u32, right: u32) -> Result<(), Reason> {
    done(change_right_number(roll, contractor, right))
}

/// Withdraws a contractor on a roll; their highest right becomes 1. Order: 3, 6, 20.
pub fn withdraw(roll: &mut [u8], contractor: u32) -> Result<(), Reason> {
    done(withdraw_number(roll, contractor))
}

/// Issues a grant: 12 bytes to `out`. One for overwriting opens for reading too. Order: 1,
/// 2, 3 (roll), 4, 6, 7, 14, 20, 25.
pub fn issue(
    key: &[u8],
    rounds: u32,
    roll: &[u8],
    contractor: u32,
    size_block: u32,
    right: u32,
    out: &mut [u8],
) -> Result<(), Reason> {
    done(issue_number(
        key, rounds, roll, contractor, size_block, right, out,
    ))
}

/// Seals a page: 512 bytes to `out`. Order: 1 (also keys that are equal or of unequal
/// lengths), 2, 4 (`scratch` under 576 bytes or `out` under 512), 14, 12.
///
/// The subkey lists are in `scratch` while the call works. After it the first 576 bytes are
/// zero, and the others as they were; where it refuses, all are as they were:
///
/// ```
/// use gordzila::{raw, PageKeys, Reason};
///
/// let (keys, mut scratch, mut out) = (
///     PageKeys { first: &[1; 12], second: &[2; 12] },
///     [0xee; 577],
///     [0xee; 513],
/// );
/// let refused = raw::seal_page(keys, 10, 300, 4, &[0; 493], &mut scratch, &mut out);
/// assert_eq!((refused, scratch), (Err(Reason::PayloadTooLong), [0xee; 577]));
/// raw::seal_page(keys, 10, 300, 4, b"front panel", &mut scratch, &mut out)?;
/// assert_eq!((&scratch[..576], scratch[576], out[512]), (&[0; 576][..], 0xee, 0xee));
/// # Ok::<(), Reason>(())
/// ```
pub fn seal_page(
    keys: PageKeys<'_>,
    rounds: u32,
    size_block: u32,
    page_number: u16,
    payload: &[u8],
    scratch: &mut [u8],
    out: &mut [u8],
) -> Result<(), Reason> {
    done(seal_page_number(
        keys,
        rounds,
        size_block,
        page_number,
        payload,
        scratch,
        out,
    ))
}

/// Opens a page: all 492 bytes of the payload to `out`, with zeros past those that are
/// used. Order: 1 (also keys that are equal or of unequal lengths), 2, 4 (`scratch` under
/// 576 bytes or `out` under 492), 11 (the page's length, its used count or its bytes 8 to
/// 11), 13, 11 (unused payload bytes).
///
/// The subkey lists are in `scratch` while the call works. After it the first 576 bytes are
/// zero, and the others as they were; so they are after 13 and after the second 11, though
/// these refuse. After every other refusal all are as they were. `out` is as it was after
/// every refusal.
///
/// A page that was sealed for size block 0, before version 0.7, is not refused for that.
///
/// ```
/// use gordzila::{raw, PageHeader, PageKeys, Reason, SizeBlock};
///
/// let (keys, block) = (PageKeys { first: &[1; 12], second: &[2; 12] }, SizeBlock::try_from(300)?);
/// let mut page = gordzila::seal_page(keys, 10, block, 4, b"front panel")?;
/// let (mut scratch, mut out) = ([0xee; 576], [0xee; 492]);
/// let header = raw::open_page(keys, 10, &page, &mut scratch, &mut out)?;
/// assert_eq!(header, PageHeader { size_block: 300, page_number: 4, used: 11 });
/// assert_eq!((&out[..11], &out[11..]), (&b"front panel"[..], &[0; 481][..]));
///
/// page[511] ^= 1;
/// let (mut scratch, mut out) = ([0xee; 576], [0xee; 492]);
/// let refused = raw::open_page(keys, 10, &page, &mut scratch, &mut out);
/// assert_eq!(refused, Err(Reason::CheckDiffers));
/// assert_eq!((scratch, out), ([0; 576], [0xee; 492]));
/// # Ok::<(), Reason>(())
/// ```
pub fn open_page(
    keys: PageKeys<'_>,
    rounds: u32,
    page: &[u8],
    scratch: &mut [u8],
    out: &mut [u8],
) -> Result<PageHeader, Reason> {
    page_opened(open_page_number(keys, rounds, page, scratch, out))
}

/// Enciphers one block: 12 bytes to `out`. Order: 1, 2, 3, 4.
pub fn encipher(key: &[u8], rounds: u32, block: &[u8], out: &mut [u8]) -> Result<(), Reason> {
    done(encipher_number(key, rounds, block, out))
}

/// Deciphers one block: 12 bytes to `out`. Order: 1, 2, 3, 4.
pub fn decipher(key: &[u8], rounds: u32, block: &[u8], out: &mut [u8]) -> Result<(), Reason> {
    done(decipher_number(key, rounds, block, out))
}

/// Prepares the subkey list for enciphering: 12 (`rounds` + 1) bytes to `out`. Order:
/// 1, 2, 4.
pub fn prepare_enciphering(key: &[u8], rounds: u32, out: &mut [u8]) -> Result<(), Reason> {
    done(prepare_enciphering_number(key, rounds, out))
}

/// Prepares the subkey list for deciphering: 12 (`rounds` + 1) bytes to `out`. Order:
/// 1, 2, 4.
pub fn prepare_deciphering(key: &[u8], rounds: u32, out: &mut [u8]) -> Result<(), Reason> {
    done(prepare_deciphering_number(key, rounds, out))
}

/// Runs the engine over a subkey list, whether a key gives it or not: 12 bytes to
/// `out`. Order: 5, 3, 4.
pub fn run(list: &[u8], block: &[u8], out: &mut [u8]) -> Result<(), Reason> {
    done(run_number(list, block, out))
}

/// A key's stage `n`: 24 bytes to `out`, with zeros past the key's length. Order: 1,
/// 5, 4.
pub fn stage(key: &[u8], n: u32, out: &mut [u8]) -> Result<(), Reason> {
    done(stage_number(key, n, out))
}

/// The subkey of a key's stage `n`: 12 bytes to `out`. Order: 1, 5, 4.
pub fn subkey(key: &[u8], n: u32, out: &mut [u8]) -> Result<(), Reason> {
    done(subkey_number(key, n, out))
}

/// Makes a key holder at stage 0: 26 bytes to `out`. Order: 1, 4.
pub fn holder_make(key: &[u8], out: &mut [u8]) -> Result<(), Reason> {
    done(holder_make_number(key, out))
}

/// Steps a holder's 26 bytes to the next stage, and from the last to stage 0. Order:
/// 24.
pub fn holder_forward(holder: &mut [u8]) -> Result<(), Reason> {
    done(holder_forward_number(holder))
}

/// Steps a holder's 26 bytes to the stage before, and from stage 0 to the last. Order:
/// 24.
pub fn holder_back(holder: &mut [u8]) -> Result<(), Reason> {
    done(holder_back_number(holder))
}

/// Walks a holder's 26 bytes to stage `n`, the shorter way; forward where both are as
/// long. Order: 24, 5.
pub fn holder_walk(holder: &mut [u8], n: u32) -> Result<Walked, Reason> {
    walked(holder_walk_number(holder, n))
}

/// The subkey of the stage that a holder is at: 12 bytes to `out`. Order: 24, 4.
pub fn holder_subkey(holder: &[u8], out: &mut [u8]) -> Result<(), Reason> {
    done(holder_subkey_number(holder, out))
}

/// What a number says that is 0 or that of a reason.
pub(crate) fn done(number: u32) -> Result<(), Reason> {
    match number {
        0 => Ok(()),
        _ => Err(reason(number)),
    }
}

/// What an answer of the check says.
fn opened(answer: u32) -> Result<Opened, Reason> {
    if answer < OPENS {
        return Err(reason(answer));
    }
    let contractor = answer % OPENS;
    match Right::from_number(answer / OPENS) {
        Some(right) if (1..=CONTRACTORS).contains(&contractor) => Ok(Opened { contractor, right }),
        _ => unknown(answer),
    }
}

/// What an answer of a walk says. The shorter way has 12 steps at most, and back it has
/// fewer: a walk is forward where both ways are as long, and where it has no step.
fn walked(answer: u32) -> Result<Walked, Reason> {
    if answer < WALKED {
        return Err(reason(answer));
    }
    let steps = answer % WALKED;
    match (answer / WALKED, steps) {
        (1, 0..=12) => Ok(Walked {
            steps,
            way: Way::Forward,
        }),
        (2, 1..=11) => Ok(Walked {
            steps,
            way: Way::Back,
        }),
        _ => unknown(answer),
    }
}

/// What an answer of the opening of a page says.
fn page_opened(answer: u64) -> Result<PageHeader, Reason> {
    if answer < PAGE_OPENS {
        let number = u32::try_from(answer).unwrap_or_else(|_| unknown(answer));
        return Err(reason(number));
    }
    // Nothing is lost: what is cut off stands in the other two.
    let (size_block, page_number) = (answer as u32, (answer >> 32) as u16);
    let used = ((answer - PAGE_OPENS) >> 48) as u16;
    if usize::from(used) > PAYLOAD_BYTES {
        unknown(answer);
    }
    Ok(PageHeader {
        size_block,
        page_number,
        used,
    })
}

fn reason(number: u32) -> Reason {
    Reason::from_number(number).unwrap_or_else(|| unknown(number))
}

/// Nobody may take a number for an opening grant or page, or for a walk, that the header
/// does not explain.
fn unknown(number: impl Into<u64>) -> ! {
    let number = number.into();
    panic!("the library answered {number}, which the header does not have")
}

#[cfg(test)]
mod tests {
    use super::{done, opened, page_opened, walked};
    use crate::{Opened, PageHeader, Reason, Right, Walked, Way};

    #[test]
    fn zero_is_done_and_other_numbers_are_reasons() {
        assert_eq!(done(0), Ok(()));
        for reason in Reason::ALL {
            assert_eq!(done(reason.number()), Err(reason));
        }
    }

    #[test]
    fn a_number_of_no_reason_is_not_taken_for_anything() {
        for number in [15, 26, 1001] {
            assert!(std::panic::catch_unwind(|| done(number)).is_err());
        }
    }

    #[test]
    fn answers_from_1001_and_2001_on_open() {
        for contractor in [1, 7, 200] {
            for right in [Right::Reading, Right::Overwriting] {
                let answer = 1000 * right.number() + contractor;
                assert_eq!(opened(answer), Ok(Opened { contractor, right }));
            }
        }
    }

    #[test]
    fn answers_below_1000_refuse() {
        for reason in Reason::ALL {
            assert_eq!(opened(reason.number()), Err(reason));
        }
    }

    #[test]
    fn an_answer_that_the_header_does_not_have_opens_nothing() {
        for answer in [0, 15, 26, 999, 1000, 1201, 2000, 2201, 3001, u32::MAX] {
            assert!(std::panic::catch_unwind(|| opened(answer)).is_err());
        }
    }

    #[test]
    fn answers_from_1000_and_2001_on_are_walks() {
        for (steps, answer) in (0..).zip(1000..=1012) {
            let way = Way::Forward;
            assert_eq!(walked(answer), Ok(Walked { steps, way }));
        }
        for (steps, answer) in (1..).zip(2001..=2011) {
            let way = Way::Back;
            assert_eq!(walked(answer), Ok(Walked { steps, way }));
        }
    }

    #[test]
    fn a_walk_refuses_below_1000() {
        for reason in Reason::ALL {
            assert_eq!(walked(reason.number()), Err(reason));
        }
    }

    #[test]
    fn an_answer_that_the_header_does_not_have_is_no_walk() {
        for answer in [0, 15, 26, 999, 1013, 2000, 2012, 3001, u32::MAX] {
            assert!(std::panic::catch_unwind(|| walked(answer)).is_err());
        }
    }

    #[test]
    fn answers_from_2_to_63_on_are_pages() {
        for (answer, size_block, page_number, used) in [
            (0x8000_0000_0000_0000, 0, 0, 0),
            (0x8000_0000_0000_000d, 13, 0, 0),
            (0x8001_0203_0405_0607, 0x0405_0607, 0x0203, 1),
            (0x81ec_ffff_ffff_ffff, u32::MAX, u16::MAX, 492),
        ] {
            let header = PageHeader {
                size_block,
                page_number,
                used,
            };
            assert_eq!(page_opened(answer), Ok(header));
        }
    }

    #[test]
    fn a_page_is_refused_below_2_to_63() {
        for reason in Reason::ALL {
            assert_eq!(page_opened(reason.number().into()), Err(reason));
        }
    }

    #[test]
    fn an_answer_that_the_header_does_not_have_is_no_page() {
        for answer in [
            0,
            15,
            26,
            1001,
            (1 << 32) + 13,
            (1 << 48) + 300,
            (1 << 63) - 1,
            0x81ed_0000_0000_0000,
            0xffff_0000_0000_0000,
            u64::MAX,
        ] {
            assert!(std::panic::catch_unwind(|| page_opened(answer)).is_err());
        }
    }
}
