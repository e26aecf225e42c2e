//! The calls with types that leave out what cannot be meant: blocks have 12 bytes,
//! rolls are rolls, rights are two, size blocks are not 0, and outputs are returned.

use crate::{raw, Opened, Reason, Right, Roll, SizeBlock};

/// How many bytes a block, a grant and a subkey have.
pub const BLOCK_BYTES: usize = 12;

/// How many bytes a stage is given as, whatever the key's length.
pub const STAGE_BYTES: usize = 24;

/// How many grants [`check_queue`] takes at most.
pub const QUEUE_MOST_GRANTS: usize = 64;

/// How many bytes the longest subkey list has: 24 subkeys.
const LONGEST_LIST: usize = 24 * BLOCK_BYTES;

/// Enciphers one block. Refuses with [`Reason::KeyLength`] or [`Reason::RoundCount`].
///
/// ```
/// let key = [0, 1, 2, 3, 4, 5, 6, 7, 8, 9, 10, 11];
/// let block = *b"\x00\x11\x22\x33\x44\x55\x66\x77\x88\x99\xaa\xbb";
/// let enciphered = gordzila::encipher(&key, 10, &block)?;
/// assert_eq!(enciphered, *b"\x6e\xdf\x4c\x9c\xc8\x21\x9e\xc4\x03\xe5\x8e\xc8");
/// assert_eq!(gordzila::decipher(&key, 10, &enciphered)?, block);
/// # Ok::<(), gordzila::Reason>(())
/// ```
pub fn encipher(
    key: &[u8],
    rounds: u32,
    block: &[u8; BLOCK_BYTES],
) -> Result<[u8; BLOCK_BYTES], Reason> {
    written(|out| raw::encipher(key, rounds, block, out))
}

/// Deciphers one block. Refuses with [`Reason::KeyLength`] or [`Reason::RoundCount`].
pub fn decipher(
    key: &[u8],
    rounds: u32,
    block: &[u8; BLOCK_BYTES],
) -> Result<[u8; BLOCK_BYTES], Reason> {
    written(|out| raw::decipher(key, rounds, block, out))
}

/// The subkey list for enciphering: 12 (`rounds` + 1) bytes, which [`run`] takes.
/// Refuses with [`Reason::KeyLength`] or [`Reason::RoundCount`].
///
/// ```
/// let (key, block) = ([3; 18], [5; 12]);
/// let list = gordzila::prepare_enciphering(&key, 14)?;
/// assert_eq!(list.len(), 12 * 15);
/// assert_eq!(gordzila::run(&list, &block)?, gordzila::encipher(&key, 14, &block)?);
/// # Ok::<(), gordzila::Reason>(())
/// ```
pub fn prepare_enciphering(key: &[u8], rounds: u32) -> Result<Vec<u8>, Reason> {
    prepared(rounds, |out| raw::prepare_enciphering(key, rounds, out))
}

/// The subkey list for deciphering: 12 (`rounds` + 1) bytes, which [`run`] takes.
/// Refuses with [`Reason::KeyLength`] or [`Reason::RoundCount`].
pub fn prepare_deciphering(key: &[u8], rounds: u32) -> Result<Vec<u8>, Reason> {
    prepared(rounds, |out| raw::prepare_deciphering(key, rounds, out))
}

/// Runs the engine over a list of 11 to 24 subkeys, whether a key gives it or not.
/// Refuses with [`Reason::StageOrList`].
pub fn run(list: &[u8], block: &[u8; BLOCK_BYTES]) -> Result<[u8; BLOCK_BYTES], Reason> {
    written(|out| raw::run(list, block, out))
}

/// Issues a grant to a contractor in the standing that the roll has for them, for a right up
/// to their highest. A grant for overwriting also opens its size block for reading, so that
/// nobody needs one of each. Refuses with [`Reason::KeyLength`], [`Reason::RoundCount`],
/// [`Reason::Contractor`], [`Reason::NotInStanding`] or [`Reason::AboveHighest`].
///
/// ```
/// use gordzila::{Opened, Reason, Right, Roll, SizeBlock};
///
/// let (key, rounds, block) = ([9; 12], 10, SizeBlock::try_from(300)?);
/// let mut roll = Roll::empty();
/// roll.enter(7, Right::Reading)?;
/// let grant = gordzila::issue(&key, rounds, &roll, 7, block, Right::Reading)?;
/// let refused = gordzila::issue(&key, rounds, &roll, 7, block, Right::Overwriting);
/// assert_eq!(refused, Err(Reason::AboveHighest));
///
/// let opened = gordzila::check(&key, rounds, &roll, &grant, block, Right::Reading)?;
/// assert_eq!(opened, Opened { contractor: 7, right: Right::Reading });
///
/// roll.withdraw(7)?;
/// let refused = gordzila::check(&key, rounds, &roll, &grant, block, Right::Reading);
/// assert_eq!(refused, Err(Reason::NotInStanding));
/// # Ok::<(), Reason>(())
/// ```
pub fn issue(
    key: &[u8],
    rounds: u32,
    roll: &Roll,
    contractor: u32,
    size_block: SizeBlock,
    right: Right,
) -> Result<[u8; BLOCK_BYTES], Reason> {
    let (roll, block, right) = (roll.bytes(), size_block.number(), right.number());
    written(|out| raw::issue(key, rounds, roll, contractor, block, right, out))
}

/// Checks a grant for one size block and one right. The grant may have any length: it
/// comes from outside. Refuses with [`Reason::KeyLength`], [`Reason::RoundCount`],
/// [`Reason::InputLength`], [`Reason::NotAGrant`], [`Reason::OtherBlock`],
/// [`Reason::OtherRight`], [`Reason::NotInStanding`], [`Reason::OtherCount`] or
/// [`Reason::AboveHighest`].
///
/// A grant for overwriting opens for reading too, and the answer has the right that was
/// asked for. Overwriting asked of a reading grant is [`Reason::OtherRight`]; asked of an
/// overwriting grant whose contractor may only read, it is [`Reason::AboveHighest`].
///
/// A grant that was issued for size block 0, before version 0.7, opens nothing: it is
/// [`Reason::OtherBlock`], whichever is asked for, where no other reason comes first.
///
/// ```
/// use gordzila::{check, issue, Opened, Reason, Right, Roll, SizeBlock};
///
/// let (key, rounds, block) = (&[9; 12], 10, SizeBlock::try_from(300)?);
/// let mut roll = Roll::empty();
/// roll.enter(7, Right::Overwriting)?;
///
/// let overwriting = issue(key, rounds, &roll, 7, block, Right::Overwriting)?;
/// let opened = check(key, rounds, &roll, &overwriting, block, Right::Reading)?;
/// assert_eq!(opened, Opened { contractor: 7, right: Right::Reading });
///
/// let reading = issue(key, rounds, &roll, 7, block, Right::Reading)?;
/// let refused = check(key, rounds, &roll, &reading, block, Right::Overwriting);
/// assert_eq!(refused, Err(Reason::OtherRight));
/// # Ok::<(), Reason>(())
/// ```
pub fn check(
    key: &[u8],
    rounds: u32,
    roll: &Roll,
    grant: &[u8],
    size_block: SizeBlock,
    right: Right,
) -> Result<Opened, Reason> {
    let (block, right) = (size_block.number(), right.number());
    raw::check(key, rounds, roll.bytes(), grant, block, right)
}

/// Checks a queue of 0 to 64 grants ([`QUEUE_MOST_GRANTS`]) for one size block and one
/// right, on one roll. Each grant gets a verdict of its own, in their order: `Ok` if it
/// opens, else the reason with which [`check`] refuses it. A grant that is refused does not
/// stop those after it.
///
/// The whole queue is refused, with no verdict, with [`Reason::KeyLength`],
/// [`Reason::RoundCount`] or, for more than 64 grants, [`Reason::InputLength`]. So `?` on
/// the whole does not say that a grant opens: look at its verdict. Who needs the contractor
/// hands that grant to [`check`].
///
/// ```
/// use gordzila::{check_queue, issue, Reason, Right, Roll, SizeBlock};
///
/// let (key, rounds, block) = (&[9; 12], 10, SizeBlock::try_from(300)?);
/// let mut roll = Roll::empty();
/// roll.enter(7, Right::Overwriting)?;
/// let overwriting = issue(key, rounds, &roll, 7, block, Right::Overwriting)?;
/// let reading = issue(key, rounds, &roll, 7, block, Right::Reading)?;
///
/// let pile = [reading, [0; 12], overwriting];
/// let verdicts = check_queue(key, rounds, &roll, &pile, block, Right::Overwriting)?;
/// assert_eq!(verdicts, [Err(Reason::OtherRight), Err(Reason::NotAGrant), Ok(())]);
///
/// // The grants that open, of a pile of any length.
/// for pile in pile.chunks(gordzila::QUEUE_MOST_GRANTS) {
///     let verdicts = check_queue(key, rounds, &roll, pile, block, Right::Overwriting)?;
///     let opens = pile.iter().zip(verdicts).filter(|(_, verdict)| verdict.is_ok());
///     assert!(opens.map(|(grant, _)| grant).eq([&overwriting]));
/// }
///
/// let pile = [overwriting; 65];
/// let refused = check_queue(key, rounds, &roll, &pile, block, Right::Overwriting);
/// assert_eq!(refused, Err(Reason::InputLength));
/// # Ok::<(), Reason>(())
/// ```
///
/// # Panics
///
/// It panics where the library gives a grant a number that the header does not have. That
/// takes an archive that does not belong to this package. [`raw::check_queue`] leaves the
/// numbers as they are.
pub fn check_queue(
    key: &[u8],
    rounds: u32,
    roll: &Roll,
    grants: &[[u8; BLOCK_BYTES]],
    size_block: SizeBlock,
    right: Right,
) -> Result<Vec<Result<(), Reason>>, Reason> {
    // A byte that the library did not write would open nothing.
    let mut answers = vec![u8::MAX; grants.len()];
    let (roll, grants) = (roll.bytes(), grants.concat());
    let (block, right) = (size_block.number(), right.number());
    raw::check_queue(key, rounds, roll, &grants, block, right, &mut answers)?;
    Ok(answers.into_iter().map(verdict).collect())
}

/// What a byte of the queue's answers says of its grant.
fn verdict(byte: u8) -> Result<(), Reason> {
    raw::done(byte.into())
}

/// A key's stage `n`, below the key's length: as many bytes as the key, then zeros.
/// Refuses with [`Reason::KeyLength`] or [`Reason::StageOrList`].
///
/// ```
/// use gordzila::Reason;
///
/// let key = [7; 12];
/// let stage = gordzila::stage(&key, 0)?;
/// assert_eq!((&stage[..12], &stage[12..]), (&key[..], &[0; 12][..]));
/// assert_eq!(gordzila::stage(&key, 12), Err(Reason::StageOrList));
/// # Ok::<(), Reason>(())
/// ```
pub fn stage(key: &[u8], n: u32) -> Result<[u8; STAGE_BYTES], Reason> {
    written(|out| raw::stage(key, n, out))
}

/// The subkey of a key's stage `n`, below the key's length. Refuses with
/// [`Reason::KeyLength`] or [`Reason::StageOrList`].
///
/// ```
/// let key = [7; 24];
/// let list = gordzila::prepare_enciphering(&key, 23)?;
/// assert_eq!(gordzila::subkey(&key, 23)?, list[12 * 23..]);
/// # Ok::<(), gordzila::Reason>(())
/// ```
pub fn subkey(key: &[u8], n: u32) -> Result<[u8; BLOCK_BYTES], Reason> {
    written(|out| raw::subkey(key, n, out))
}

/// What a call writes, all of `LENGTH` bytes, if it does not refuse.
pub(crate) fn written<const LENGTH: usize>(
    call: impl FnOnce(&mut [u8]) -> Result<(), Reason>,
) -> Result<[u8; LENGTH], Reason> {
    let mut out = [0; LENGTH];
    call(&mut out)?;
    Ok(out)
}

/// The list that a call writes. Where it does not refuse, the rounds are at most 23,
/// and the list has as many subkeys and one more.
fn prepared(
    rounds: u32,
    call: impl FnOnce(&mut [u8]) -> Result<(), Reason>,
) -> Result<Vec<u8>, Reason> {
    let list = written::<LONGEST_LIST>(call)?;
    Ok(list[..BLOCK_BYTES * (rounds as usize + 1)].to_vec())
}

#[cfg(test)]
mod tests {
    use super::verdict;
    use crate::Reason;

    #[test]
    fn only_0_opens_and_other_bytes_are_reasons() {
        for byte in 0..=u8::MAX {
            let said = std::panic::catch_unwind(|| verdict(byte));
            match Reason::from_number(byte.into()) {
                Some(reason) => assert_eq!(said.unwrap(), Err(reason)),
                // A number that the header does not have is not taken for anything.
                None if byte > 0 => assert!(said.is_err(), "{byte}"),
                None => assert_eq!(said.unwrap(), Ok(())),
            }
        }
    }
}
