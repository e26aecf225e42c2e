//! The roll of contractors, held as the bytes that the C calls take.

use crate::calls::written;
use crate::{raw, Reason, Right};

/// How many bytes a roll has: the counts, and after them the highest rights.
pub const ROLL_BYTES: usize = 600;

/// How many bytes a roll had before version 0.6: the counts alone.
pub const OLD_ROLL_BYTES: usize = 400;

/// Where the rights start: after the counts, which are what a roll had before.
const RIGHTS: usize = OLD_ROLL_BYTES;

/// How many contractors there are; they have the numbers from 1 on.
pub const CONTRACTORS: u32 = 200;

/// The roll: for each contractor a count, which tells whether they are in standing, and a
/// highest right.
///
/// It is not `Copy`, because grants that were revoked open on a copy that was made
/// before the withdrawal, and a contractor who was demoted overwrites on one that was made
/// before that.
///
/// ```
/// use gordzila::{Reason, Right, Roll};
///
/// let mut roll = Roll::empty();
/// roll.enter(7, Right::Overwriting)?;
/// assert_eq!(roll.count(7), Some(1));
/// assert_eq!(roll.highest_right(7), Some(Right::Overwriting));
/// assert!(roll.in_standing(7));
/// assert_eq!(roll.enter(7, Right::Reading), Err(Reason::InStanding));
///
/// roll.change_right(7, Right::Reading)?;
/// assert_eq!(roll.count(7), Some(1));
/// assert_eq!(roll.highest_right(7), Some(Right::Reading));
///
/// roll.withdraw(7)?;
/// assert_eq!(roll.count(7), Some(2));
/// assert!(!roll.in_standing(7));
/// # Ok::<(), Reason>(())
/// ```
#[derive(Clone, Debug, PartialEq, Eq)]
pub struct Roll([u8; ROLL_BYTES]);

impl Roll {
    /// The roll on which nobody was ever entered, and nobody may do more than read.
    ///
    /// # Panics
    ///
    /// It panics where the library refuses to give it. That takes an archive that does not
    /// belong to this package.
    pub fn empty() -> Roll {
        written(raw::empty_roll)
            .map(Roll)
            .unwrap_or_else(|reason| panic!("the library refused the empty roll: {reason}"))
    }

    /// The roll that has these bytes, if they are as many as [`ROLL_BYTES`]: the counts of
    /// the contractors 1 to 200, two bytes each, big end first, and then their highest
    /// rights, a byte each. Any such bytes are a roll.
    ///
    /// ```
    /// use gordzila::{Roll, ROLL_BYTES};
    ///
    /// let roll = Roll::empty();
    /// assert_eq!(Roll::from_bytes(roll.bytes()), Some(roll));
    /// assert_eq!(Roll::from_bytes(&[0; ROLL_BYTES - 1]), None);
    /// ```
    pub fn from_bytes(bytes: &[u8]) -> Option<Roll> {
        <[u8; ROLL_BYTES]>::try_from(bytes).ok().map(Roll)
    }

    /// The roll of a host of a version before 0.6, if the bytes are as many as it had then,
    /// [`OLD_ROLL_BYTES`]: the counts. All who are in standing get one highest right, and
    /// everyone else has reading, as on the empty roll.
    ///
    /// With [`Right::Overwriting`], every grant opens for what it opened for. With
    /// [`Right::Reading`], grants for overwriting open for reading only, until
    /// [`Roll::change_right`] raises their contractors.
    ///
    /// ```
    /// use gordzila::{Right, Roll, OLD_ROLL_BYTES};
    ///
    /// let mut old = [0; OLD_ROLL_BYTES];
    /// old[13] = 1; // contractor 7 is in standing
    /// let roll = Roll::from_old_bytes(&old, Right::Overwriting).unwrap();
    /// assert_eq!(roll.count(7), Some(1));
    /// assert_eq!(roll.highest_right(7), Some(Right::Overwriting));
    /// assert_eq!(roll.highest_right(8), Some(Right::Reading));
    /// ```
    ///
    /// # Panics
    ///
    /// It panics where [`Roll::empty`] does.
    pub fn from_old_bytes(bytes: &[u8], in_standing: Right) -> Option<Roll> {
        let counts = <[u8; OLD_ROLL_BYTES]>::try_from(bytes).ok()?;
        let mut roll = Roll::empty();
        roll.0[..RIGHTS].copy_from_slice(&counts);
        for contractor in 1..=CONTRACTORS {
            // The library refuses this for all who are not in standing, and for nobody else.
            let _ = roll.change_right(contractor, in_standing);
        }
        Some(roll)
    }

    /// The bytes, as [`Roll::from_bytes`] takes them.
    pub fn bytes(&self) -> &[u8; ROLL_BYTES] {
        &self.0
    }

    /// The count of a contractor; none outside 1 to 200.
    pub fn count(&self, contractor: u32) -> Option<u16> {
        let at = 2 * index(contractor)?;
        Some(u16::from_be_bytes([self.0[at], self.0[at + 1]]))
    }

    /// The highest right of a contractor, whether they are in standing or not; none outside
    /// 1 to 200. It is [`Right::Overwriting`] where the byte is 2, and [`Right::Reading`]
    /// where it is any other.
    pub fn highest_right(&self, contractor: u32) -> Option<Right> {
        let byte = self.0[RIGHTS + index(contractor)?];
        Some(match byte {
            2 => Right::Overwriting,
            _ => Right::Reading,
        })
    }

    /// Whether a contractor is in standing. Nobody is outside 1 to 200.
    ///
    /// The library is asked, by a withdrawal on a copy, so that its rule does not
    /// stand here a second time.
    pub fn in_standing(&self, contractor: u32) -> bool {
        self.clone().withdraw(contractor).is_ok()
    }

    /// Enters a contractor who is not in standing, with their highest right. Refuses with
    /// [`Reason::Contractor`], [`Reason::InStanding`] or [`Reason::CountSpent`]. The right of
    /// someone in standing stays as it is: [`Roll::change_right`] changes it.
    pub fn enter(&mut self, contractor: u32, highest: Right) -> Result<(), Reason> {
        raw::enter(&mut self.0, contractor, highest.number())
    }

    /// Changes the highest right of a contractor who is in standing; the one that they have
    /// already is taken too. Refuses with [`Reason::Contractor`] or
    /// [`Reason::NotInStanding`].
    ///
    /// With [`Right::Reading`] the contractor is demoted. Their grants go on opening for
    /// reading, and on this roll none opens for overwriting. That is
    /// [`Reason::AboveHighest`], unless a reason comes before it, as
    /// [`Reason::OtherRight`] does for a grant for reading and [`Reason::OtherCount`] for one
    /// of an earlier standing. But a demotion ends no grant, because no count changes: once
    /// the contractor is raised, every grant for overwriting of this standing overwrites
    /// again. To end these, withdraw the contractor and enter them again.
    ///
    /// ```
    /// use gordzila::{check, issue, Reason, Right, Roll, SizeBlock};
    ///
    /// let (key, rounds, block) = (&[9; 12], 10, SizeBlock::try_from(300)?);
    /// let mut roll = Roll::empty();
    /// roll.enter(7, Right::Overwriting)?;
    /// let grant = issue(key, rounds, &roll, 7, block, Right::Overwriting)?;
    ///
    /// roll.change_right(7, Right::Reading)?;
    /// let overwriting = check(key, rounds, &roll, &grant, block, Right::Overwriting);
    /// assert_eq!(overwriting, Err(Reason::AboveHighest));
    /// assert!(check(key, rounds, &roll, &grant, block, Right::Reading).is_ok());
    ///
    /// // The same grant overwrites again once its contractor is raised.
    /// roll.change_right(7, Right::Overwriting)?;
    /// assert!(check(key, rounds, &roll, &grant, block, Right::Overwriting).is_ok());
    /// # Ok::<(), Reason>(())
    /// ```
    pub fn change_right(&mut self, contractor: u32, highest: Right) -> Result<(), Reason> {
        raw::change_right(&mut self.0, contractor, highest.number())
    }

    /// Withdraws a contractor who is in standing: no grant issued to them before opens
    /// on this roll any more, and their highest right becomes reading. Refuses with
    /// [`Reason::Contractor`] or [`Reason::NotInStanding`].
    pub fn withdraw(&mut self, contractor: u32) -> Result<(), Reason> {
        raw::withdraw(&mut self.0, contractor)
    }
}

/// The place of a contractor among the entries; none outside 1 to 200.
fn index(contractor: u32) -> Option<usize> {
    match contractor {
        1..=CONTRACTORS => Some(contractor as usize - 1),
        _ => None,
    }
}

#[cfg(test)]
mod tests {
    use super::{Roll, CONTRACTORS};
    use crate::{Reason, Right};
    use Right::{Overwriting, Reading};

    /// The bytes of the empty roll, with one entry: a count and a highest right.
    fn bytes_with(contractor: usize, count: u16, highest: u8) -> [u8; 600] {
        let mut bytes = [0; 600];
        bytes[400..].fill(1);
        let at = 2 * (contractor - 1);
        bytes[at..at + 2].copy_from_slice(&count.to_be_bytes());
        bytes[399 + contractor] = highest;
        bytes
    }

    /// The roll with these bytes.
    fn with_entry(contractor: u32, count: u16, highest: u8) -> Roll {
        Roll::from_bytes(&bytes_with(contractor as usize, count, highest)).unwrap()
    }

    #[test]
    fn a_roll_has_600_bytes() {
        for length in [0, 399, 400, 401, 599, 601, 1000] {
            assert_eq!(Roll::from_bytes(&vec![0; length]), None, "{length}");
        }
        let bytes: Vec<u8> = (0..600).map(|at| (at % 251) as u8).collect();
        let roll = Roll::from_bytes(&bytes).unwrap();
        assert_eq!(roll.bytes()[..], bytes[..]);
    }

    #[test]
    fn the_empty_roll_has_counts_of_0_and_rights_of_1() {
        let roll = Roll::empty();
        assert_eq!(roll.bytes()[..400], [0; 400]);
        assert_eq!(roll.bytes()[400..], [1; 200]);
        for contractor in 1..=CONTRACTORS {
            assert_eq!(roll.count(contractor), Some(0));
            assert_eq!(roll.highest_right(contractor), Some(Reading));
            assert!(!roll.in_standing(contractor));
        }
    }

    #[test]
    fn counts_stand_big_end_first() {
        let roll = with_entry(2, 0x1234, 1);
        assert_eq!(roll.bytes()[2..4], [0x12, 0x34]);
        assert_eq!(roll.count(2), Some(0x1234));
        assert_eq!(roll.count(1), Some(0));
        assert_eq!(roll.count(3), Some(0));
        assert_eq!(with_entry(200, 5, 1).bytes()[399], 5);
        assert_eq!(with_entry(200, 5, 1).count(200), Some(5));
    }

    /// From the byte after the counts on, contractor 1's first.
    #[test]
    fn rights_stand_after_the_counts() {
        for contractor in 1..=CONTRACTORS {
            let mut bytes = [1; 600];
            bytes[399 + contractor as usize] = 2;
            let roll = Roll::from_bytes(&bytes).unwrap();
            let overwrites = |&one: &u32| roll.highest_right(one) == Some(Overwriting);
            assert!((1..=CONTRACTORS).filter(overwrites).eq([contractor]));
        }
    }

    #[test]
    fn only_2_is_overwriting() {
        for byte in 0..=u8::MAX {
            let expected = if byte == 2 { Overwriting } else { Reading };
            for count in [0, 1] {
                let roll = with_entry(9, count, byte);
                assert_eq!(roll.highest_right(9), Some(expected), "{byte}");
            }
        }
    }

    #[test]
    fn nobody_outside_1_to_200_has_an_entry() {
        let mut roll = Roll::empty();
        for contractor in [0, 201, 257, 65_537, u32::MAX] {
            assert_eq!(roll.count(contractor), None);
            assert_eq!(roll.highest_right(contractor), None);
            assert!(!roll.in_standing(contractor));
            for right in [Reading, Overwriting] {
                assert_eq!(roll.enter(contractor, right), Err(Reason::Contractor));
                let changed = roll.change_right(contractor, right);
                assert_eq!(changed, Err(Reason::Contractor));
            }
            assert_eq!(roll.withdraw(contractor), Err(Reason::Contractor));
        }
        assert_eq!(roll, Roll::empty());
    }

    #[test]
    fn in_standing_is_odd_and_below_65535() {
        for count in 0..=u16::MAX {
            let expected = count % 2 == 1 && count < 65_535;
            assert_eq!(with_entry(9, count, 1).in_standing(9), expected, "{count}");
        }
    }

    #[test]
    fn each_change_writes_one_entry() {
        for contractor in 1..=CONTRACTORS {
            let mut roll = Roll::empty();
            let entry = |count, highest| with_entry(contractor, count, highest);
            assert_eq!(roll.withdraw(contractor), Err(Reason::NotInStanding));
            let changed = roll.change_right(contractor, Overwriting);
            assert_eq!(changed, Err(Reason::NotInStanding));
            assert_eq!(roll, entry(0, 1));
            assert_eq!(roll.enter(contractor, Overwriting), Ok(()));
            assert_eq!(roll, entry(1, 2));
            assert_eq!(roll.enter(contractor, Reading), Err(Reason::InStanding));
            assert_eq!(roll, entry(1, 2));
            // The second change is to the right that they have already.
            for (right, byte) in [(Reading, 1), (Reading, 1), (Overwriting, 2)] {
                assert_eq!(roll.change_right(contractor, right), Ok(()));
                assert_eq!(roll, entry(1, byte));
            }
            assert_eq!(roll.withdraw(contractor), Ok(()));
            assert_eq!(roll, entry(2, 1));
            assert_eq!(roll.enter(contractor, Reading), Ok(()));
            assert_eq!(roll, entry(3, 1));
        }
    }

    /// Any byte may be stored as a right. It stays until its own entry is written.
    #[test]
    fn other_bytes_stay_until_their_entry_is_written() {
        for byte in [0, 1, 2, 3, 255] {
            let mut roll = with_entry(8, 1, byte);
            let stored = roll.bytes()[407];
            assert_eq!(roll.enter(7, Overwriting), Ok(()));
            assert_eq!(roll.change_right(7, Reading), Ok(()));
            assert_eq!(roll.withdraw(7), Ok(()));
            assert_eq!(roll.enter(8, Overwriting), Err(Reason::InStanding));
            assert_eq!((stored, roll.bytes()[407]), (byte, byte));
            for (right, written) in [(Reading, 1), (Overwriting, 2)] {
                let mut changed = roll.clone();
                assert_eq!(changed.change_right(8, right), Ok(()));
                assert_eq!(changed.bytes()[407], written);
            }
            assert_eq!(roll.withdraw(8), Ok(()));
            assert_eq!(roll.bytes()[407], 1);
        }
    }

    #[test]
    fn the_last_counts_are_spent() {
        let mut roll = with_entry(3, 65_532, 1);
        assert_eq!(roll.enter(3, Overwriting), Ok(()));
        assert_eq!(roll.withdraw(3), Ok(()));
        assert_eq!(roll.count(3), Some(65_534));
        let mut spent = with_entry(3, 65_535, 2);
        for right in [Reading, Overwriting] {
            assert_eq!(roll.enter(3, right), Err(Reason::CountSpent));
            assert_eq!(spent.enter(3, right), Err(Reason::CountSpent));
            let changed = spent.change_right(3, right);
            assert_eq!(changed, Err(Reason::NotInStanding));
        }
        assert_eq!(spent.withdraw(3), Err(Reason::NotInStanding));
        assert_eq!(spent, with_entry(3, 65_535, 2));
    }

    #[test]
    fn an_old_roll_gives_those_in_standing_one_right() {
        let mut old = [0; 400];
        // Contractors 1, 7, 8, 9, 10 and 200, of whom 1, 7 and 200 are in standing.
        old[1] = 3;
        old[12..20].copy_from_slice(&[0xff, 0xfd, 0xff, 0xfe, 0xff, 0xff, 0, 2]);
        old[399] = 1;
        for (right, byte) in [(Reading, 1), (Overwriting, 2)] {
            let roll = Roll::from_old_bytes(&old, right).unwrap();
            let mut rights = [1; 200];
            (rights[0], rights[6], rights[199]) = (byte, byte, byte);
            assert_eq!(roll.bytes()[..400], old);
            assert_eq!(roll.bytes()[400..], rights);
        }
    }

    #[test]
    fn an_old_roll_has_400_bytes() {
        for length in [0, 399, 401, 600] {
            let roll = Roll::from_old_bytes(&vec![0; length], Overwriting);
            assert_eq!(roll, None, "{length}");
        }
        let empty = Roll::from_old_bytes(&[0; 400], Overwriting);
        assert_eq!(empty, Some(Roll::empty()));
    }
}
