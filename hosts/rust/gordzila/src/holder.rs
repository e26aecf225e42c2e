//! The key holder, held as the bytes that the C calls take.

use crate::calls::written;
use crate::{raw, Reason, Walked, BLOCK_BYTES};
use std::fmt;

/// How many bytes a key holder has.
pub const HOLDER_BYTES: usize = 26;

/// Where the stage starts; the key's length and the stage's number stand before it.
const STAGE: usize = 2;

/// A key holder: one stage of a key, from which it goes to the others.
///
/// It is always whole, so that its subkey and its steps are never refused. Whoever has
/// its bytes has the key, because steps lead from any stage to stage 0. `{:?}` does not
/// show the stage.
///
/// ```
/// use gordzila::{KeyHolder, Reason, Walked, Way};
///
/// let key = [7; 18];
/// let mut holder = KeyHolder::new(&key)?;
/// assert_eq!(holder.walk(4), Ok(Walked { steps: 4, way: Way::Forward }));
/// assert_eq!(holder.subkey(), gordzila::subkey(&key, 4)?);
///
/// // From stage 4 it is shorter to stage 17 over stage 0.
/// assert_eq!(holder.walk(17), Ok(Walked { steps: 5, way: Way::Back }));
/// holder.forward();
/// assert_eq!(holder.stage_number(), 0);
/// assert_eq!(holder.walk(18), Err(Reason::StageOrList));
/// # Ok::<(), Reason>(())
/// ```
///
/// # Panics
///
/// The subkey and the steps panic where the library refuses a whole holder. That takes
/// an archive that does not belong to this package.
#[derive(Clone, PartialEq, Eq)]
pub struct KeyHolder([u8; HOLDER_BYTES]);

impl KeyHolder {
    /// A holder of a key, at stage 0. Refuses with [`Reason::KeyLength`].
    pub fn new(key: &[u8]) -> Result<KeyHolder, Reason> {
        written(|out| raw::holder_make(key, out)).map(KeyHolder)
    }

    /// The holder that has these bytes: the key's length, the stage's number, and the
    /// 24 bytes of the stage. Refuses with [`Reason::BrokenHolder`] if they are not
    /// whole.
    ///
    /// The library is asked, for the subkey, so that its rule does not stand here a
    /// second time.
    ///
    /// ```
    /// use gordzila::{KeyHolder, Reason};
    ///
    /// let holder = KeyHolder::new(&[7; 12])?;
    /// let mut bytes = *holder.as_bytes();
    /// assert_eq!(KeyHolder::from_bytes(bytes), Ok(holder));
    ///
    /// // The key has no stage 12.
    /// bytes[1] = 12;
    /// assert_eq!(KeyHolder::from_bytes(bytes), Err(Reason::BrokenHolder));
    /// # Ok::<(), Reason>(())
    /// ```
    pub fn from_bytes(bytes: [u8; HOLDER_BYTES]) -> Result<KeyHolder, Reason> {
        subkey_in(&bytes).map(|_| KeyHolder(bytes))
    }

    /// The bytes, as [`KeyHolder::from_bytes`] takes them. They are as secret as the
    /// key.
    pub fn as_bytes(&self) -> &[u8; HOLDER_BYTES] {
        &self.0
    }

    /// How many bytes the key has, which is also how many stages there are.
    pub fn key_length(&self) -> usize {
        self.0[0].into()
    }

    /// The number of the stage, below the key's length.
    pub fn stage_number(&self) -> u32 {
        self.0[1].into()
    }

    /// The stage, as [`stage`](crate::stage) gives it: as many bytes as the key, then
    /// zeros, 24 in all.
    ///
    /// ```
    /// use gordzila::KeyHolder;
    ///
    /// let key = [7; 12];
    /// let mut holder = KeyHolder::new(&key)?;
    /// holder.back();
    /// assert_eq!(*holder.stage(), gordzila::stage(&key, 11)?);
    /// # Ok::<(), gordzila::Reason>(())
    /// ```
    pub fn stage(&self) -> &[u8] {
        &self.0[STAGE..]
    }

    /// The subkey of the stage.
    pub fn subkey(&self) -> [u8; BLOCK_BYTES] {
        unrefused(subkey_in(&self.0))
    }

    /// Steps to the next stage, and from the last to stage 0.
    pub fn forward(&mut self) {
        unrefused(raw::holder_forward(&mut self.0));
    }

    /// Steps to the stage before, and from stage 0 to the last.
    pub fn back(&mut self) {
        unrefused(raw::holder_back(&mut self.0));
    }

    /// Walks to stage `n`, the shorter way; forward where both are as long. Refuses
    /// with [`Reason::StageOrList`].
    pub fn walk(&mut self, n: u32) -> Result<Walked, Reason> {
        raw::holder_walk(&mut self.0, n)
    }
}

/// The key's length and the stage's number. The stage is left out, because whoever has
/// it has the key.
impl fmt::Debug for KeyHolder {
    fn fmt(&self, formatter: &mut fmt::Formatter<'_>) -> fmt::Result {
        formatter
            .debug_struct("KeyHolder")
            .field("key_length", &self.key_length())
            .field("stage_number", &self.stage_number())
            .finish_non_exhaustive()
    }
}

/// The subkey of a holder, if it is whole.
fn subkey_in(bytes: &[u8]) -> Result<[u8; BLOCK_BYTES], Reason> {
    written(|out| raw::holder_subkey(bytes, out))
}

/// What a call gives that does not refuse a whole holder.
fn unrefused<T>(given: Result<T, Reason>) -> T {
    given.unwrap_or_else(|reason| panic!("the library refused a whole key holder: {reason}"))
}
