//! A safe wrapper over Gordzila, proved access control for a pattern store.
//!
//! What each call does is proved, for all inputs, from the source of the library; the
//! repository's docs/CLAIMS.md says what is promised and what is not. This wrapper is
//! ordinary Rust. It has no rule of its own: it hands slices to the C calls of
//! include/gordzila.h and turns their numbers into types.
//!
//! A day in the life of a grant:
//!
//! ```
//! use gordzila::{check, issue, Opened, Reason, Right, Roll, SizeBlock};
//!
//! let (key, rounds, size_block) = (&[42; 24], 18, SizeBlock::try_from(300)?);
//! let mut roll = Roll::empty();
//! roll.enter(7, Right::Overwriting)?;
//! let grant = issue(key, rounds, &roll, 7, size_block, Right::Overwriting)?;
//!
//! // The grant is for overwriting, and opens for looking at the size block first.
//! for right in [Right::Reading, Right::Overwriting] {
//!     assert_eq!(
//!         check(key, rounds, &roll, &grant, size_block, right),
//!         Ok(Opened { contractor: 7, right })
//!     );
//! }
//!
//! // The contractor is demoted: they may still look, but not overwrite.
//! roll.change_right(7, Right::Reading)?;
//! assert_eq!(
//!     check(key, rounds, &roll, &grant, size_block, Right::Overwriting),
//!     Err(Reason::AboveHighest)
//! );
//! assert!(check(key, rounds, &roll, &grant, size_block, Right::Reading).is_ok());
//!
//! // The contractor is dropped and later taken on again: the old grant stays shut.
//! roll.withdraw(7)?;
//! roll.enter(7, Right::Overwriting)?;
//! assert_eq!(
//!     check(key, rounds, &roll, &grant, size_block, Right::Overwriting),
//!     Err(Reason::OtherCount)
//! );
//! # Ok::<(), Reason>(())
//! ```
//!
//! A plotter that starts the day with a pile of cached grants for one size block hands
//! them over to [`check_queue`], up to 64 in one call.
//!
//! A [`SizeBlock`] is not 0: size block 0 was for practice, and a form that was left blank
//! sends it. Grants that were issued for it open nothing any more.
//!
//! What a size block has can be kept in pages of 512 bytes: [`seal_page`] enciphers up to
//! 492 bytes and adds a check, and [`open_page`] gives them again, or refuses.
//!
//! A [`KeyHolder`] has one stage of a key and goes to the others, step by step or by
//! walks.
//!
//! The calls keep no state and may be made from any thread. Their time depends on the
//! key and the data: they are not made to resist an observer of time.

#![deny(unsafe_code)]
#![warn(missing_docs, clippy::undocumented_unsafe_blocks)]

mod blocks;
mod calls;
mod grants;
mod holder;
mod pages;
pub mod raw;
mod reason;
mod roll;
// The only file with unsafe code.
#[allow(unsafe_code)]
mod sys;
mod walks;

pub use blocks::SizeBlock;
pub use calls::{
    check, check_queue, decipher, encipher, issue, prepare_deciphering, prepare_enciphering, run,
    stage, subkey, BLOCK_BYTES, QUEUE_MOST_GRANTS, STAGE_BYTES,
};
pub use grants::{Opened, Right};
pub use holder::{KeyHolder, HOLDER_BYTES};
pub use pages::{
    open_page, seal_page, OpenedPage, PageHeader, PageKeys, PAGE_BYTES, PAYLOAD_BYTES,
    SCRATCH_BYTES,
};
pub use reason::Reason;
pub use roll::{Roll, CONTRACTORS, OLD_ROLL_BYTES, ROLL_BYTES};
pub use walks::{Walked, Way};
