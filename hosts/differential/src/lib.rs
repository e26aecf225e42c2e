//! Compares the C calls of the library's archive with the independent program, on seeded cases.
//!
//! A family is some cases around one key. Its cases are drawn (`family`, `draw`, `spoil`, `paging`), what
//! each call has to answer and write is worked out without the library (`oracle`, `expect`,
//! `opinion`), the call is made between guard bytes (`lend`), and everything that was lent is
//! compared with what it has to be (`compare`). `work` does this for all families on all threads,
//! and `tally` counts.

pub mod archive;
pub mod call;
pub mod case;
pub mod compare;
pub mod draw;
pub mod expect;
pub mod family;
pub mod holders;
pub mod lend;
pub mod opinion;
pub mod oracle;
pub mod order;
pub mod pages;
pub mod paging;
pub mod random;
pub mod rolls;
pub mod spoil;
pub mod tally;
pub mod work;
