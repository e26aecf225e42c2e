//! A reference implementation of the CURUPIRA block cipher.
//!
//! It is written from the paper alone: P. S. L. M. Barreto and
//! M. A. Simplicio Jr., "CURUPIRA, a block cipher for constrained platforms".
//! Every function follows the paper's definition as literally as it can; speed
//! and protection against side channels are no goals here. Section, table,
//! algorithm and theorem numbers in the comments are the paper's.

#![forbid(unsafe_code)]

pub mod answers;
pub mod cipher;
pub mod error;
pub mod field;
pub mod generator;
pub mod grants;
pub mod holder;
pub mod layers;
pub mod matrix;
pub mod page_answers;
pub mod pages;
pub mod right_answers;
pub mod roll;
pub mod routes;
pub mod sbox;
pub mod schedule;
pub mod vectors;
pub mod zero;
pub mod zero_answers;
