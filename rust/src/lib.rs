//! Corkpaddle from Rust: books cut into shares, shares rebuilt, slips taken once each.
//!
//! The functions behind this crate are proved. This crate only hands slices over to them, and knows the lengths that a
//! code fixes.
//!
//! - [`Code`]: a judged code. Its methods work on one stripe, on a book or on batches.
//! - [`judge_file`], [`take_slip`], [`answer_for`], [`read`]: what needs no code beside the file.
//! - [`Refusal`]: why a call was refused. A refused call has changed nothing.
//!
//! A form that ends in `_into` writes into a lent slice, which must have exactly the needed length. The other form gives
//! a `Vec` of that length.
//!
//! ```
//! use corkpaddle::{Code, Kind};
//!
//! let code = Code::new(Kind::Mbr, 2, 3, &[1, 2, 3, 4])?;
//! assert_eq!(code.encode(2, &[1, 2, 3, 4, 5])?, [21, 16, 14]);
//! # Ok::<(), corkpaddle::Refusal>(())
//! ```

#![deny(unsafe_code)]

mod batch;
#[allow(unsafe_code)]
mod boundary;
mod code;
mod file;
mod reader;
mod refusal;
mod slip;
mod stripe;

pub use code::{Code, Kind};
pub use file::{answer_for, answer_for_into, file_len, judge_file, take_slip};
pub use reader::{read, Record};
pub use refusal::Refusal;
pub use slip::Slip;
pub use stripe::Helper;

/// Bytes of a code: the body of a C record.
pub const CODE_LEN: usize = 36;
/// Bytes of a D record.
pub const DATA_LEN: usize = 34;
/// Bytes of an H record.
pub const HELP_LEN: usize = 10;
/// Bytes of a P record, a slip.
pub const SLIP_LEN: usize = 10;
