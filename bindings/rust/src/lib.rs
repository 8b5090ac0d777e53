//! Operations on integers, bytes and text whose contracts are proved: what one calls in place of
//! the standard library's. Written by generate/generate.py from the library's exports.
//!
//! ```
//! use promisebook::{bytes, i64s, text, u8s, NotDecimal};
//! assert_eq!(u8s::checked_add(200, 100), None);
//! assert_eq!(i64s::checked_rem_euclid(-7, 3), Some(2));
//! assert_eq!(i64s::read_decimal(b"-42"), Ok(-42));
//! assert_eq!(u8s::read_decimal(b"256"), Err(NotDecimal::TooLarge));
//! assert!(bytes::contains(b"promise", b'm'));
//! assert_eq!(bytes::contains_in(b"promise", 4..7, b'm'), Some(false));
//! assert_eq!(text::as_str(&[0xe2, 0x82, 0xac]), Some("€"));
//! ```
//!
//! # One convention
//!
//! - A function on a slice works on all of it: `bytes::first(s)`. Its namesake with `_in` works on
//!   a part of it: `bytes::first_in(s, 2..7)`, refused where `s` has no such part. The slice comes
//!   first, then the part, then the rest.
//! - Places that a function is given are counted from the start of the slice or part that it works
//!   on. On a whole slice it answers parts as slices, `Some((&s[..2], &s[2..]))`; on a part it
//!   answers their places as ranges, counted from the start of `s`.
//! - Every function answers for all arguments, and none panics. "Refused" in a promise means
//!   `None`, or a [`NotDecimal`] where the reason is told. A function that writes answers
//!   `Some(())`, or how many bytes it has written, and where it refuses it has written nothing.
//!
//! # What is proved, and what is not
//!
//! The body of each function is a call of the proved one beneath it. What stands around the call
//! is to be read, and no proof covers it: the ends of the slice or part, Rust's `get` where the
//! proved function takes a whole slice or where its answer is shown as one, casts between the
//! signed and the unsigned type of one width, and why a number was not read.
//!
//! Each function ends with what it is cited by: rows of docs/CONTRACTS.md, the clause of vstd's
//! restated, the contract, the laws that it keeps the clause and that nothing else does, and wrong
//! answers that the checker refuses (docs/CITING.md).
#![no_std]
#![deny(unsafe_code)]

#[allow(unsafe_code)]
mod exported;

pub mod bytes;
pub mod i16s;
pub mod i32s;
pub mod i64s;
pub mod i8s;
pub mod isizes;
pub mod text;
pub mod u16s;
pub mod u32s;
pub mod u64s;
pub mod u8s;
pub mod usizes;

use core::cmp::Ordering;
use core::fmt;

/// The version of the library, by which it is cited.
pub const VERSION: &str = env!("CARGO_PKG_VERSION");

/// What the archive that is linked was made from, in a line: the version, the kit, the hash of the crates, vstd's
/// release (docs/CITING.md).
///
/// ```
/// let said = promisebook::version().to_str().unwrap();
/// assert!(said.starts_with(&format!("promisebook {};", promisebook::VERSION)));
/// ```
#[must_use]
pub fn version() -> &'static core::ffi::CStr {
    exported::version()
}

/// Why bytes are not read as a number of a type.
#[derive(Clone, Copy, Debug, PartialEq, Eq)]
pub enum NotDecimal {
    /// They say no number: there is none, or a byte that is no figure, and no sign in front.
    NoNumber,
    /// They say a number that the type does not have: it is too large, or too far below 0.
    TooLarge,
}

impl fmt::Display for NotDecimal {
    fn fmt(&self, out: &mut fmt::Formatter<'_>) -> fmt::Result {
        out.write_str(match self {
            NotDecimal::NoNumber => "no decimal number",
            NotDecimal::TooLarge => "a decimal number that is too large",
        })
    }
}

impl core::error::Error for NotDecimal {}

/// Why the proved reader has refused `s`. It reads a single byte exactly where that is a figure, and is asked so of
/// each: where all bytes are figures, behind a sign if there may be one, they say a number, and it is too large.
fn not_decimal(s: &[u8], signed: bool) -> NotDecimal {
    let first = usize::from(signed && bytes::starts_with(s, b"-"));
    let all_figures = (first..s.len()).all(|place| exported::u8_read_decimal(s, place, place + 1).ok);
    if first < s.len() && all_figures {
        NotDecimal::TooLarge
    } else {
        NotDecimal::NoNumber
    }
}

/// The ordering by the number that Rust gives it.
fn ordering(number: i8) -> Ordering {
    match number {
        -1 => Ordering::Less,
        0 => Ordering::Equal,
        _ => Ordering::Greater,
    }
}
