//! Data sheets in CBOR diagnostic notation: people write text, scanners carry bytes.
//!
//! ```
//! # fn main() -> Result<(), edn::Error> {
//! // a sheet as people write it, and as the scanner carries it
//! let sheet = edn::read("{1: true, 2: [_ ]}")?;
//! assert_eq!(sheet, [0xa2, 0x01, 0xf5, 0x02, 0x9f, 0xff]);
//!
//! // one item corrected: top item 0, value of its second pair
//! let sheet = edn::correct(&sheet, &[0, 1], "h'0203'")?;
//! assert_eq!(edn::print(&sheet)?, "{1: true, 2: h'0203'}\n");
//!
//! // what is refused has a number, a place and a sentence
//! let e = edn::read("[_ 1, ...]").unwrap_err();
//! assert_eq!((e.number(), e.place(), e.name()), (5, 6, "dots"));
//! # Ok(())
//! # }
//! ```
//!
//! The work is done by a library that is proved: for every input, good or bad, the answer and every byte written are those of a
//! definition, a refused call writes nothing, and none of the functions asks anything of its caller. This crate lends the memory and puts
//! the answers into Rust's types; it is ordinary, unproved Rust.
//!
//! A text, a sheet and a printed text have at most [`MOST`] bytes each. A sheet is at most 16 levels deep.
//!
//! A *path* leads to an item: the number of a top item, counted from 0, then of an array's element or of the value of a map's pair, level
//! by level. It enters nothing else: no key, no tag, no string.
//!
//! # Stack
//!
//! A call takes up to about 80 kilobytes of stack where it reads, prints or corrects ([`read_into`], [`print_into`], [`correct_in`] and what is over
//! them), since the result is built there before anything is written, and less than 9 kilobytes otherwise. That is measured: `make stack` in the repository
//! prints the figures, and `include/edn.h` states them as `EDN_STACK_READ` and so on.
//!
//! # Features
//!
//! | feature | what it adds |
//! |--|--|
//! | none | the functions on memory that the caller lends: [`read_into`], [`print_into`], [`correct_in`], [`look_up`], [`locate`], [`check`]; [`Error`] and [`Kind`] |
//! | `alloc` | the functions that return a `Vec` or a `String`: `read`, `print`, `correct` |
//! | `std`, on by default | the command line `edn`, and `alloc` |
//!
//! The library itself never needs std: it is `#![no_std]` with any of them.

#![no_std]
#![warn(missing_docs)]

#[cfg(feature = "alloc")]
extern crate alloc;

mod error;
mod kind;
mod lent;
#[cfg(feature = "alloc")]
mod owned;
pub mod sys;

pub use error::{Error, Place};
pub use kind::{Kind, NoSuchKind};
pub use lent::{check, correct_in, locate, look_up, print_into, read_into};
#[cfg(feature = "alloc")]
pub use owned::{correct, print, read};

/// The most bytes that a text, a sheet or a result may have.
pub const MOST: usize = 65_535;
