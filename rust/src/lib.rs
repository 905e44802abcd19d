//! Which paragraphs of a book have a note: bitmaps in lent memory, list text such as `4, 7-8`, a register for paper, and the change sheet, of which an
//! older edition gives the newer one's whole answer or none.
//!
//! The calls are those of an archive of formally proved code, `libtaxolbin.a`; this package makes each a method that safe Rust can call with any
//! arguments. Nothing is allocated. A [`Bitmap`] is a store of words that the caller lends and a count of the words in use; it derefs to a
//! [`BitSlice`], its bits within the length. A [`Sheet`] is made of [`Edit`]s in a lent buffer, and [`read`] applies one. List text has a
//! publisher's [`Style`]; [`BitSlice::write_register`] prints the notes on pages, for marking up paper.
//!
//! ```
//! use taxolbin::{read, Bitmap, Edit, Edition, Error, Sheet, Style};
//!
//! # fn main() -> Result<(), Box<dyn std::error::Error>> {
//! // The book has notes at paragraphs 4, 7 and 8.
//! let mut store = [0u64; 2];
//! let mut notes = Bitmap::empty(&mut store)?;
//! notes.from_list("4, 7-8", Style::PLAIN)?;
//!
//! // A sheet: paragraph 2 gets a note, and two paragraphs come in at 5.
//! let mut buffer = [0u8; 64];
//! let mut sheet = Sheet::start(&mut buffer)?;
//! sheet.edit(Edit::Set { p: 2 })?;
//! sheet.edit(Edit::Open { p: 5, k: 2 })?;
//!
//! // Edition 2 reads it. Edition 1 does not know the second record: it says so, and never skips it.
//! let (mut result, mut text) = ([0u64; 2], [0u8; 64]);
//! let reading = read(Edition::Two, sheet.bytes(), &notes, &mut result)?;
//! assert_eq!(reading.bitmap.write_list(&mut text, Style::PLAIN)?, "2, 4, 9-10");
//!
//! let refused = read(Edition::One, sheet.bytes(), &notes, &mut result).unwrap_err();
//! assert_eq!((refused.error, refused.record), (Error::NewerKind, 2));
//! # Ok(())
//! # }
//! ```
//!
//! # The archive
//!
//! A build finds it in the folder that the variable `TAXOLBIN_LIB_DIR` names in full or, where that is not set, by `pkg-config`: run
//! `./install.sh PREFIX` in the Taxolbin repository and set `PKG_CONFIG_PATH=PREFIX/lib/pkgconfig`. It is for x86-64 Linux, and an archive of
//! another version, by the first two numbers, does not link.
//!
//! # Errors
//!
//! A call that can be refused gives a `Result` with an [`Error`]; its documentation names the ones that can come, in the order in which they are
//! looked for. A refused call changes no word, no byte and no count; [`read`] alone differs, as it says. Every argument may have every value:
//! indexes up to `usize::MAX` too.
//!
//! # Equal bitmaps of different lengths
//!
//! Two bitmaps are equal when the same bits are set, whatever their word counts; but a reversal and a rotation run over all bits of the length. So
//! equal bitmaps of different word counts answer them differently: notes {4} reversed are {59} in 64 bits and {123} in 128. List text does not carry
//! the count either: a bitmap loaded from a list has the words that its greatest bit needs. Before a sheet with such records is read, both sides
//! therefore call [`resize_bits`](Bitmap::resize_bits) with the book's length, or the sheet begins with [`Edit::ResizeBits`].
//!
//! ```
//! use taxolbin::{Bitmap, Style};
//!
//! let (mut here, mut there) = ([0u64; 2], [0u64; 2]);
//! let mut ours = Bitmap::empty(&mut here)?;
//! let mut theirs = Bitmap::empty(&mut there)?;
//! ours.from_list("4", Style::PLAIN)?;
//! theirs.from_list("4, 100", Style::PLAIN)?;
//! theirs.unset(100);
//! assert_eq!(ours, theirs);
//!
//! ours.resize_bits(120)?;
//! theirs.resize_bits(120)?;
//! ours.reverse();
//! theirs.reverse();
//! assert_eq!(ours, theirs);
//! assert_eq!(ours.first_set(), Some(123));
//! # Ok::<(), taxolbin::Error>(())
//! ```
#![no_std]
#![deny(missing_docs)]
#![deny(unsafe_op_in_unsafe_fn)]

mod bitmap;
mod bits;
mod error;
mod ffi;
mod numbers;
mod sheet;
mod style;

pub use bitmap::Bitmap;
pub use bits::{BitSlice, Combined, Members};
pub use numbers::Error;
pub use sheet::{read, Direction, Edit, Edition, ReadError, Reading, Sheet};
pub use style::Style;

/// The version of this package. An archive with the same first two numbers goes with it.
pub const VERSION: &str = env!("CARGO_PKG_VERSION");
/// The most words of a store.
pub const CAPACITY_MAX: usize = 67_108_864;
/// The bytes of a page of a printed register.
pub const REGISTER_PAGE: usize = 3_650;
/// The most records of a sheet.
pub const RECORDS_MAX: usize = 65_535;
/// The most bytes of a remark's payload.
pub const PAYLOAD_MAX: usize = 65_535;
/// The most bits of a resize in a sheet.
pub const RESIZE_MAX: usize = 4_294_967_296;
