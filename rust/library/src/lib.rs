#![doc = include_str!("../README.md")]
#![no_std]
#![forbid(unsafe_code)]
#![cfg_attr(docsrs, feature(doc_cfg))]
#![warn(missing_docs)]

#[cfg(feature = "alloc")]
extern crate alloc;
#[cfg(any(feature = "std", test))]
extern crate std;

pub mod cap;
#[cfg(feature = "alloc")]
mod draft;
mod entry;
mod error;
mod expand;
mod kept;
#[allow(missing_docs)]
mod kit;
// The sources are written for their proofs too, and parts of them are for other users.
#[allow(clippy::complexity, clippy::large_enum_variant, clippy::manual_contains, clippy::style, dead_code, unused_imports, unused_labels, unused_variables, missing_docs)]
mod made;
mod mark;
mod message;
mod name;
mod pad;
#[cfg(feature = "program")]
pub mod program;
mod reader;
mod shown;
#[cfg(all(test, feature = "std"))]
mod tests;

#[cfg(feature = "alloc")]
pub use draft::Draft;
pub use entry::Entry;
#[cfg(feature = "alloc")]
pub use expand::expand;
#[cfg(feature = "std")]
pub use expand::expand_to;
pub use expand::{ExpandError, expand_into};
pub use kept::{Kept, SendError};
pub use kit::AllocError;
pub use message::Message;
/// A string of an entry that is parsed, with its exact limits over all parameters.
///
/// ```
/// use ti_terminfo::{Capability, ParseFault};
///
/// # fn main() -> Result<(), Box<dyn std::error::Error>> {
/// let cup = Capability::parse(b"\x1b[%i%p1%d;%p2%dH")?;
/// // It needs one place on the stack, and two numbers of 32 bits have at most 11 bytes each with their sign.
/// assert_eq!((cup.depth(), cup.bound(0)), (1, 4 + 2 * 11));
///
/// let refused = Capability::parse(b"\x1b[%p0").unwrap_err();
/// assert_eq!((refused.fault, refused.place), (ParseFault::BadParameter, 2));
/// # Ok(())
/// # }
/// ```
pub use made::cap::Capability;
pub use made::cap::{Conversion, Format, Op, ParseError, ParseFault, Tape, Token};
pub use made::draft::{EncodeError, EncodeIntoError};
pub use made::entry::{ReadError, ReadFault};
pub use made::expand::{Run, Value, Vars};
pub use made::kept::CompileError;
pub use made::pad::{PadError, PadIntoError, Padding, pad_into, padded_len};
pub use made::words::{Flag, Item, Kind, Number, Text, Width};
pub use name::Name;
#[cfg(feature = "alloc")]
pub use name::notation;
#[cfg(feature = "alloc")]
pub use pad::pad;
#[cfg(feature = "std")]
pub use pad::pad_to;
pub use reader::EntryReader;

/// The greatest sizes, counts and numbers that are accepted.
pub mod limits {
    pub use crate::made::base::{
        GREATEST_CONSTANT, GREATEST_RATE, GREATEST_WIDE_WORD, GREATEST_WIDTH, GREATEST_WORD, MOST_CAPABILITY_BYTES,
        MOST_ENTRY_BYTES, MOST_LINES, MOST_OPEN, MOST_PADDED_BYTES, MOST_TEXT_BYTES, MOST_VALUES,
    };
}
