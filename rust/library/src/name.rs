//! The names of capabilities, and the notation of what they send.

use crate::cap::{FLAGS, NUMBERS, TEXTS};
use crate::made::names::{NameTable, find_short_or_long};
use crate::made::words::Kind;
use crate::shown::Shown;
use core::fmt;

/// What a capability is called.
///
/// It prints as `ti` lists it: the short name, `#` and the index if `term.h` has no name there, or the name of a user-defined
/// capability, in which bytes that can't be printed are escaped.
#[derive(Clone, Copy, PartialEq, Eq)]
pub enum Name<'a> {
    /// The capability of a kind at an index, of which `term.h` names the first 44 booleans, 39 numbers and 414 strings.
    Standard {
        /// What it is.
        kind: Kind,
        /// Its index among those of its kind.
        index: usize,
    },
    /// A capability that the entry names itself.
    Extended(&'a [u8]),
}

/// The long and the short names of a kind.
fn names_of(kind: Kind) -> &'static [(&'static str, &'static str)] {
    match kind {
        Kind::Flag => FLAGS,
        Kind::Number => NUMBERS,
        Kind::Text => TEXTS,
    }
}

/// The index of the capability of a kind that has a short or a long name.
pub(crate) fn standard_index(kind: Kind, name: &str) -> Option<usize> {
    let (found, index) = find_short_or_long(name.as_bytes())?;
    (found == kind).then_some(index)
}

impl<'a> Name<'a> {
    /// The capability of `term.h` that has a short or a long name.
    ///
    /// ```
    /// use ti_terminfo::{Kind, Name};
    ///
    /// let cup = Name::standard("cup");
    /// assert_eq!(cup, Some(Name::Standard { kind: Kind::Text, index: 10 }));
    /// assert_eq!(cup, Name::standard("cursor_address"));
    /// assert_eq!(Name::standard("nosuch"), None);
    /// ```
    pub fn standard(name: &str) -> Option<Name<'static>> {
        let (kind, index) = find_short_or_long(name.as_bytes())?;
        Some(Name::Standard { kind, index })
    }

    /// The short name of a standard capability, such as `cup`.
    pub fn short(&self) -> Option<&'static str> {
        let Name::Standard { kind, index } = *self else {
            return None;
        };
        NameTable::All.name_at(kind, index)
    }

    /// The long name of a standard capability, such as `cursor_address`.
    pub fn long(&self) -> Option<&'static str> {
        match *self {
            Name::Standard { kind, index } => names_of(kind).get(index).map(|(long, _)| *long),
            Name::Extended(_) => None,
        }
    }
}

impl fmt::Display for Name<'_> {
    fn fmt(&self, f: &mut fmt::Formatter<'_>) -> fmt::Result {
        match (self, self.short()) {
            (_, Some(short)) => f.write_str(short),
            (Name::Standard { index, .. }, None) => write!(f, "#{index}"),
            (Name::Extended(name), None) => write!(f, "{}", name.escape_ascii()),
        }
    }
}

impl fmt::Debug for Name<'_> {
    fn fmt(&self, f: &mut fmt::Formatter<'_>) -> fmt::Result {
        match self {
            Name::Standard { kind, index } => f.debug_struct("Standard").field("kind", kind).field("index", index).finish(),
            Name::Extended(name) => f.debug_tuple("Extended").field(&Shown(name)).finish(),
        }
    }
}

/// A string in the notation of terminfo(5), which shows control characters and is printable.
///
/// ```
/// use ti_terminfo::notation;
///
/// assert_eq!(notation(b"\x1b[%i%p1%d;%p2%dH\r"), r"\E[%i%p1%d;%p2%dH^M");
/// ```
#[cfg(feature = "alloc")]
pub fn notation(text: &[u8]) -> alloc::string::String {
    let mut out = alloc::vec![0; 4 * text.len()];
    let count = crate::made::escape::escape_into(text, &mut out).unwrap_or(0);
    alloc::string::String::from_utf8_lossy(&out[..count]).into_owned()
}
