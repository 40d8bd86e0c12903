//! Entries that are being made.

use crate::Entry;
use crate::cap::Standard;
use crate::kit::Global;
use crate::made::draft::{EncodeError, EncodeIntoError, Part, Source, encode_into};
use crate::made::words::{Flag, Kind, Number, Text, Width};
use crate::shown::Shown;
use alloc::vec::Vec;
use core::fmt;

/// An entry that is being made. It lends its names and strings.
///
/// ```
/// use ti_terminfo::{Draft, Entry, Width, cap};
///
/// # fn main() -> Result<(), Box<dyn std::error::Error>> {
/// let mut draft = Draft::new("mine|my terminal", Width::Legacy);
/// draft.set(cap::AutoRightMargin, true).set(cap::MaxColors, 8).set(cap::CursorAddress, b"\x1b[%i%p1%d;%p2%dH");
/// draft.add_text("Ss", b"\x1b[%p1%d q");
///
/// let bytes = draft.encode()?;
/// let entry = Entry::read(&bytes)?;
/// assert_eq!(entry.number("colors"), Some(8));
/// assert_eq!(entry.text("Ss"), Some(&b"\x1b[%p1%d q"[..]));
/// # Ok(())
/// # }
/// ```
#[derive(Clone)]
pub struct Draft<'a> {
    width: Width,
    names: &'a [u8],
    flags: Vec<Flag>,
    numbers: Vec<Number>,
    texts: Vec<Text<'a>>,
    extended_flags: Vec<(&'a [u8], Flag)>,
    extended_numbers: Vec<(&'a [u8], Number)>,
    extended_texts: Vec<(&'a [u8], Text<'a>)>,
}

/// Sets an item at an index, with others before it that say nothing.
fn set_at<T: Copy>(items: &mut Vec<T>, index: usize, nothing: T, item: T) {
    if items.len() <= index {
        items.resize(index + 1, nothing);
    }
    items[index] = item;
}

impl<'a> Draft<'a> {
    /// A draft with names, which are separated by `|`, and no capability.
    pub fn new(names: &'a (impl AsRef<[u8]> + ?Sized), width: Width) -> Draft<'a> {
        Draft {
            width,
            names: names.as_ref(),
            flags: Vec::new(),
            numbers: Vec::new(),
            texts: Vec::new(),
            extended_flags: Vec::new(),
            extended_numbers: Vec::new(),
            extended_texts: Vec::new(),
        }
    }

    /// Changes how wide the numbers are.
    pub fn set_width(&mut self, width: Width) -> &mut Self {
        self.width = width;
        self
    }

    /// Sets a capability of `term.h`: a boolean by `bool`, a number by `i32`, a string by its bytes, or any of them by a mark
    /// such as [`Text::Cancelled`].
    pub fn set<S: Standard>(&mut self, _capability: S, mark: impl Into<S::Mark<'a>>) -> &mut Self {
        S::put(self, mark.into());
        self
    }

    /// Adds a user-defined boolean after the others.
    pub fn add_flag(&mut self, name: &'a (impl AsRef<[u8]> + ?Sized), flag: impl Into<Flag>) -> &mut Self {
        self.extended_flags.push((name.as_ref(), flag.into()));
        self
    }

    /// Adds a user-defined number after the others.
    pub fn add_number(&mut self, name: &'a (impl AsRef<[u8]> + ?Sized), number: impl Into<Number>) -> &mut Self {
        self.extended_numbers.push((name.as_ref(), number.into()));
        self
    }

    /// Adds a user-defined string after the others.
    pub fn add_text(&mut self, name: &'a (impl AsRef<[u8]> + ?Sized), text: impl Into<Text<'a>>) -> &mut Self {
        self.extended_texts.push((name.as_ref(), text.into()));
        self
    }

    pub(crate) fn put_flag(&mut self, index: usize, flag: Flag) {
        set_at(&mut self.flags, index, Flag::No, flag);
    }

    pub(crate) fn put_number(&mut self, index: usize, number: Number) {
        set_at(&mut self.numbers, index, Number::Absent, number);
    }

    pub(crate) fn put_text(&mut self, index: usize, text: Text<'a>) {
        set_at(&mut self.texts, index, Text::Absent, text);
    }

    /// The bytes of the entry, which [`Entry::read`] reads as what the draft says.
    ///
    /// ```
    /// use ti_terminfo::{Draft, Entry, Width};
    ///
    /// # fn main() -> Result<(), Box<dyn std::error::Error>> {
    /// let file = std::fs::read("examples/linux")?;
    /// let mut draft = Draft::from(&Entry::read(&file)?);
    /// let wide = draft.set_width(Width::Wide).encode()?;
    /// let narrow = Draft::from(&Entry::read(&wide)?).set_width(Width::Legacy).encode()?;
    /// assert_eq!(narrow, file);
    /// # Ok(())
    /// # }
    /// ```
    ///
    /// # Errors
    ///
    /// The first of [`EncodeError`](crate::EncodeError) that holds, in the order in which they are there.
    pub fn encode(&self) -> Result<Vec<u8>, EncodeError> {
        let mut draft = crate::made::draft::Draft::new(Global, self.names, self.width);
        for flag in &self.flags {
            draft.push_flag(*flag)?;
        }
        for number in &self.numbers {
            draft.push_number(*number)?;
        }
        for text in &self.texts {
            draft.push_text(*text)?;
        }
        for (name, flag) in &self.extended_flags {
            draft.push_extended_flag(name, *flag)?;
        }
        for (name, number) in &self.extended_numbers {
            draft.push_extended_number(name, *number)?;
        }
        for (name, text) in &self.extended_texts {
            draft.push_extended_text(name, *text)?;
        }
        Ok(crate::made::entry::encode(Global, &draft)?.into_items())
    }

    /// Writes the bytes of the entry to the front of a slice, and returns how many they are. It takes no memory.
    ///
    /// ```
    /// use ti_terminfo::{Draft, EncodeIntoError, Width};
    ///
    /// # fn main() -> Result<(), Box<dyn std::error::Error>> {
    /// let draft = Draft::new("mine|my terminal", Width::Legacy);
    /// let mut out = [0; 64];
    /// let written = draft.encode_into(&mut out)?;
    /// assert_eq!(out[..written], draft.encode()?);
    /// assert_eq!(draft.encode_into(&mut []), Err(EncodeIntoError::OutTooSmall { need: written }));
    /// # Ok(())
    /// # }
    /// ```
    ///
    /// # Errors
    ///
    /// Any of [`EncodeIntoError`](crate::EncodeIntoError). The slice is as before then.
    pub fn encode_into(&self, out: &mut [u8]) -> Result<usize, EncodeIntoError> {
        encode_into(self, out)
    }

    /// A user-defined name by its index: of booleans, then numbers, then strings.
    fn name(&self, index: usize) -> Option<&'a [u8]> {
        let (flags, numbers) = (self.extended_flags.len(), self.extended_numbers.len());
        if index < flags {
            Some(self.extended_flags[index].0)
        } else if index - flags < numbers {
            Some(self.extended_numbers[index - flags].0)
        } else {
            self.extended_texts.get(index - flags - numbers).map(|(name, _)| *name)
        }
    }
}

/// What the writer takes: each list by index, and nothing at or above its count.
impl Source for Draft<'_> {
    fn width(&self) -> Width {
        self.width
    }

    fn names(&self) -> &[u8] {
        self.names
    }

    fn flag_count(&self, part: Part) -> usize {
        match part {
            Part::Standard => self.flags.len(),
            Part::Extended => self.extended_flags.len(),
            Part::Names => 0,
        }
    }

    fn number_count(&self, part: Part) -> usize {
        match part {
            Part::Standard => self.numbers.len(),
            Part::Extended => self.extended_numbers.len(),
            Part::Names => 0,
        }
    }

    fn text_count(&self, part: Part) -> usize {
        match part {
            Part::Standard => self.texts.len(),
            Part::Extended => self.extended_texts.len(),
            Part::Names => self.extended_flags.len() + self.extended_numbers.len() + self.extended_texts.len(),
        }
    }

    fn flag(&self, part: Part, index: usize) -> Flag {
        let flag = match part {
            Part::Standard => self.flags.get(index),
            Part::Extended => self.extended_flags.get(index).map(|(_, flag)| flag),
            Part::Names => None,
        };
        flag.copied().unwrap_or(Flag::No)
    }

    fn number(&self, part: Part, index: usize) -> Number {
        let number = match part {
            Part::Standard => self.numbers.get(index),
            Part::Extended => self.extended_numbers.get(index).map(|(_, number)| number),
            Part::Names => None,
        };
        number.copied().unwrap_or(Number::Absent)
    }

    fn text(&self, part: Part, index: usize) -> Text<'_> {
        let text = match part {
            Part::Standard => self.texts.get(index).copied(),
            Part::Extended => self.extended_texts.get(index).map(|(_, text)| *text),
            Part::Names => self.name(index).map(Text::Value),
        };
        text.unwrap_or(Text::Absent)
    }
}

impl fmt::Debug for Draft<'_> {
    fn fmt(&self, f: &mut fmt::Formatter<'_>) -> fmt::Result {
        fn named<'d, T>(items: &'d [(&[u8], T)]) -> Vec<(Shown<'d>, &'d T)> {
            items.iter().map(|(name, item)| (Shown(name), item)).collect()
        }
        let mut draft = f.debug_struct("Draft");
        draft.field("width", &self.width).field("names", &Shown(self.names));
        draft.field("flags", &self.flags).field("numbers", &self.numbers).field("texts", &self.texts);
        draft.field("extended_flags", &named(&self.extended_flags)).field("extended_numbers", &named(&self.extended_numbers));
        draft.field("extended_texts", &named(&self.extended_texts)).finish()
    }
}

/// A draft that says what an entry says.
impl<'a> From<&Entry<'a>> for Draft<'a> {
    fn from(entry: &Entry<'a>) -> Draft<'a> {
        let (inner, extended) = (&entry.inner, entry.inner.extended());
        let name = |kind, index| extended.name(kind, index).unwrap_or_default();
        Draft {
            width: inner.width(),
            names: inner.names(),
            flags: (0..inner.flag_count()).map(|i| inner.flag(i)).collect(),
            numbers: (0..inner.number_count()).map(|i| inner.number(i)).collect(),
            texts: (0..inner.text_count()).map(|i| inner.text(i)).collect(),
            extended_flags: (0..extended.flag_count()).map(|i| (name(Kind::Flag, i), extended.flag(i))).collect(),
            extended_numbers: (0..extended.number_count()).map(|i| (name(Kind::Number, i), extended.number(i))).collect(),
            extended_texts: (0..extended.text_count()).map(|i| (name(Kind::Text, i), extended.text(i))).collect(),
        }
    }
}
