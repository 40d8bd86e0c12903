//! An entry that was read, with its capabilities by name.

use crate::cap::Standard;
use crate::made::entry::{Extended, ReadError, read};
use crate::made::words::{Flag, Item, Kind, Number, Subject, Text, Width};
use crate::name::{Name, standard_index};
use crate::shown::Shown;
use core::fmt;

/// A compiled entry (term(5)). What it gives is lent from the bytes that it was read from.
///
/// A name is a short or a long one of `term.h`, or one that the entry has itself; a standard name comes first. A standard
/// name is found by a hash and a comparison with two names at most, and a user-defined one is looked for among these;
/// [`Entry::get`] has an index in place of that.
#[derive(Clone)]
pub struct Entry<'a> {
    pub(crate) inner: crate::made::entry::Entry<'a>,
}

/// The capabilities of a kind with their names, the standard ones first.
fn items<'a, T>(
    kind: Kind,
    count: usize,
    standard_at: impl Fn(usize) -> T,
    extended: Extended<'a>,
    extended_at: impl Fn(&Extended<'a>, usize) -> T,
) -> impl Iterator<Item = (Name<'a>, T)> {
    let standard = (0..count).map(move |index| (Name::Standard { kind, index }, standard_at(index)));
    let named = (0..).map_while(move |index| {
        let name = extended.name(kind, index)?;
        Some((Name::Extended(name), extended_at(&extended, index)))
    });
    standard.chain(named)
}

impl<'a> Entry<'a> {
    /// Reads an entry, which has to be all of the bytes. It takes no memory, and time in proportion to the bytes.
    ///
    /// ```
    /// use ti_terminfo::{Entry, ReadFault};
    ///
    /// # fn main() -> Result<(), Box<dyn std::error::Error>> {
    /// let file = std::fs::read("examples/linux")?;
    /// assert_eq!(Entry::read(&file)?.names(), b"linux|Linux console");
    ///
    /// let refused = Entry::read(&file[..7]).unwrap_err();
    /// assert_eq!((refused.fault, refused.place), (ReadFault::Truncated, 7));
    /// assert_eq!(refused.to_string(), "Truncated at 7");
    /// # Ok(())
    /// # }
    /// ```
    ///
    /// # Errors
    ///
    /// The first check that does not hold of the bytes, and the place that it speaks of.
    pub fn read(bytes: &'a [u8]) -> Result<Entry<'a>, ReadError> {
        Ok(Entry { inner: read(bytes)? })
    }

    /// The names of the terminal, separated by `|`; the last one mostly describes it.
    pub fn names(&self) -> &'a [u8] {
        self.inner.names()
    }

    /// How wide its numbers are.
    pub fn width(&self) -> Width {
        self.inner.width()
    }

    /// What the entry says of a capability of `term.h`: of a boolean `bool`, of a number or a string its value if it has one.
    /// See [`cap`](crate::cap) for an example.
    pub fn get<S: Standard>(&self, capability: S) -> S::Value<'a> {
        S::value(self.mark(capability))
    }

    /// What the entry says of a capability of `term.h`, with the difference of absent and cancelled ones.
    pub fn mark<S: Standard>(&self, _capability: S) -> S::Mark<'a> {
        S::mark(self)
    }

    /// What the entry says of the capability with a name, of whatever kind: a short or long name of `term.h`, else the first of
    /// the user-defined ones that is equal. `None` means that nothing has the name, neither `term.h` nor the entry; of a capability of
    /// `term.h` that the terminal lacks the result is an absent item.
    ///
    /// ```
    /// use ti_terminfo::{Item, Number, Text};
    ///
    /// # fn main() -> Result<(), Box<dyn std::error::Error>> {
    /// # let file = std::fs::read("examples/linux")?;
    /// # let entry = ti_terminfo::Entry::read(&file)?;
    /// assert_eq!(entry.find("max_colors"), Some(Item::Number(Number::Value(8))));
    /// assert_eq!(entry.find("kf63"), Some(Item::Text(Text::Absent)));
    /// assert_eq!(entry.find("setfg"), None);
    /// # Ok(())
    /// # }
    /// ```
    pub fn find(&self, name: &str) -> Option<Item<'a>> {
        Some(self.inner.item_at(self.inner.position(name.as_bytes())?))
    }

    /// Whether the terminal has the boolean of a name.
    ///
    /// ```
    /// # fn main() -> Result<(), Box<dyn std::error::Error>> {
    /// # let file = std::fs::read("examples/linux")?;
    /// # let entry = ti_terminfo::Entry::read(&file)?;
    /// assert!(entry.flag("am") && entry.flag("auto_right_margin"));
    /// assert!(!entry.flag("hc") && !entry.flag("nosuch"));
    /// # Ok(())
    /// # }
    /// ```
    pub fn flag(&self, name: &str) -> bool {
        let mark = match standard_index(Kind::Flag, name) {
            Some(index) => self.inner.flag(index),
            None => {
                let extended = self.inner.extended();
                extended.find_of(Kind::Flag, name.as_bytes()).map_or(Flag::No, |index| extended.flag(index))
            }
        };
        mark.is_set()
    }

    /// The number of a name, if the entry gives one.
    ///
    /// ```
    /// # fn main() -> Result<(), Box<dyn std::error::Error>> {
    /// # let file = std::fs::read("examples/linux")?;
    /// # let entry = ti_terminfo::Entry::read(&file)?;
    /// assert_eq!(entry.number("colors"), Some(8));
    /// assert_eq!(entry.number("max_colors"), Some(8));
    /// assert_eq!(entry.number("lines"), None);
    /// # Ok(())
    /// # }
    /// ```
    pub fn number(&self, name: &str) -> Option<i32> {
        if let Some(index) = standard_index(Kind::Number, name) {
            return self.inner.number(index).value();
        }
        let extended = self.inner.extended();
        extended.number(extended.find_of(Kind::Number, name.as_bytes())?).value()
    }

    /// The string of a name, if the entry gives one. With parameters it is a [`Capability`](crate::Capability).
    ///
    /// ```
    /// # fn main() -> Result<(), Box<dyn std::error::Error>> {
    /// # let file = std::fs::read("examples/linux")?;
    /// # let entry = ti_terminfo::Entry::read(&file)?;
    /// assert_eq!(entry.text("clear"), Some(&b"\x1b[H\x1b[J"[..]));
    /// assert_eq!(entry.text("cursor_home"), entry.text("home"));
    /// assert_eq!(entry.text("nosuch"), None);
    /// # Ok(())
    /// # }
    /// ```
    pub fn text(&self, name: &str) -> Option<&'a [u8]> {
        if let Some(index) = standard_index(Kind::Text, name) {
            return self.inner.text(index).value();
        }
        let extended = self.inner.extended();
        extended.text(extended.find_text(name.as_bytes())?).value()
    }

    /// All that the entry says something of, in the order in which `ti show` lists it: the booleans, numbers and strings of `term.h`, and
    /// then those that the entry names itself.
    ///
    /// ```
    /// # fn main() -> Result<(), Box<dyn std::error::Error>> {
    /// # let file = std::fs::read("examples/linux")?;
    /// # let entry = ti_terminfo::Entry::read(&file)?;
    /// let there: Vec<String> = entry.items().filter(|(_, item)| item.is_there()).map(|(name, _)| name.to_string()).collect();
    /// assert_eq!(there[..3], ["am", "xenl", "eo"]);
    /// # Ok(())
    /// # }
    /// ```
    pub fn items(&self) -> impl Iterator<Item = (Name<'a>, Item<'a>)> {
        let says_nothing = |item| matches!(item, Item::Flag(Flag::No) | Item::Number(Number::Absent) | Item::Text(Text::Absent));
        let said = self.inner.items().filter(move |(_, item)| !says_nothing(*item));
        said.map(|(subject, item)| match subject {
            Subject::Standard(kind, index) => (Name::Standard { kind, index }, item),
            Subject::Extended(_, name) => (Name::Extended(name), item),
        })
    }

    /// The booleans that the entry says something of, those of standard capabilities first. `No` is not among them, as it says
    /// nothing.
    ///
    /// ```
    /// # fn main() -> Result<(), Box<dyn std::error::Error>> {
    /// # let file = std::fs::read("examples/linux")?;
    /// # let entry = ti_terminfo::Entry::read(&file)?;
    /// let names: Vec<String> = entry.flags().map(|(name, _)| name.to_string()).collect();
    /// assert_eq!(names[..3], ["am", "xenl", "eo"]);
    /// # Ok(())
    /// # }
    /// ```
    pub fn flags(&self) -> impl Iterator<Item = (Name<'a>, Flag)> {
        let standard = |index| self.inner.flag(index);
        items(Kind::Flag, self.inner.flag_count(), standard, self.inner.extended(), Extended::flag)
            .filter(|(_, flag)| *flag != Flag::No)
    }

    /// The numbers that the entry says something of, those of standard capabilities first; absent ones are not among them.
    ///
    /// ```
    /// # fn main() -> Result<(), Box<dyn std::error::Error>> {
    /// # let file = std::fs::read("examples/linux")?;
    /// # let entry = ti_terminfo::Entry::read(&file)?;
    /// for (name, number) in entry.numbers() {
    ///     println!("{name} {:?}", number.value());
    /// }
    /// # assert_eq!(entry.numbers().count(), 5);
    /// # Ok(())
    /// # }
    /// ```
    pub fn numbers(&self) -> impl Iterator<Item = (Name<'a>, Number)> {
        let standard = |index| self.inner.number(index);
        items(Kind::Number, self.inner.number_count(), standard, self.inner.extended(), Extended::number)
            .filter(|(_, number)| *number != Number::Absent)
    }

    /// The strings that the entry says something of, those of standard capabilities first; absent ones are not among them.
    ///
    /// ```
    /// use ti_terminfo::Capability;
    ///
    /// # fn main() -> Result<(), Box<dyn std::error::Error>> {
    /// # let file = std::fs::read("examples/linux")?;
    /// # let entry = ti_terminfo::Entry::read(&file)?;
    /// for (name, text) in entry.texts() {
    ///     if let Some(Err(refused)) = text.value().map(Capability::parse) {
    ///         println!("{name} is broken: {refused}");
    ///     }
    /// }
    /// # Ok(())
    /// # }
    /// ```
    pub fn texts(&self) -> impl Iterator<Item = (Name<'a>, Text<'a>)> {
        let standard = |index| self.inner.text(index);
        items(Kind::Text, self.inner.text_count(), standard, self.inner.extended(), Extended::text)
            .filter(|(_, text)| *text != Text::Absent)
    }

    /// The boolean at an index, for the constants of `cap`.
    pub(crate) fn flag_at(&self, index: usize) -> Flag {
        self.inner.flag(index)
    }

    /// The number at an index.
    pub(crate) fn number_at(&self, index: usize) -> Number {
        self.inner.number(index)
    }

    /// The string at an index.
    pub(crate) fn text_at(&self, index: usize) -> Text<'a> {
        self.inner.text(index)
    }
}

impl fmt::Debug for Entry<'_> {
    fn fmt(&self, f: &mut fmt::Formatter<'_>) -> fmt::Result {
        f.debug_struct("Entry").field("names", &Shown(self.names())).finish_non_exhaustive()
    }
}
