//! What an entry says of a capability: its value, or that there is none.

use crate::made::words::{Flag, Item, Number, Text, Width};

impl Flag {
    /// Whether the terminal has it.
    pub fn is_set(self) -> bool {
        self == Flag::Yes
    }
}

impl Number {
    /// Its value, if the entry gives one.
    pub fn value(self) -> Option<i32> {
        match self {
            Number::Value(value) => Some(value),
            Number::Absent | Number::Cancelled => None,
        }
    }
}

impl<'a> Text<'a> {
    /// Its bytes, if the entry gives any.
    pub fn value(self) -> Option<&'a [u8]> {
        match self {
            Text::Value(bytes) => Some(bytes),
            Text::Absent | Text::Cancelled => None,
        }
    }
}

impl Item<'_> {
    /// Whether it is a boolean that the terminal has.
    pub fn is_set(self) -> bool {
        matches!(self, Item::Flag(Flag::Yes))
    }

    /// The value of a number that is there.
    pub fn number(self) -> Option<i32> {
        match self {
            Item::Number(number) => number.value(),
            Item::Flag(_) | Item::Text(_) => None,
        }
    }
}

impl From<bool> for Flag {
    fn from(is_set: bool) -> Flag {
        if is_set { Flag::Yes } else { Flag::No }
    }
}

impl From<i32> for Number {
    fn from(value: i32) -> Number {
        Number::Value(value)
    }
}

impl<'a> From<&'a [u8]> for Text<'a> {
    fn from(bytes: &'a [u8]) -> Text<'a> {
        Text::Value(bytes)
    }
}

impl<'a, const N: usize> From<&'a [u8; N]> for Text<'a> {
    fn from(bytes: &'a [u8; N]) -> Text<'a> {
        Text::Value(bytes)
    }
}

impl<'a> From<&'a str> for Text<'a> {
    fn from(text: &'a str) -> Text<'a> {
        Text::Value(text.as_bytes())
    }
}

/// An entry has numbers of 16 bits if nothing else is said.
impl Default for Width {
    fn default() -> Width {
        Width::Legacy
    }
}
