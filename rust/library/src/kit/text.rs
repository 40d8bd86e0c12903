//! A text whose growth can be refused.

use super::{AllocError, Allocator, Global, Vec};
use core::fmt::{self, Write};
use core::marker::PhantomData;
use core::str::Utf8Error;

/// A text whose growth can be refused.
#[derive(Clone, Debug)]
pub struct String<A: Allocator = Global> {
    text: std::string::String,
    source: PhantomData<A>,
}

impl<A: Allocator> String<A> {
    pub fn new(_alloc: A) -> Self {
        Self::of(std::string::String::new())
    }

    pub fn from_str(alloc: A, text: &str) -> Result<Self, AllocError> {
        let mut made = Self::new(alloc);
        made.push_str(text)?;
        Ok(made)
    }

    pub fn from_utf8(bytes: Vec<u8, A>) -> Result<Self, Utf8Error> {
        std::string::String::from_utf8(bytes.into_items()).map(Self::of).map_err(|fault| fault.utf8_error())
    }

    /// A text of Rust's own.
    pub fn of(text: std::string::String) -> Self {
        String { text, source: PhantomData }
    }

    pub fn as_str(&self) -> &str {
        &self.text
    }

    pub fn is_empty(&self) -> bool {
        self.text.is_empty()
    }

    pub fn push_str(&mut self, text: &str) -> Result<(), AllocError> {
        self.text.try_reserve(text.len()).map_err(|_| AllocError)?;
        self.text.push_str(text);
        Ok(())
    }
}

impl<A: Allocator> Write for String<A> {
    fn write_str(&mut self, text: &str) -> fmt::Result {
        self.push_str(text).map_err(|_| fmt::Error)
    }
}

/// A text that is formatted. Nothing that is formatted here fails but for memory.
pub fn format<A: Allocator>(alloc: A, words: fmt::Arguments<'_>) -> Result<String<A>, AllocError> {
    let mut text = String::new(alloc);
    text.write_fmt(words).map_err(|_| AllocError)?;
    Ok(text)
}

/// A text that is formatted, by an allocator.
macro_rules! format_in {
    ($alloc:expr; $($words:tt)*) => {
        crate::kit::text::format($alloc, format_args!($($words)*))
    };
}
pub(crate) use format_in;
