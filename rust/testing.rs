//! What the tests of the sources take from Rattle, for those of them that rust/check runs.

use super::{AllocError, Allocator, Global, Vec};
use crate::made::escape::ReadingFault;
use core::error::Error;
use core::fmt;
use std::boxed::Box;
use std::string::{String, ToString};

/// Why a test fails.
pub type Fail = Box<dyn Error>;

/// A text that is formatted.
macro_rules! format_in {
    ($alloc:expr; $($words:tt)*) => {{
        let _ = $alloc;
        Ok::<_, crate::kit::AllocError>(std::format!($($words)*))
    }};
}
pub(crate) use format_in;

impl<T, A: Allocator> Vec<T, A> {
    pub fn capacity(&self) -> usize {
        self.items.capacity()
    }

    /// For wrong bodies.
    pub fn remove(&mut self, place: usize) -> T {
        self.items.remove(place)
    }
}

#[cfg(feature = "program")]
impl<A: Allocator> crate::kit::text::String<A> {
    pub fn push(&mut self, character: char) -> Result<(), AllocError> {
        self.push_str(character.encode_utf8(&mut [0; 4]))
    }
}

/// A slice as a vector.
pub trait ToVecIn<T> {
    fn to_vec_in<A: Allocator>(&self, alloc: A) -> Result<Vec<T, A>, AllocError>;
}

impl<T: Clone> ToVecIn<T> for [T] {
    fn to_vec_in<A: Allocator>(&self, alloc: A) -> Result<Vec<T, A>, AllocError> {
        Vec::from_slice(alloc, self)
    }
}

/// What a value prints.
pub trait ToStringIn {
    fn to_string_in(&self, alloc: Global) -> Result<String, AllocError>;
}

impl<T: ToString> ToStringIn for T {
    fn to_string_in(&self, _alloc: Global) -> Result<String, AllocError> {
        Ok(self.to_string())
    }
}

impl fmt::Display for ReadingFault {
    fn fmt(&self, f: &mut fmt::Formatter<'_>) -> fmt::Result {
        write!(f, "{self:?}")
    }
}

impl Error for ReadingFault {}
