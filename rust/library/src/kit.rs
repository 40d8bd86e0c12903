//! What the sources take from Rattle's standard library and from five crates, as far as they use it: growth that can be
//! refused, vectors of bytes that are compared at once, `ArrayVec`, and words, digits and hex at a place. Written for Rust
//! alone.

#[cfg(feature = "program")]
pub mod clap;
#[cfg(feature = "program")]
pub mod host;
#[cfg(feature = "program")]
pub mod maps;
#[cfg(not(feature = "alloc"))]
mod no_items;
pub mod simd;
#[cfg(test)]
mod tests;
#[cfg(feature = "program")]
pub mod text;
mod vec;
#[cfg(feature = "program")]
pub mod words;

pub use vec::{AllocError, Allocator, Global, Vec};

/// Words with the lower byte first.
pub struct LittleEndian;

impl LittleEndian {
    #[inline(always)]
    pub fn read_i16(bytes: &[u8]) -> i16 {
        i16::from_le_bytes(front(bytes))
    }

    #[inline(always)]
    pub fn read_u16(bytes: &[u8]) -> u16 {
        u16::from_le_bytes(front(bytes))
    }

    #[inline(always)]
    pub fn read_u32(bytes: &[u8]) -> u32 {
        u32::from_le_bytes(front(bytes))
    }

    #[inline(always)]
    pub fn read_i32(bytes: &[u8]) -> i32 {
        i32::from_le_bytes(front(bytes))
    }

    pub fn write_i16(bytes: &mut [u8], number: i16) {
        bytes[..2].copy_from_slice(&number.to_le_bytes());
    }

    pub fn write_i32(bytes: &mut [u8], number: i32) {
        bytes[..4].copy_from_slice(&number.to_le_bytes());
    }
}

/// The first bytes of a slice, by one test of its length. It panics if there are fewer.
#[inline(always)]
fn front<const N: usize>(bytes: &[u8]) -> [u8; N] {
    match bytes.first_chunk() {
        Some(front) => *front,
        None => panic!("{N} bytes are read, and there are {}", bytes.len()),
    }
}

/// A list of at most `N` items that takes no memory.
#[derive(Clone, Debug)]
pub struct ArrayVec<T, const N: usize> {
    items: [T; N],
    count: usize,
}

impl<T: Copy + Default, const N: usize> ArrayVec<T, N> {
    pub fn new() -> Self {
        ArrayVec { items: [T::default(); N], count: 0 }
    }

    pub fn len(&self) -> usize {
        self.count
    }

    pub fn is_full(&self) -> bool {
        self.count == N
    }

    pub fn as_slice(&self) -> &[T] {
        &self.items[..self.count]
    }

    #[cfg(feature = "program")]
    pub fn as_mut_slice(&mut self) -> &mut [T] {
        &mut self.items[..self.count]
    }

    #[cfg(feature = "program")]
    pub fn remaining_capacity(&self) -> usize {
        N - self.count
    }

    /// Adds an item at the end. It panics if the list is full.
    pub fn push(&mut self, item: T) {
        self.items[self.count] = item;
        self.count += 1;
    }

    pub fn pop(&mut self) -> Option<T> {
        self.count = self.count.checked_sub(1)?;
        Some(self.items[self.count])
    }

    pub fn truncate(&mut self, count: usize) {
        self.count = self.count.min(count);
    }

    /// Adds items at the end. If they have no room, nothing changes.
    pub fn try_extend_from_slice(&mut self, items: &[T]) -> Result<(), ()> {
        let room = self.items[self.count..].get_mut(..items.len()).ok_or(())?;
        room.copy_from_slice(items);
        self.count += items.len();
        Ok(())
    }
}

/// The place of the first byte that is equal.
pub fn memchr(byte: u8, bytes: &[u8]) -> Option<usize> {
    bytes.iter().position(|other| *other == byte)
}

/// Writes the decimal digits of a number so that they end at a place, and returns where they start.
#[inline]
pub fn write_digits(number: u64, out: &mut [u8], end: usize) -> usize {
    let (mut rest, mut at) = (number, end);
    loop {
        at -= 1;
        out[at] = b'0' + (rest % 10) as u8;
        rest /= 10;
        if rest == 0 {
            return at;
        }
    }
}

/// Room for the decimal digits of a number.
#[cfg(feature = "program")]
pub struct Buffer([u8; 20]);

#[cfg(feature = "program")]
impl Buffer {
    pub fn new() -> Self {
        Buffer([0; 20])
    }

    /// The digits of a number of at most 64 bits, after a `-` if it is negative.
    pub fn format(&mut self, number: impl TryInto<i128>) -> &str {
        let number = number.try_into().unwrap_or_default();
        let mut start = write_digits(number.unsigned_abs() as u64, &mut self.0, 20);
        if number < 0 {
            start -= 1;
            self.0[start] = b'-';
        }
        str::from_utf8(&self.0[start..]).unwrap_or_default()
    }
}

/// Writes bytes as hex digits, two for each. If the slice is not as long as they are, nothing is written.
pub fn encode_to_slice(bytes: &[u8], out: &mut [u8]) -> Result<(), ()> {
    if out.len() != 2 * bytes.len() {
        return Err(());
    }
    let digit = |half: u8| b"0123456789abcdef"[usize::from(half)];
    for (byte, two) in bytes.iter().zip(out.chunks_exact_mut(2)) {
        two.copy_from_slice(&[digit(byte >> 4), digit(byte & 15)]);
    }
    Ok(())
}
