//! Vectors of bytes that are compared at once, as far as the sources use them; Rust's own are not stable. Eight bytes are
//! compared as one number. A mask has the place of the first equal byte alone, which is all that the sources look for.
#![allow(non_camel_case_types)]

/// 16 bytes.
pub type u8x16 = Bytes<2>;

/// 32 bytes.
pub type u8x32 = Bytes<4>;

/// Bytes by eights, each of these as one number, its first byte lowest.
#[derive(Clone, Copy)]
pub struct Bytes<const N: usize>([u64; N]);

/// A number for each eight bytes: 0 if none of them is equal, else its lowest 1 is the highest bit of the first equal byte.
#[derive(Clone, Copy)]
pub struct Mask<const N: usize>([u64; N]);

const ONES: u64 = u64::from_ne_bytes([1; 8]);

impl<const N: usize> Bytes<N> {
    /// The first bytes of a slice. It panics if there are fewer.
    #[inline(always)]
    pub fn from_slice(bytes: &[u8]) -> Self {
        let (eights, _) = bytes.as_chunks();
        let front: &[[u8; 8]; N] = eights.first_chunk().expect("too few bytes");
        Bytes(front.map(u64::from_le_bytes))
    }

    #[inline(always)]
    pub fn splat(byte: u8) -> Self {
        Bytes([u64::from(byte) * ONES; N])
    }

    /// Compares byte by byte. Equal bytes are 0 after `^`. If 1 is subtracted from each byte, the first 0 is the first byte
    /// that gets a highest bit that it did not have.
    #[inline(always)]
    pub fn simd_eq(self, other: Self) -> Mask<N> {
        let mut mask = self.0;
        for (ours, theirs) in mask.iter_mut().zip(other.0) {
            let differ = *ours ^ theirs;
            *ours = differ.wrapping_sub(ONES) & !differ & (ONES << 7);
        }
        Mask(mask)
    }
}

impl<const N: usize> Mask<N> {
    /// The mask itself: the sources only test whether it is 0, and look for its first bit.
    #[inline(always)]
    pub fn to_bitmask(self) -> Self {
        self
    }

    /// The place of the first equal byte, or the number of all bytes if none is equal.
    #[inline(always)]
    pub fn trailing_zeros(self) -> u32 {
        let mut place = 0;
        for mask in self.0 {
            if mask != 0 {
                return place + mask.trailing_zeros() / 8;
            }
            place += 8;
        }
        place
    }
}

impl<const N: usize> PartialEq<u64> for Mask<N> {
    /// Whether no byte is equal, if the number is 0. No other is compared.
    #[inline(always)]
    fn eq(&self, number: &u64) -> bool {
        self.0.iter().fold(0, |all, mask| all | mask) == *number
    }
}
