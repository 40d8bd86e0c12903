//! How far words are from each other, by the crate `strsim`, which takes memory without a refusal.

use super::{AllocError, Allocator};

/// How many edits make one word of another, of which a swap of neighbours is one.
pub fn osa_distance<A: Allocator>(_alloc: A, one: &str, other: &str) -> Result<usize, AllocError> {
    Ok(::strsim::osa_distance(one, other))
}
