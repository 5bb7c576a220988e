//! The vector.
//!
//! 01: "A vector has n entries, v(0)=0 and 0 <= v(i) <= 2(i-1) for i from 1."
//! "n is 1 to 1,024. Vector and table numbers are 16 bits wide."

use crate::answer::{refuse, Refusal, ENTRY, LEAF_COUNT};

pub const MOST_LEAVES: usize = 1024;

/// The greatest value that entry i may have.
pub fn bound(i: usize) -> usize {
    if i == 0 {
        0
    } else {
        2 * (i - 1)
    }
}

/// Refusal 1: "leaf count 0 or above 1,024", place 0. The count may be any
/// number of 64 bits, so it is looked at before anything is worked out from it.
pub fn leaf_count(n: u64) -> Result<usize, Refusal> {
    if n == 0 || n > MOST_LEAVES as u64 {
        return refuse(LEAF_COUNT, 0);
    }
    Ok(n as usize)
}

/// Refusal 4: "vector entry above its bound, v(0) not 0 included", place i.
pub fn entries_within_bounds(v: &[u16]) -> Result<(), Refusal> {
    for (i, &entry) in v.iter().enumerate() {
        if usize::from(entry) > bound(i) {
            return refuse(ENTRY, i);
        }
    }
    Ok(())
}

/// "From a vector: 1, 4".
pub fn accepted(v: &[u16]) -> Result<(), Refusal> {
    leaf_count(v.len() as u64)?;
    entries_within_bounds(v)
}

/// A number as an element of a vector, a table or a permutation.
pub fn element(number: usize) -> u16 {
    u16::try_from(number).expect("vector and table numbers are 16 bits wide")
}
