//! The archive, as a string of the signs 0 and 1: records of one leaf count behind
//! one header.
//!
//! 02, CR 1: "We want an archive: n in 11 bits, tree count in 21 bits, then the
//! records without their own n, each padded with zero bits to a byte."
//!
//! For n = 1 and 2 a record has no bytes, so the header alone tells of its trees.

use crate::answer::{refuse, Refusal, LENGTH, PADDING, TREE, TREES};
use crate::record::{bits, bits_of_fields, bytes, entries, fields, padded, BITS_OF_N};
use crate::vector::{entries_within_bounds, leaf_count};
use std::fmt;

/// The greatest number of 21 bits.
pub const MOST_TREES: usize = 2_097_151;
pub const BITS_OF_COUNT: usize = 21;
pub const BYTES_OF_HEADER: usize = 4;

/// The part of an archive that is a record; an empty part where there is none.
#[derive(Clone, Copy, Debug, Default, PartialEq, Eq)]
pub struct Part {
    pub start: usize,
    pub length: usize,
}

impl Part {
    pub fn of<'a>(&self, archive: &'a [u8]) -> &'a [u8] {
        &archive[self.start..][..self.length]
    }
}

impl fmt::Display for Part {
    fn fmt(&self, f: &mut fmt::Formatter) -> fmt::Result {
        write!(f, "part {} {}", self.start, self.length)
    }
}

/// The bytes of a record without its n.
pub fn length_of_record(n: usize) -> usize {
    (bits_of_fields(n) + 7) / 8
}

/// The length that a header implies.
pub fn implied_length(n: usize, trees: usize) -> usize {
    BYTES_OF_HEADER + trees * length_of_record(n)
}

/// The 32 bits of a header.
pub fn header(n: usize, trees: usize) -> String {
    format!("{n:0leaves$b}{trees:0count$b}", leaves = BITS_OF_N, count = BITS_OF_COUNT)
}

/// The archive of the trees whose entries stand in one list, or the first refusal
/// of the order "1, 21 for more than 2,097,151 times n entries (place 2097151), 2
/// when the list is not whole vectors (place: next multiple of n), 4 (place: index
/// in the list)".
pub fn write(leaves: u64, list: &[u16]) -> Result<Vec<u8>, Refusal> {
    let n = leaf_count(leaves)?;
    if list.len() > MOST_TREES * n {
        return refuse(TREES, MOST_TREES);
    }
    // The last one is short where the list is not whole vectors.
    let vectors: Vec<&[u16]> = list.chunks(n).collect();
    if list.len() != vectors.len() * n {
        return refuse(LENGTH, vectors.len() * n);
    }
    for (tree, v) in vectors.iter().enumerate() {
        if let Err(fault) = entries_within_bounds(v) {
            return refuse(fault.number, tree * n + fault.place);
        }
    }
    let records: String = vectors.iter().map(|v| padded(fields(v))).collect();
    Ok(bytes(&(header(n, vectors.len()) + &records)))
}

/// Leaf count and tree count, or the first refusal of the order "2 under 4 bytes
/// (place 4), 1, 2 when the length is not the implied one (place: that length)".
fn counts(archive: &[u8]) -> Result<(usize, usize), Refusal> {
    let (n, trees) = header_counts(archive)?;
    is_whole(archive, n, trees)?;
    Ok((n, trees))
}

/// The same without a look at the length behind the header.
pub fn header_counts(archive: &[u8]) -> Result<(usize, usize), Refusal> {
    if archive.len() < BYTES_OF_HEADER {
        return refuse(LENGTH, BYTES_OF_HEADER);
    }
    let header = bits(&archive[..BYTES_OF_HEADER]);
    let (leaves, trees) = header.split_at(BITS_OF_N);
    Ok((leaf_count(number(leaves) as u64)?, number(trees)))
}

/// "2 when the length is not the implied one (place: that length)"
pub fn is_whole(archive: &[u8], n: usize, trees: usize) -> Result<(), Refusal> {
    let implied = implied_length(n, trees);
    if archive.len() != implied {
        return refuse(LENGTH, implied);
    }
    Ok(())
}

fn number(bits: &str) -> usize {
    usize::from_str_radix(bits, 2).expect("a number of the header")
}

/// The part that record r is, or the header's refusals and then "12 when r is not
/// below the count (place r)". The records before r are passed over one by one.
pub fn part(archive: &[u8], tree: u64) -> Result<Part, Refusal> {
    let (n, trees) = counts(archive)?;
    if tree >= trees as u64 {
        return refuse(TREE, usize::try_from(tree).expect("a place has 64 bits"));
    }
    let length = length_of_record(n);
    let start = (0..tree).fold(BYTES_OF_HEADER, |start, _| start + length);
    Ok(Part { start, length })
}

/// The vector of tree r, or the refusals above and then those of its record.
pub fn read(archive: &[u8], tree: u64) -> Result<Vec<u16>, Refusal> {
    let part = part(archive, tree)?;
    let (n, _) = counts(archive)?;
    read_record(n, part.of(archive))
}

/// The vector of a record, or "then 4 and 10 with 01's places within the record": 10
/// has the record's last byte, counted from its own first.
pub fn read_record(n: usize, record: &[u8]) -> Result<Vec<u16>, Refusal> {
    let record_bits = bits(record);
    let (fields, padding) = record_bits.split_at(bits_of_fields(n));
    let v = entries(n, fields);
    entries_within_bounds(&v)?;
    if padding.contains('1') {
        return refuse(PADDING, record.len() - 1);
    }
    Ok(v)
}
