//! The packed record, as a string of the signs 0 and 1.
//!
//! 01: "Bits, most significant first: n in 11 bits, then v(2), v(3) .. v(n-1),
//! then zero bits to the end of the byte. v(i) takes as many bits as the number
//! 2(i-1) needs [..] v(0) and v(1) take none."

use crate::answer::{refuse, Refusal, LENGTH, PADDING};
use crate::vector::{bound, entries_within_bounds, leaf_count};

pub const BITS_OF_N: usize = 11;

/// "as many bits as the number 2(i-1) needs", for i from 2.
pub fn width(i: usize) -> usize {
    format!("{:b}", bound(i)).len()
}

/// The bits of v(2) to v(n-1) together.
pub fn bits_of_fields(n: usize) -> usize {
    (2..n).map(width).sum()
}

/// L(n), the bits of a record before padding.
pub fn length_in_bits(n: usize) -> usize {
    BITS_OF_N + bits_of_fields(n)
}

/// The length of a record of n leaves with its padding.
pub fn length_in_bytes(n: usize) -> usize {
    (length_in_bits(n) + 7) / 8
}

/// The record of a vector that is accepted.
pub fn record(v: &[u16]) -> Vec<u8> {
    let n = format!("{:0width$b}", v.len(), width = BITS_OF_N);
    bytes(&padded(n + &fields(v)))
}

/// The bits of v(2), v(3) .. v(n-1).
pub fn fields(v: &[u16]) -> String {
    let later = v.iter().enumerate().skip(2);
    later.map(|(i, entry)| format!("{:0width$b}", entry, width = width(i))).collect()
}

/// "then zero bits to the end of the byte"
pub fn padded(mut bits: String) -> String {
    while bits.len() % 8 != 0 {
        bits.push('0');
    }
    bits
}

/// The bytes of a string of bits, eight a byte.
pub fn bytes(bits: &str) -> Vec<u8> {
    let eights = (0..bits.len() / 8).map(|k| &bits[8 * k..8 * k + 8]);
    eights.map(|eight| u8::from_str_radix(eight, 2).expect("eight bits")).collect()
}

/// The string of bits of a record.
pub fn bits(record: &[u8]) -> String {
    record.iter().map(|byte| format!("{byte:08b}")).collect()
}

fn number(bits: &str) -> u16 {
    u16::from_str_radix(bits, 2).expect("a field of at most 11 bits")
}

/// The leaf count at the front of a record of two bytes or more.
pub fn leaves(record: &[u8]) -> Result<usize, Refusal> {
    if record.len() < 2 {
        return refuse(LENGTH, 2);
    }
    let n = number(&bits(&record[..2])[..BITS_OF_N]);
    leaf_count(u64::from(n))
}

/// The vector of a record, or the first refusal of the order "2 (under 2 bytes,
/// place 2), 1, 2 (not the record's byte length), 4, 10".
pub fn read(record: &[u8]) -> Result<Vec<u16>, Refusal> {
    let n = leaves(record)?;
    if record.len() != length_in_bytes(n) {
        return refuse(LENGTH, length_in_bytes(n));
    }
    let bits = bits(record);
    let (fields, padding) = bits.split_at(length_in_bits(n));
    let v = entries(n, &fields[BITS_OF_N..]);
    entries_within_bounds(&v)?;
    if padding.contains('1') {
        return refuse(PADDING, record.len() - 1);
    }
    Ok(v)
}

/// Takes the fields of v(2) to v(n-1) off the string one by one.
pub fn entries(n: usize, mut fields: &str) -> Vec<u16> {
    let mut v = vec![0; n];
    for (i, entry) in v.iter_mut().enumerate().skip(2) {
        let (field, later) = fields.split_at(width(i));
        *entry = number(field);
        fields = later;
    }
    v
}
