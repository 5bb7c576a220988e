//! Cases of unpacking.
//!
//! 01: "Unpacking: 2 (under 2 bytes, place 2), 1, 2 (not the record's byte
//! length), 4, 10, 3." Damage: too few and too many bytes, leaf counts out of
//! range, fields above their bounds, padding bits set.

use super::chance::Chance;
use super::{rooms, vectors};
use crate::record::{bits, bytes, length_in_bits, length_in_bytes, record, width};
use crate::stream::Case;
use crate::vector::{bound, MOST_LEAVES};

type Kind = fn(&mut Chance) -> Vec<u8>;

/// Each kind, and how often it is used.
const KINDS: [(Kind, usize); 11] = [
    (right, 200),
    (under_two_bytes, 30),
    (leaf_count_out_of_range, 60),
    (other_leaf_count, 60),
    (one_byte_short, 60),
    (one_byte_long, 60),
    (far_too_short, 40),
    (field_one_above, 120),
    (field_all_ones, 60),
    (any_fields, 60),
    (any_bytes, 40),
];

pub fn add(cases: &mut Vec<Case>, chance: &mut Chance) {
    for (kind, times) in KINDS {
        for _ in 0..times {
            let record = kind(chance);
            cases.push(case(record, chance));
        }
    }
    for n in (1..=24).chain([100, 500, 1022, 1023]) {
        each_padding_bit(cases, chance, n);
    }
}

fn case(record: Vec<u8>, chance: &mut Chance) -> Case {
    let front = format!("{:0<16}", bits(&record));
    let n = usize::from_str_radix(&front[..11], 2).expect("eleven bits");
    Case::Unpack { record, out: rooms::lent(chance, n.min(MOST_LEAVES)) }
}

/// Each padding bit alone, all at once, and one with a field above its bound.
fn each_padding_bit(cases: &mut Vec<Case>, chance: &mut Chance, n: usize) {
    let right = record(&vectors::of_size(chance, n));
    let padding: Vec<usize> = (length_in_bits(n)..8 * right.len()).collect();
    for &place in &padding {
        cases.push(case(with_ones(&right, &[place]), chance));
    }
    if !padding.is_empty() {
        cases.push(case(with_ones(&right, &padding), chance));
        let wide = above_bound(&right, n, 1.max(n - 1), 1);
        cases.push(case(with_ones(&wide, &padding[..1]), chance));
    }
}

fn with_ones(record: &[u8], places: &[usize]) -> Vec<u8> {
    let mut bits = bits(record);
    for &place in places {
        bits.replace_range(place..place + 1, "1");
    }
    bytes(&bits)
}

/// The record with v(i) so much above its bound; v(0) and v(1) have no field.
fn above_bound(record: &[u8], n: usize, i: usize, more: usize) -> Vec<u8> {
    if i < 2 || i >= n {
        return record.to_vec();
    }
    let start = length_in_bits(i);
    let field = format!("{:0width$b}", bound(i) + more, width = width(i));
    let mut bits = bits(record);
    bits.replace_range(start..start + width(i), &field);
    bytes(&bits)
}

fn right(chance: &mut Chance) -> Vec<u8> {
    record(&vectors::right(chance))
}

fn under_two_bytes(chance: &mut Chance) -> Vec<u8> {
    let length = chance.below(2);
    (0..length).map(|_| chance.byte()).collect()
}

/// The record with another number in its first 11 bits.
fn with_leaf_count(record: &[u8], n: usize) -> Vec<u8> {
    let mut bits = bits(record);
    bits.replace_range(..11, &format!("{n:011b}"));
    bytes(&bits)
}

fn leaf_count_out_of_range(chance: &mut Chance) -> Vec<u8> {
    let n = match chance.below(4) {
        0 => 0,
        1 => 1025,
        2 => 2047,
        _ => chance.between(1025, 2047),
    };
    with_leaf_count(&right(chance), n)
}

fn other_leaf_count(chance: &mut Chance) -> Vec<u8> {
    let v = vectors::right(chance);
    let n = chance.one_of(&[v.len() - 1, v.len() + 1, 1024, 1]);
    with_leaf_count(&record(&v), n)
}

fn one_byte_short(chance: &mut Chance) -> Vec<u8> {
    let mut record = right(chance);
    record.pop();
    record
}

fn one_byte_long(chance: &mut Chance) -> Vec<u8> {
    let mut record = right(chance);
    record.push(chance.one_of(&[0, 0, 255]));
    record
}

fn far_too_short(chance: &mut Chance) -> Vec<u8> {
    let mut record = right(chance);
    record.truncate(chance.between(2, record.len()));
    record
}

fn field_one_above(chance: &mut Chance) -> Vec<u8> {
    let n = chance.size_from(3);
    let record = record(&vectors::of_size(chance, n));
    let i = 2 + chance.index(n - 2);
    above_bound(&record, n, i, 1)
}

/// The greatest number that the field can hold.
fn field_all_ones(chance: &mut Chance) -> Vec<u8> {
    let n = chance.size_from(3);
    let record = record(&vectors::of_size(chance, n));
    let i = 2 + chance.below(n - 2);
    let start = length_in_bits(i);
    with_ones(&record, &(start..start + width(i)).collect::<Vec<usize>>())
}

/// A right leaf count and length; fields and padding by chance.
fn any_fields(chance: &mut Chance) -> Vec<u8> {
    let n = chance.size();
    let bytes: Vec<u8> = (0..length_in_bytes(n)).map(|_| chance.byte()).collect();
    with_leaf_count(&bytes, n)
}

fn any_bytes(chance: &mut Chance) -> Vec<u8> {
    let length = chance.between(2, 40);
    (0..length).map(|_| chance.byte()).collect()
}
