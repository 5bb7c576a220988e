//! Inputs of the listing program: records back to back, the last one damaged.
//!
//! 01: "the first refusal ends the run [..]. Input that ends inside a record is 2,
//! with the length wanted: 2 where a single byte is left, else the record's
//! length, after 1 for its n." 01's own input ends with a single byte.

use super::chance::Chance;
use super::vectors;
use crate::record::record;

/// Records of every size to 64 and of sizes by chance up to 1,024. The last but
/// two has a padding bit set; the two behind it must not be looked at.
pub fn long() -> Vec<u8> {
    let mut chance = Chance::from_seed(1);
    let mut input = Vec::new();
    for n in (1..=64).chain([1022, 1023, 1024]) {
        input.extend(record(&vectors::of_size(&mut chance, n)));
    }
    for _ in 0..250 {
        input.extend(record(&vectors::right(&mut chance)));
    }
    input.extend([0x00, 0x41]);
    input.extend(records(&mut chance, &[4, 5]));
    input
}

fn records(chance: &mut Chance, sizes: &[usize]) -> Vec<u8> {
    sizes.iter().flat_map(|&n| record(&vectors::of_size(chance, n))).collect()
}

/// The input ends one byte before the end of a record.
pub fn cut() -> Vec<u8> {
    let mut input = records(&mut Chance::from_seed(2), &[7, 1, 300, 2, 1024, 6, 1000]);
    input.pop();
    input
}

/// The last record is cut short too, but "after 1 for its n".
pub fn leaves() -> Vec<u8> {
    let mut input = records(&mut Chance::from_seed(3), &[3, 1024, 9]);
    // 1,025 in eleven bits, and nothing of the fields.
    input.extend([0b1000_0000, 0b0010_0000]);
    input
}

/// The last record has v(2) = 3 in two bits: a vector 0,0,3,0.
pub fn entry() -> Vec<u8> {
    let mut input = records(&mut Chance::from_seed(4), &[12, 1, 4]);
    input.extend([0b0000_0000, 0b1001_1000]);
    input
}
