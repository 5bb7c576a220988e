//! Archives in the making: what the header says, and each record as a string of
//! bits, so that either may be damaged before all is put into bytes.
//!
//! 02, CR 1: "n in 11 bits, tree count in 21 bits, then the records without their
//! own n, each padded with zero bits to a byte".

use super::chance::Chance;
use super::vectors;
use crate::archive::{header, length_of_record, BYTES_OF_HEADER};
use crate::record::{bits_of_fields, bytes, fields, padded, width};
use crate::stream::LONGEST;
use std::ops::Range;

/// An archive, and the number of the tree that is asked for.
pub type Asked = (Vec<u8>, u64);

#[derive(Clone)]
pub struct Draft {
    pub leaves: usize,
    pub trees: usize,
    pub records: Vec<String>,
}

impl Draft {
    /// A right archive of so many trees of n leaves.
    pub fn right(chance: &mut Chance, n: usize, trees: usize) -> Draft {
        let run: Vec<Vec<u16>> = (0..trees).map(|_| vectors::of_size(chance, n)).collect();
        Draft::of_run(n, &run)
    }

    /// The archive of these vectors, which have n entries each.
    pub fn of_run(n: usize, run: &[Vec<u16>]) -> Draft {
        let records = run.iter().map(|v| padded(fields(v))).collect();
        Draft { leaves: n, trees: run.len(), records }
    }

    /// A right archive of a few trees, at least so many, of n leaves.
    pub fn few(chance: &mut Chance, n: usize, least: usize) -> Draft {
        let trees = chance.between(least, 5);
        Draft::right(chance, n, trees)
    }

    /// A right archive of a few trees, and the number of one of them.
    pub fn some(chance: &mut Chance, least_leaves: usize, least_trees: usize) -> (Draft, usize) {
        let n = chance.size_from(least_leaves);
        let draft = Draft::few(chance, n, least_trees);
        let tree = chance.index(draft.trees);
        (draft, tree)
    }

    /// The same of a leaf count whose records have padding bits.
    pub fn some_padded(chance: &mut Chance, least_trees: usize) -> (Draft, usize) {
        let mut n = chance.size_from(3);
        while padding(n).is_empty() {
            n = chance.between(3, 40);
        }
        let draft = Draft::few(chance, n, least_trees);
        let tree = chance.index(draft.trees);
        (draft, tree)
    }

    pub fn asked(&self, tree: usize) -> Asked {
        (self.bytes(), tree as u64)
    }

    pub fn bytes(&self) -> Vec<u8> {
        bytes(&(header(self.leaves, self.trees) + &self.records.concat()))
    }

    /// Writes bits over those of one record.
    fn put(&mut self, tree: usize, place: usize, bits: &str) {
        self.records[tree].replace_range(place..place + bits.len(), bits);
    }

    pub fn set_bit(&mut self, tree: usize, place: usize) {
        self.put(tree, place, "1");
    }

    /// Entry i, from 2 on, in as many bits as it has.
    pub fn set_entry(&mut self, tree: usize, i: usize, entry: usize) {
        self.put(tree, bits_of_fields(i), &format!("{entry:0width$b}", width = width(i)));
    }

    /// The greatest number that the field of entry i can hold.
    pub fn fill_entry(&mut self, tree: usize, i: usize) {
        self.put(tree, bits_of_fields(i), &"1".repeat(width(i)));
    }

    /// Every bit of a record by chance, its padding too.
    pub fn scramble(&mut self, chance: &mut Chance, tree: usize) {
        let bit = |_| chance.one_of(&['0', '1']);
        self.records[tree] = (0..self.records[tree].len()).map(bit).collect();
    }

    /// Every bit of a record the other way.
    pub fn invert(&mut self, tree: usize) {
        let inverse = |bit| if bit == '0' { '1' } else { '0' };
        self.records[tree] = self.records[tree].chars().map(inverse).collect();
    }
}

/// The places of the padding bits in a record of n leaves.
pub fn padding(n: usize) -> Range<usize> {
    bits_of_fields(n)..8 * length_of_record(n)
}

/// As many trees of n leaves, from 3 on, as an archive in a stream can hold.
pub fn most_trees(n: usize) -> usize {
    (LONGEST - BYTES_OF_HEADER) / length_of_record(n)
}
