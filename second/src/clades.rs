//! The clade table of an archive: sets of leaves, and in how many trees each is.
//!
//! 02, CR 4: "For archives of up to 64 leaves, build a table in a lent list of
//! entries: one entry for each different clade of two leaves or more, its leaf set as
//! a 64-bit number (leaf x is bit x), its size, and in how many trees it occurs.
//! Entries rise by leaf set."
//!
//! A clade is a set of leaves here and becomes a number when all are counted. Trees
//! with equal vectors are equal, so the sets are worked out once for each different
//! vector.

use crate::answer::{refuse, Refusal, TABLE_LEAVES};
use crate::archive::{header_counts, is_whole, length_of_record, read_record, BYTES_OF_HEADER};
use crate::tree::{Leaves, Tree};
use std::collections::{BTreeMap, BTreeSet};

/// A number of 64 bits has a bit for so many leaves.
pub const MOST_LEAVES_OF_TABLE: usize = 64;

/// An entry of the table, as C lays it out.
#[derive(Clone, Copy, Debug, Default, PartialEq, Eq)]
pub struct Clade {
    pub leaves: u64,
    pub size: u32,
    pub count: u32,
}

/// The table, or the first refusal of the order "the archive's header refusals, with
/// 14 for n above 64 (place n) directly after 1; then 4 and 10 tree by tree".
pub fn table(archive: &[u8]) -> Result<Vec<Clade>, Refusal> {
    let (n, trees) = header_counts(archive)?;
    if n > MOST_LEAVES_OF_TABLE {
        return refuse(TABLE_LEAVES, n);
    }
    is_whole(archive, n, trees)?;
    let times = times_of_vectors(n, trees, &archive[BYTES_OF_HEADER..])?;
    Ok(rising(&times_of_clades(&times)))
}

/// How many trees have each vector. The records are taken off one by one.
fn times_of_vectors(
    n: usize,
    trees: usize,
    mut records: &[u8],
) -> Result<BTreeMap<Vec<u16>, usize>, Refusal> {
    let length = length_of_record(n);
    let mut times = BTreeMap::new();
    if length == 0 && trees > 0 {
        // One or two leaves: no record has a byte, and all trees are the same.
        times.insert(read_record(n, records)?, trees);
        return Ok(times);
    }
    for _ in 0..trees {
        let (record, later) = records.split_at(length);
        *times.entry(read_record(n, record)?).or_insert(0) += 1;
        records = later;
    }
    Ok(times)
}

/// "each different clade of two leaves or more" of the tree of a vector
pub fn of_vector(v: &[u16]) -> BTreeSet<Leaves> {
    let clades = Tree::of_vector(v).clades();
    clades.into_iter().filter(|leaves| leaves.len() >= 2).collect()
}

/// "in how many trees it occurs": a tree has a clade or has it not.
fn times_of_clades(times: &BTreeMap<Vec<u16>, usize>) -> BTreeMap<Leaves, usize> {
    let mut counts = BTreeMap::new();
    for (v, trees) in times {
        for leaves in of_vector(v) {
            *counts.entry(leaves).or_insert(0) += trees;
        }
    }
    counts
}

/// "Entries rise by leaf set", which is another order than that of the sets.
fn rising(counts: &BTreeMap<Leaves, usize>) -> Vec<Clade> {
    let mut table: Vec<Clade> =
        counts.iter().map(|(leaves, &count)| entry(leaves, count)).collect();
    table.sort_by_key(|clade| clade.leaves);
    table
}

fn entry(leaves: &Leaves, count: usize) -> Clade {
    Clade {
        leaves: leaves.iter().map(|&leaf| 1 << leaf).sum(),
        size: leaves.len() as u32,
        count: count as u32,
    }
}
