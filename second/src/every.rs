//! Every vector of a few leaves.
//!
//! 01: "every vector for n up to 6, are run and compared with an independent
//! second program."

use crate::notation::Lines;
use crate::samples::there_and_back;
use crate::vector::{bound, element};

/// Every vector of n entries, in the order of their entries from the front.
pub fn vectors(n: usize) -> Vec<Vec<u16>> {
    let mut vectors = vec![Vec::new()];
    for i in 0..n {
        vectors = vectors.iter().flat_map(|v| longer(v, i)).collect();
    }
    vectors
}

/// The vector with each value that entry i may have behind it.
fn longer(v: &[u16], i: usize) -> Vec<Vec<u16>> {
    let entries = 0..=element(bound(i));
    entries.map(|entry| [v, &[entry]].concat()).collect()
}

pub fn lines() -> Vec<u8> {
    let mut lines = Lines::default();
    for n in 1..=6 {
        for v in vectors(n) {
            there_and_back(&mut lines, &v);
            archived(&mut lines, &v);
            lines.shuffle(&v);
        }
    }
    lines.into_bytes()
}

/// The archive of this one tree.
fn archived(lines: &mut Lines, v: &[u16]) {
    let archive = lines.write_archive(v.len() as u64, v);
    lines.read_tree(&archive, 0);
    lines.view(&archive, 0);
}
