//! Runs of trees for the clade table: as vectors, with many different clades or few.
//!
//! 02, CR 4: "Each rebuild recounts support from all trees." A run that has settled
//! moves about one tree; one that has not has nearly all clades different.

use super::chance::Chance;
use crate::clades::{of_vector, MOST_LEAVES_OF_TABLE};
use crate::vector::{bound, element};
use std::collections::BTreeSet;

pub type Run = Vec<Vec<u16>>;

/// A leaf count that a table may have; the ends have a fair share.
pub fn size(chance: &mut Chance) -> usize {
    match chance.below(20) {
        0 => 1,
        1..=2 => 2,
        3..=4 => 3,
        5..=11 => chance.between(4, 16),
        12..=16 => chance.between(17, 62),
        17 => 63,
        _ => MOST_LEAVES_OF_TABLE,
    }
}

/// Any tree of n leaves, each as likely.
fn any_tree(chance: &mut Chance, n: usize) -> Vec<u16> {
    (0..n).map(|i| element(chance.between(0, bound(i)))).collect()
}

/// So many trees that have little in common.
pub fn any(chance: &mut Chance, n: usize, trees: usize) -> Run {
    (0..trees).map(|_| any_tree(chance, n)).collect()
}

/// Copies of one tree, in which an entry or two may be another.
pub fn near(chance: &mut Chance, n: usize, trees: usize) -> Run {
    let middle = any_tree(chance, n);
    (0..trees).map(|_| changed(chance, &middle)).collect()
}

fn changed(chance: &mut Chance, v: &[u16]) -> Vec<u16> {
    let mut v = v.to_vec();
    for _ in 0..chance.below(3) {
        let i = chance.index(v.len());
        v[i] = element(chance.between(0, bound(i)));
    }
    v
}

/// The same tree so many times.
pub fn equal(chance: &mut Chance, n: usize, trees: usize) -> Run {
    vec![any_tree(chance, n); trees]
}

/// Trees of 64 leaves that have exactly so many different clades together. The last
/// ones hang the last leaf elsewhere, which makes few new clades or none.
pub fn with_clades(chance: &mut Chance, wanted: usize) -> Run {
    let n = MOST_LEAVES_OF_TABLE;
    let mut run = vec![any_tree(chance, n)];
    let mut seen = of_vector(&run[0]);
    while seen.len() < wanted {
        let mut v = any_tree(chance, n);
        if seen.len() + n > wanted {
            v = chance_of(chance, &run);
            v[n - 1] = element(chance.between(0, bound(n - 1)));
        }
        let clades: BTreeSet<_> = of_vector(&v).difference(&seen).cloned().collect();
        if seen.len() + clades.len() <= wanted {
            seen.extend(clades);
            run.push(v);
        }
    }
    run
}

fn chance_of(chance: &mut Chance, run: &Run) -> Vec<u16> {
    run[chance.below(run.len())].clone()
}
