//! Permutations, and cases of relabelling.
//!
//! 01: "2 (permutation length not n) and 11, then 3". Damage: a value not below n,
//! a value used before, a wrong length.

use super::chance::Chance;
use super::{rooms, vectors};
use crate::stream::Case;
use crate::vector::element;

type Kind = fn(&mut Chance, usize) -> Vec<u16>;

/// Each kind, given the leaf count of the vector, and how often it is used.
const KINDS: [(Kind, usize); 9] = [
    (any, 150),
    (identity, 20),
    (reversed, 20),
    (value_n, 50),
    (value_far_above, 30),
    (repeated_early, 40),
    (repeated_last, 40),
    (two_faults, 30),
    (wrong_length, 90),
];

pub fn add(cases: &mut Vec<Case>, chance: &mut Chance) {
    for (kind, times) in KINDS {
        for _ in 0..times {
            let v = vectors::right(chance);
            let p = kind(chance, v.len());
            let out = rooms::lent(chance, v.len());
            cases.push(Case::Relabel { v, p, out });
        }
    }
    // A fault of the vector comes before one of the permutation.
    for _ in 0..40 {
        let v = vectors::two_faults(chance);
        let p = wrong_length(chance, v.len());
        let out = rooms::lent(chance, v.len());
        cases.push(Case::Relabel { v, p, out });
    }
}

pub fn any(chance: &mut Chance, n: usize) -> Vec<u16> {
    let mut p = identity(chance, n);
    for i in (1..n).rev() {
        p.swap(i, chance.below(i + 1));
    }
    p
}

fn identity(_: &mut Chance, n: usize) -> Vec<u16> {
    (0..n).map(element).collect()
}

fn reversed(_: &mut Chance, n: usize) -> Vec<u16> {
    (0..n).rev().map(element).collect()
}

fn value_n(chance: &mut Chance, n: usize) -> Vec<u16> {
    let mut p = any(chance, n);
    p[chance.index(n)] = element(n);
    p
}

fn value_far_above(chance: &mut Chance, n: usize) -> Vec<u16> {
    let mut p = any(chance, n);
    p[chance.index(n)] = chance.one_of(&[65535, 32768, 1024, 1025]);
    p
}

/// The first two values are the same.
fn repeated_early(chance: &mut Chance, n: usize) -> Vec<u16> {
    let mut p = any(chance, n);
    p[1.min(n - 1)] = p[0];
    p
}

/// The last value is one used before.
fn repeated_last(chance: &mut Chance, n: usize) -> Vec<u16> {
    let mut p = any(chance, n);
    p[n - 1] = p[chance.below(n)];
    p
}

fn two_faults(chance: &mut Chance, n: usize) -> Vec<u16> {
    let mut p = value_n(chance, n);
    p[chance.below(n)] = p[chance.below(n)];
    p
}

/// No values, one missing, one too many, or the values of other leaf counts.
fn wrong_length(chance: &mut Chance, n: usize) -> Vec<u16> {
    let length = match chance.below(5) {
        0 => 0,
        1 => n - 1,
        2 => n + 1,
        3 => 2 * n,
        _ => 1025,
    };
    any(chance, length)
}
