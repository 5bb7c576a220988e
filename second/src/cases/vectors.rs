//! Cases of the calls that begin from a vector.
//!
//! 01: "From a vector: 1, 4, then for relabelling 2 (permutation length not n) and
//! 11, then 3." Damage: an entry one above its bound or far above it, v(0) not 0,
//! no entries, too many entries.

use super::chance::Chance;
use super::{permutations, rooms};
use crate::record::length_in_bytes;
use crate::stream::Case;
use crate::vector::{bound, element, MOST_LEAVES};

type Kind = fn(&mut Chance) -> Vec<u16>;

/// Each kind, and how often it is used with each call.
const KINDS: [(Kind, usize); 9] = [
    (right, 200),
    (entry_at_its_bound, 50),
    (entry_one_above, 50),
    (entry_far_above, 40),
    (first_not_zero, 25),
    (two_faults, 30),
    (empty, 6),
    (one_too_many, 5),
    (many_too_many, 5),
];

pub fn add(cases: &mut Vec<Case>, chance: &mut Chance) {
    for (kind, times) in KINDS {
        for _ in 0..times {
            for call in 0..6 {
                let v = kind(chance);
                cases.push(case(call, v, chance));
            }
        }
    }
    for _ in 0..150 {
        let v = right(chance);
        cases.push(shuffle_with_one_short(v, chance));
    }
}

fn case(call: usize, v: Vec<u16>, chance: &mut Chance) -> Case {
    // No room is chosen for more leaves than one too many.
    let n = v.len().min(MOST_LEAVES + 1);
    match call {
        0 => Case::Check { v },
        1 => Case::ToTable { v, out: rooms::lent(chance, rooms::table(n)) },
        2 => Case::ToNewick { v, out: rooms::lent(chance, rooms::text(n)) },
        3 => Case::Pack { v, out: rooms::lent(chance, length_in_bytes(n)) },
        4 => {
            let new_out = rooms::lent(chance, n);
            Case::Shuffle { v, new_out, vector_out: rooms::enough(chance, n) }
        }
        _ => {
            let p = permutations::any(chance, n);
            Case::Relabel { v, p, out: rooms::lent(chance, n) }
        }
    }
}

fn shuffle_with_one_short(v: Vec<u16>, chance: &mut Chance) -> Case {
    let n = v.len();
    let (short, enough) = (rooms::short(chance, n), rooms::enough(chance, n));
    match chance.below(3) {
        0 => Case::Shuffle { v, new_out: short, vector_out: enough },
        1 => Case::Shuffle { v, new_out: enough, vector_out: short },
        _ => Case::Shuffle { v, new_out: short, vector_out: short },
    }
}

/// A right vector of a size by chance.
pub fn right(chance: &mut Chance) -> Vec<u16> {
    let n = chance.size();
    of_size(chance, n)
}

/// A right vector of n entries: any, or one of a shape with long paths.
pub fn of_size(chance: &mut Chance, n: usize) -> Vec<u16> {
    let shape = chance.below(9);
    (0..n).map(|i| element(entry(chance, shape, i))).collect()
}

fn entry(chance: &mut Chance, shape: usize, i: usize) -> usize {
    let before = i.saturating_sub(1);
    match shape {
        0 => 0,
        1 => before,
        2 => bound(i),
        // Ordered: v(i) < i.
        3 => chance.between(0, before),
        // No entry is a leaf's own name where it can be helped.
        4 => chance.between(bound(i).min(i), bound(i)),
        // Near the last leaf, so that the order of merges jumps.
        5 => before.saturating_sub(chance.below(3)),
        _ => chance.between(0, bound(i)),
    }
}

fn entry_at_its_bound(chance: &mut Chance) -> Vec<u16> {
    let mut v = right(chance);
    let i = chance.index(v.len());
    v[i] = element(bound(i));
    v
}

fn entry_one_above(chance: &mut Chance) -> Vec<u16> {
    let mut v = right(chance);
    let i = chance.index(v.len());
    v[i] = element(bound(i) + 1);
    v
}

fn entry_far_above(chance: &mut Chance) -> Vec<u16> {
    let mut v = right(chance);
    let i = chance.index(v.len());
    v[i] = chance.one_of(&[65535, 32768, 2047, 2048, 4096]);
    v
}

fn first_not_zero(chance: &mut Chance) -> Vec<u16> {
    let mut v = right(chance);
    v[0] = chance.one_of(&[1, 1, 2, 65535]);
    v
}

/// "Of one number, the first place counts."
pub fn two_faults(chance: &mut Chance) -> Vec<u16> {
    let mut v = entry_one_above(chance);
    let i = chance.index(v.len());
    v[i] = element(bound(i) + chance.between(1, 9));
    v
}

fn empty(_: &mut Chance) -> Vec<u16> {
    Vec::new()
}

fn one_too_many(chance: &mut Chance) -> Vec<u16> {
    of_size(chance, MOST_LEAVES + 1)
}

/// Too many entries, and faults among them that must not be told first.
fn many_too_many(chance: &mut Chance) -> Vec<u16> {
    let n = chance.one_of(&[1025, 1026, 1100, 2048]);
    (0..n).map(|_| chance.word()).collect()
}
