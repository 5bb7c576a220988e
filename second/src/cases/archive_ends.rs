//! Cases of the archive's three calls that follow a plan: each size where the widths
//! of fields change, each room, each padding bit, headers that are all there is, and
//! archives that agree in nothing but what an answer depends on.
//!
//! 02, CR 1: "The answer about tree r depends on the header, the archive's length, r,
//! the output's length and record r's bytes only."

use super::archives::{read, read_into, view};
use super::chance::Chance;
use super::drafts::{padding, Draft};
use super::{lists, rooms};
use crate::archive::{implied_length, MOST_TREES};
use crate::stream::Case;

/// Pairs of archives for each of the two calls.
const PAIRS: usize = 40;

pub fn add(cases: &mut Vec<Case>, chance: &mut Chance) {
    for n in sizes() {
        two_trees(cases, chance, n);
    }
    for n in [1, 2, 3, 4, 5, 6, 1023, 1024] {
        each_room(cases, chance, n);
    }
    for n in (3..=24).chain([100, 500, 1022, 1023, 1024]) {
        each_padding_bit(cases, chance, n);
    }
    for n in [0, 1, 2, 3, 4, 1023, 1024, 1025, 2047] {
        headers(cases, chance, n);
    }
    for _ in 0..PAIRS {
        agreeing(cases, chance);
    }
}

/// The small ones, and those on both sides of a change of width.
fn sizes() -> Vec<usize> {
    let mut sizes: Vec<usize> = (1..=40).collect();
    for power in [64, 128, 256, 512] {
        sizes.extend(power - 1..=power + 3);
    }
    sizes.extend(1020..=1024);
    sizes
}

/// A right archive of two trees, written and read, with enough room.
fn two_trees(cases: &mut Vec<Case>, chance: &mut Chance, n: usize) {
    let (leaves, entries) = lists::of_trees(chance, n, 2);
    let out = rooms::enough(chance, implied_length(n, 2));
    cases.push(Case::WriteArchive { leaves, entries, out });
    let archive = Draft::right(chance, n, 2).bytes();
    let out = rooms::enough(chance, n);
    cases.push(read_into(&archive, 1, out));
    cases.push(view((archive, 1)));
}

/// Exact, ample, short by one, half and none.
fn rooms_around(needed: usize) -> [usize; 6] {
    [needed, needed + 1, needed + 19, needed - 1, needed / 2, 0]
}

fn each_room(cases: &mut Vec<Case>, chance: &mut Chance, n: usize) {
    for trees in [0, 1, 3] {
        let (leaves, entries) = lists::of_trees(chance, n, trees);
        for room in rooms_around(implied_length(n, trees)) {
            let out = rooms::of_room(chance, room);
            cases.push(Case::WriteArchive { leaves, entries: entries.clone(), out });
        }
    }
    let archive = Draft::right(chance, n, 3).bytes();
    for room in rooms_around(n) {
        let out = rooms::of_room(chance, room);
        cases.push(read_into(&archive, 2, out));
    }
}

/// Each padding bit alone, in the record asked for and in the one behind it.
fn each_padding_bit(cases: &mut Vec<Case>, chance: &mut Chance, n: usize) {
    let right = Draft::right(chance, n, 2);
    for place in padding(n) {
        let mut draft = right.clone();
        draft.set_bit(0, place);
        for tree in [0, 1] {
            cases.push(read((draft.bytes(), tree), chance));
        }
        cases.push(view((draft.bytes(), 0)));
    }
}

/// A header and nothing behind it, with counts and numbers at their ends.
fn headers(cases: &mut Vec<Case>, chance: &mut Chance, n: usize) {
    for trees in [0, 1, MOST_TREES - 1, MOST_TREES] {
        let archive = Draft { leaves: n, trees, records: Vec::new() }.bytes();
        for tree in [0, 2_097_150, 2_097_151, u64::MAX] {
            cases.push(read((archive.clone(), tree), chance));
            cases.push(view((archive.clone(), tree)));
        }
    }
}

/// Two archives of which nothing agrees but the header, the length and record r, which
/// is right or not; the buffers are the same.
fn agreeing(cases: &mut Vec<Case>, chance: &mut Chance) {
    let n = chance.size_from(3);
    let mut draft = Draft::few(chance, n, 2);
    let tree = chance.index(draft.trees);
    if chance.one_in(3) {
        draft.scramble(chance, tree);
    }
    let mut other = draft.clone();
    for record in (0..draft.trees).filter(|&record| record != tree) {
        other.invert(record);
    }
    let out = rooms::enough(chance, n);
    for archive in [draft.bytes(), other.bytes()] {
        cases.push(read_into(&archive, tree as u64, out));
        cases.push(view((archive, tree as u64)));
    }
}
