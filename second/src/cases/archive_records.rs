//! Cases of the archive's reader and of its view, by what its records hold.
//!
//! 02, CR 1: "then 4 and 10 with 01's places within the record". Damage: an entry
//! above its bound or a padding bit, in record r and in another one, and together
//! with a fault that comes before it.

use super::archives::{add_kinds, too_large, Kind};
use super::chance::Chance;
use super::drafts::{padding, Asked, Draft};
use crate::stream::Case;
use crate::vector::bound;

/// Each kind, and how often it is used with each of the two calls.
const KINDS: [(Kind, usize); 10] = [
    (entry_one_above, 80),
    (entry_all_ones, 50),
    (two_entries_above, 40),
    (padding_bit, 50),
    (entry_above_and_padding_bit, 40),
    (fault_in_another_record, 80),
    (fault_here_and_in_another_record, 40),
    (wrong_length_and_bad_record, 40),
    (no_such_tree_and_bad_records, 40),
    (any_records, 50),
];

pub fn add(cases: &mut Vec<Case>, chance: &mut Chance) {
    add_kinds(cases, chance, &KINDS);
}

/// An entry from 2 on; the first and the last have a fair share.
fn some_entry(chance: &mut Chance, n: usize) -> usize {
    2 + chance.index(n - 2)
}

fn entry_one_above(chance: &mut Chance) -> Asked {
    let (mut draft, tree) = Draft::some(chance, 3, 1);
    let i = some_entry(chance, draft.leaves);
    draft.set_entry(tree, i, bound(i) + 1);
    draft.asked(tree)
}

fn entry_all_ones(chance: &mut Chance) -> Asked {
    let (mut draft, tree) = Draft::some(chance, 3, 1);
    let i = some_entry(chance, draft.leaves);
    draft.fill_entry(tree, i);
    draft.asked(tree)
}

/// "Of one number, the first place counts."
fn two_entries_above(chance: &mut Chance) -> Asked {
    let (mut draft, tree) = Draft::some(chance, 4, 1);
    for _ in 0..2 {
        let i = some_entry(chance, draft.leaves);
        draft.set_entry(tree, i, bound(i) + 1);
    }
    draft.asked(tree)
}

fn padding_bit(chance: &mut Chance) -> Asked {
    let (mut draft, tree) = Draft::some_padded(chance, 1);
    damage_padding(&mut draft, chance, tree);
    draft.asked(tree)
}

/// 4 comes before 10.
fn entry_above_and_padding_bit(chance: &mut Chance) -> Asked {
    let (mut draft, tree) = Draft::some_padded(chance, 1);
    damage_entry(&mut draft, chance, tree);
    damage_padding(&mut draft, chance, tree);
    draft.asked(tree)
}

pub fn damage_entry(draft: &mut Draft, chance: &mut Chance, tree: usize) {
    let i = some_entry(chance, draft.leaves);
    if chance.one_in(2) {
        draft.set_entry(tree, i, bound(i) + 1);
    } else {
        draft.fill_entry(tree, i);
    }
}

pub fn damage_padding(draft: &mut Draft, chance: &mut Chance, tree: usize) {
    let places = padding(draft.leaves);
    draft.set_bit(tree, places.start + chance.below(places.len()));
}

/// Another tree than the one asked for; there are two or more.
fn another(chance: &mut Chance, draft: &Draft, tree: usize) -> usize {
    let next = (tree + 1) % draft.trees;
    let before = (tree + draft.trees - 1) % draft.trees;
    chance.one_of(&[next, before])
}

/// Tree r is done, whatever the other records hold.
fn fault_in_another_record(chance: &mut Chance) -> Asked {
    let (mut draft, tree) = Draft::some_padded(chance, 2);
    let other = another(chance, &draft, tree);
    match chance.below(3) {
        0 => damage_entry(&mut draft, chance, other),
        1 => damage_padding(&mut draft, chance, other),
        _ => draft.scramble(chance, other),
    }
    draft.asked(tree)
}

/// The fault of record r is told, in front of the other or behind it.
fn fault_here_and_in_another_record(chance: &mut Chance) -> Asked {
    let (mut draft, tree) = Draft::some_padded(chance, 2);
    let other = another(chance, &draft, tree);
    let (first, second) = if chance.one_in(2) { (tree, other) } else { (other, tree) };
    damage_entry(&mut draft, chance, first);
    damage_padding(&mut draft, chance, second);
    draft.asked(tree)
}

fn wrong_length_and_bad_record(chance: &mut Chance) -> Asked {
    let (mut archive, tree) =
        if chance.one_in(2) { entry_all_ones(chance) } else { padding_bit(chance) };
    archive.push(0);
    (archive, tree)
}

fn no_such_tree_and_bad_records(chance: &mut Chance) -> Asked {
    let (mut draft, _) = Draft::some_padded(chance, 1);
    for tree in 0..draft.trees {
        draft.set_bit(tree, padding(draft.leaves).start);
        draft.fill_entry(tree, 2);
    }
    (draft.bytes(), too_large(chance, draft.trees))
}

/// A right header and length; records by chance.
fn any_records(chance: &mut Chance) -> Asked {
    let (mut draft, tree) = Draft::some(chance, 3, 1);
    for tree in 0..draft.trees {
        draft.scramble(chance, tree);
    }
    draft.asked(tree)
}
