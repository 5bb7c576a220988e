//! Cases of the clade table on archives that are refused: by their header, by their
//! length, by one tree or by two.
//!
//! 02, CR 4: "Refusals: the archive's header refusals, with 14 for n above 64 (place n)
//! directly after 1; then 4 and 10 tree by tree".

use super::archive_records::{damage_entry, damage_padding};
use super::chance::Chance;
use super::clade_archives::{add_kinds, Kind};
use super::drafts::{padding, Draft};
use super::runs;
use crate::archive::{BYTES_OF_HEADER, MOST_TREES};
use crate::clades::MOST_LEAVES_OF_TABLE;
use crate::stream::Case;

/// Each kind, and how often it is used.
const KINDS: [(Kind, usize); 16] = [
    (under_four_bytes, 24),
    (leaf_count_out_of_range, 24),
    (leaf_count_out_of_range_and_wrong_length, 20),
    (too_many_leaves, 24),
    (too_many_leaves_and_wrong_length, 24),
    (too_many_leaves_and_bad_tree, 20),
    (one_byte_off, 30),
    (any_length, 20),
    (tree_count_off, 30),
    (wrong_length_and_bad_tree, 24),
    (entry_above, 60),
    (padding_bit, 40),
    (entry_above_and_padding_bit, 30),
    (two_bad_trees, 60),
    (any_records, 30),
    (any_bytes, 30),
];

pub fn add(cases: &mut Vec<Case>, chance: &mut Chance) {
    add_kinds(cases, chance, &KINDS);
}

/// A right archive of some trees whose records have padding bits; the tree to damage
/// is often behind good ones.
fn some(chance: &mut Chance) -> (Draft, usize) {
    let mut n = runs::size(chance);
    while n < 3 || padding(n).is_empty() {
        n = chance.between(3, MOST_LEAVES_OF_TABLE);
    }
    let trees = chance.one_of(&[1, 2, 3, 5, 12, 60]);
    let run =
        if chance.one_in(2) { runs::any(chance, n, trees) } else { runs::near(chance, n, trees) };
    let tree = chance.index(trees);
    (Draft::of_run(n, &run), tree)
}

/// The front of a right archive, or any bytes.
fn under_four_bytes(chance: &mut Chance) -> Vec<u8> {
    let mut archive = some(chance).0.bytes();
    if chance.one_in(2) {
        archive.fill(chance.byte());
    }
    archive.truncate(chance.below(BYTES_OF_HEADER));
    archive
}

/// The header alone is another; the records stay.
fn leaf_count_out_of_range(chance: &mut Chance) -> Vec<u8> {
    let (mut draft, _) = some(chance);
    let any = chance.between(1025, 2047);
    draft.leaves = chance.one_of(&[0, 0, 1025, 1025, 2047, any]);
    draft.bytes()
}

/// 1 comes before the length, and 14 is not given for these.
fn leaf_count_out_of_range_and_wrong_length(chance: &mut Chance) -> Vec<u8> {
    let mut archive = leaf_count_out_of_range(chance);
    archive.push(0);
    archive
}

/// A right archive of too many leaves.
fn too_large(chance: &mut Chance) -> Draft {
    let any = chance.between(67, 1022);
    let n = chance.one_of(&[65, 65, 66, 100, any, 1023, 1024]);
    let trees = chance.between(0, 3);
    Draft::right(chance, n, trees)
}

fn too_many_leaves(chance: &mut Chance) -> Vec<u8> {
    too_large(chance).bytes()
}

/// 14 comes before the length.
fn too_many_leaves_and_wrong_length(chance: &mut Chance) -> Vec<u8> {
    let mut draft = too_large(chance);
    draft.trees = chance.one_of(&[draft.trees + 1, MOST_TREES]);
    let mut archive = draft.bytes();
    if chance.one_in(3) {
        archive.truncate(BYTES_OF_HEADER);
    }
    archive
}

fn too_many_leaves_and_bad_tree(chance: &mut Chance) -> Vec<u8> {
    let mut draft = too_large(chance);
    for tree in 0..draft.trees {
        draft.scramble(chance, tree);
    }
    draft.bytes()
}

fn one_byte_off(chance: &mut Chance) -> Vec<u8> {
    let mut archive = some(chance).0.bytes();
    if chance.one_in(2) {
        archive.pop();
    } else {
        archive.push(chance.one_of(&[0, 255]));
    }
    archive
}

/// Four bytes or more, and up to twice as many as there should be.
fn any_length(chance: &mut Chance) -> Vec<u8> {
    let mut archive = some(chance).0.bytes();
    let length = chance.between(BYTES_OF_HEADER, 2 * archive.len());
    archive.resize(length, 0);
    archive
}

/// Some of these imply a length that is right when its upper bits are lost.
fn tree_count_off(chance: &mut Chance) -> Vec<u8> {
    let (mut draft, _) = some(chance);
    let trees = draft.trees;
    draft.trees =
        chance.one_of(&[0, trees - 1, trees + 1, MOST_TREES, trees + 65536, trees + (1 << 20)]);
    draft.bytes()
}

fn wrong_length_and_bad_tree(chance: &mut Chance) -> Vec<u8> {
    let (mut draft, tree) = some(chance);
    damage(&mut draft, chance, tree);
    draft.trees += 1;
    draft.bytes()
}

fn damage(draft: &mut Draft, chance: &mut Chance, tree: usize) {
    if chance.one_in(2) {
        damage_entry(draft, chance, tree);
    } else {
        damage_padding(draft, chance, tree);
    }
}

fn entry_above(chance: &mut Chance) -> Vec<u8> {
    let (mut draft, tree) = some(chance);
    damage_entry(&mut draft, chance, tree);
    draft.bytes()
}

fn padding_bit(chance: &mut Chance) -> Vec<u8> {
    let (mut draft, tree) = some(chance);
    damage_padding(&mut draft, chance, tree);
    draft.bytes()
}

/// 4 comes before 10 in one record.
fn entry_above_and_padding_bit(chance: &mut Chance) -> Vec<u8> {
    let (mut draft, tree) = some(chance);
    damage_entry(&mut draft, chance, tree);
    damage_padding(&mut draft, chance, tree);
    draft.bytes()
}

/// "tree by tree": 10 in an earlier tree comes before 4 in a later one.
fn two_bad_trees(chance: &mut Chance) -> Vec<u8> {
    let (mut draft, tree) = some(chance);
    let other = chance.below(draft.trees);
    if chance.one_in(2) {
        damage_padding(&mut draft, chance, tree.min(other));
        damage_entry(&mut draft, chance, tree.max(other));
    } else {
        damage(&mut draft, chance, tree);
        damage(&mut draft, chance, other);
    }
    draft.bytes()
}

/// A right header and length; records by chance.
fn any_records(chance: &mut Chance) -> Vec<u8> {
    let (mut draft, _) = some(chance);
    for tree in 0..draft.trees {
        draft.scramble(chance, tree);
    }
    draft.bytes()
}

/// A header that may be right, and any bytes behind it.
fn any_bytes(chance: &mut Chance) -> Vec<u8> {
    let (leaves, trees) = (chance.between(0, 9), chance.below(8));
    let mut archive = Draft { leaves, trees, records: Vec::new() }.bytes();
    let more = chance.below(12);
    archive.extend((0..more).map(|_| chance.byte()));
    archive
}
