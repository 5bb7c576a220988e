//! Cases of the archive's reader and of its view, by header, length and number.
//!
//! 02, CR 1: "the reader gives 2 under 4 bytes (place 4), 1, 2 when the length is not
//! the implied one (place: that length), 12 when r is not below the count (place r)".
//! Damage: each of these, and two of them at once.

use super::chance::Chance;
use super::drafts::{most_trees, Asked, Draft};
use super::rooms;
use crate::archive::{length_of_record, BYTES_OF_HEADER, MOST_TREES};
use crate::record::bits;
use crate::stream::{Case, Lent};
use crate::vector::MOST_LEAVES;

pub type Kind = fn(&mut Chance) -> Asked;

/// Each kind, and how often it is used with each of the two calls.
const KINDS: [(Kind, usize); 17] = [
    (right, 150),
    (as_many_as_fit, 16),
    (no_trees, 20),
    (under_four_bytes, 40),
    (leaf_count_out_of_range, 60),
    (other_leaf_count, 40),
    (all_but_the_leaf_count_wrong_too, 20),
    (one_byte_short, 40),
    (one_byte_long, 40),
    (far_too_short, 30),
    (far_too_long, 20),
    (tree_count_off_by_one, 50),
    (tree_count_far_off, 50),
    (wrong_length_and_no_such_tree, 40),
    (no_such_tree, 100),
    (header_alone, 40),
    (any_bytes, 50),
];

pub fn add(cases: &mut Vec<Case>, chance: &mut Chance) {
    add_kinds(cases, chance, &KINDS);
}

pub fn add_kinds(cases: &mut Vec<Case>, chance: &mut Chance, kinds: &[(Kind, usize)]) {
    for &(kind, times) in kinds {
        for _ in 0..times {
            let asked = kind(chance);
            cases.push(read(asked, chance));
            let asked = kind(chance);
            cases.push(view(asked));
        }
    }
}

pub fn read((archive, tree): Asked, chance: &mut Chance) -> Case {
    let front = format!("{:0<32}", bits(&archive));
    let n = usize::from_str_radix(&front[..11], 2).expect("eleven bits");
    Case::ReadTree { archive, tree, out: rooms::lent(chance, n.min(MOST_LEAVES)) }
}

pub fn read_into(archive: &[u8], tree: u64, out: Lent) -> Case {
    Case::ReadTree { archive: archive.to_vec(), tree, out }
}

pub fn view((archive, tree): Asked) -> Case {
    Case::View { archive, tree }
}

fn right(chance: &mut Chance) -> Asked {
    let (draft, tree) = Draft::some(chance, 1, 1);
    draft.asked(tree)
}

fn as_many_as_fit(chance: &mut Chance) -> Asked {
    let n = chance.one_of(&[3, 3, 4, 5, 6, 9, 33, 100, 1023, 1024, 1024]);
    let draft = Draft::right(chance, n, most_trees(n));
    let tree = chance.index(draft.trees);
    draft.asked(tree)
}

fn no_trees(chance: &mut Chance) -> Asked {
    let n = chance.size();
    let tree = chance.one_of(&[0, 0, 1, MOST_TREES as u64, u64::MAX]);
    (Draft::right(chance, n, 0).bytes(), tree)
}

/// The front of a right archive, or any bytes.
fn under_four_bytes(chance: &mut Chance) -> Asked {
    let length = chance.below(BYTES_OF_HEADER);
    let (mut archive, tree) = right(chance);
    if chance.one_in(2) {
        archive.fill(chance.byte());
    }
    archive.truncate(length);
    (archive, tree)
}

fn leaf_count_out_of_range(chance: &mut Chance) -> Asked {
    let (mut draft, tree) = Draft::some(chance, 1, 1);
    let any = chance.between(1025, 2047);
    draft.leaves = chance.one_of(&[0, 0, 1025, 1025, 2047, any]);
    draft.asked(tree)
}

fn other_leaf_count(chance: &mut Chance) -> Asked {
    let (mut draft, tree) = Draft::some(chance, 1, 1);
    let n = draft.leaves;
    let other = chance.one_of(&[n - 1, n + 1, n + 1, 2 * n, MOST_LEAVES, 1]);
    draft.leaves = other.clamp(1, MOST_LEAVES);
    draft.asked(tree)
}

/// 1 comes before a wrong length, a tree that is not there, and records at fault.
fn all_but_the_leaf_count_wrong_too(chance: &mut Chance) -> Asked {
    let (mut draft, tree) = Draft::some(chance, 3, 1);
    draft.scramble(chance, tree);
    draft.leaves = chance.one_of(&[0, 1025, 2047]);
    draft.trees = chance.one_of(&[0, draft.trees + 1, MOST_TREES]);
    (draft.bytes(), chance.one_of(&[0, draft.trees as u64, u64::MAX]))
}

fn one_byte_short(chance: &mut Chance) -> Asked {
    let (draft, tree) = Draft::some(chance, 3, 1);
    let (mut archive, tree) = draft.asked(tree);
    archive.pop();
    (archive, tree)
}

fn one_byte_long(chance: &mut Chance) -> Asked {
    let (mut archive, tree) = right(chance);
    archive.push(chance.one_of(&[0, 0, 255]));
    (archive, tree)
}

/// Four bytes or more are left, or a whole record is missing.
fn far_too_short(chance: &mut Chance) -> Asked {
    let (draft, tree) = Draft::some(chance, 3, 1);
    let (mut archive, tree) = draft.asked(tree);
    let length = archive.len();
    let shorter = [length - length_of_record(draft.leaves), chance.between(4, length - 1), 4];
    archive.truncate(chance.one_of(&shorter));
    (archive, tree)
}

/// A record too many, or any number of bytes.
fn far_too_long(chance: &mut Chance) -> Asked {
    let (draft, tree) = Draft::some(chance, 1, 1);
    let (mut archive, tree) = draft.asked(tree);
    let more = [length_of_record(draft.leaves).max(1), chance.between(2, 300)];
    archive.resize(archive.len() + chance.one_of(&more), 0);
    (archive, tree)
}

fn tree_count_off_by_one(chance: &mut Chance) -> Asked {
    let (mut draft, tree) = Draft::some(chance, 1, 1);
    draft.trees = chance.one_of(&[draft.trees - 1, draft.trees + 1]);
    draft.asked(tree)
}

/// Some of these imply a length that is right when its upper bits are lost.
fn tree_count_far_off(chance: &mut Chance) -> Asked {
    let (mut draft, tree) = Draft::some(chance, 1, 2);
    let trees = draft.trees;
    draft.trees = chance.one_of(&[0, MOST_TREES, MOST_TREES, trees + 65536, trees + (1 << 20)]);
    draft.asked(tree)
}

/// Numbers that are not below a count of trees; some are below it when their upper
/// bits are lost.
pub fn too_large(chance: &mut Chance, trees: usize) -> u64 {
    let count = trees as u64;
    let below = chance.below(trees.max(1)) as u64;
    let near = [count, count, count + 1, MOST_TREES as u64, (1 << 16) + below, (1 << 21) + below];
    let far = [(1 << 32) + below, (1 << 32) + below, 1 << 63, (1 << 63) + below, u64::MAX];
    if chance.one_in(2) {
        chance.one_of(&near)
    } else {
        chance.one_of(&far)
    }
}

fn no_such_tree(chance: &mut Chance) -> Asked {
    let (draft, _) = Draft::some(chance, 1, 1);
    (draft.bytes(), too_large(chance, draft.trees))
}

fn wrong_length_and_no_such_tree(chance: &mut Chance) -> Asked {
    let (draft, _) = Draft::some(chance, 3, 1);
    let mut archive = draft.bytes();
    let length = archive.len();
    archive.resize(chance.one_of(&[length - 1, length + 1]), 0);
    (archive, too_large(chance, draft.trees))
}

/// Records without bytes: the header is the archive, whatever its count; and here and
/// there a byte too many.
fn header_alone(chance: &mut Chance) -> Asked {
    let trees = chance.one_of(&[1, 2, 1000, 65536, MOST_TREES - 1, MOST_TREES]);
    let leaves = chance.between(1, 2);
    let mut archive = Draft { leaves, trees, records: Vec::new() }.bytes();
    if chance.one_in(6) {
        archive.push(0);
    }
    let any = chance.below(trees);
    let tree = chance.one_of(&[0, trees - 1, trees, any, MOST_TREES - 1, MOST_TREES]);
    (archive, tree as u64)
}

/// A header that may be right, and any bytes behind it.
fn any_bytes(chance: &mut Chance) -> Asked {
    let (leaves, trees) = (chance.between(0, 9), chance.below(8));
    let mut archive = Draft { leaves, trees, records: Vec::new() }.bytes();
    let more = chance.below(12);
    archive.extend((0..more).map(|_| chance.byte()));
    (archive, chance.below(8) as u64)
}
