//! Cases of the archive's writer.
//!
//! 02, CR 1: "the writer gives 1, 21 for more than 2,097,151 times n entries (place
//! 2097151), 2 when the list is not whole vectors (place: next multiple of n), 4
//! (place: index in the list), 3." Damage: leaf counts out of range, entries missing
//! or left over, an entry above its bound in any of the trees. No list of a stream is
//! long enough for 21.

use super::chance::Chance;
use super::drafts::most_trees;
use super::{rooms, vectors};
use crate::archive::{implied_length, BYTES_OF_HEADER};
use crate::stream::{Case, LONGEST};
use crate::vector::{bound, element, leaf_count, MOST_LEAVES};

/// The leaf count, and the entries of all trees in one list.
pub type List = (u64, Vec<u16>);
type Kind = fn(&mut Chance) -> List;

/// Each kind, and how often it is used.
const KINDS: [(Kind, usize); 17] = [
    (right, 200),
    (no_trees, 20),
    (one_tree, 40),
    (as_many_as_fit, 20),
    (more_than_any_room, 6),
    (entry_at_its_bound, 50),
    (entry_one_above, 120),
    (entry_far_above, 60),
    (first_not_zero, 60),
    (two_faults, 60),
    (leaf_count_out_of_range, 80),
    (leaf_count_out_of_range_and_no_entries, 20),
    (other_leaf_count, 60),
    (one_entry_less_or_more, 80),
    (part_of_a_vector, 50),
    (not_whole_and_above_bounds, 60),
    (any_entries, 40),
];

pub fn add(cases: &mut Vec<Case>, chance: &mut Chance) {
    for (kind, times) in KINDS {
        for _ in 0..times {
            let list = kind(chance);
            cases.push(case(list, chance));
        }
    }
}

/// The room is chosen as if the last vector were whole and all entries right.
fn case((leaves, entries): List, chance: &mut Chance) -> Case {
    let needed = match leaf_count(leaves) {
        Ok(n) => implied_length(n, entries.chunks(n).len()),
        Err(_) => BYTES_OF_HEADER,
    };
    let out = rooms::lent(chance, needed);
    Case::WriteArchive { leaves, entries, out: rooms::at_most(LONGEST, out) }
}

/// Right vectors of n leaves, one behind the other.
pub fn of_trees(chance: &mut Chance, n: usize, trees: usize) -> List {
    (n as u64, (0..trees).flat_map(|_| vectors::of_size(chance, n)).collect())
}

fn right(chance: &mut Chance) -> List {
    let n = chance.size();
    let trees = chance.between(0, 5);
    of_trees(chance, n, trees)
}

/// A right list of at least so many leaves in each tree.
fn of_leaves_from(chance: &mut Chance, least: usize) -> List {
    let n = chance.size_from(least);
    let trees = chance.between(1, 5);
    of_trees(chance, n, trees)
}

fn no_trees(chance: &mut Chance) -> List {
    (chance.size() as u64, Vec::new())
}

fn one_tree(chance: &mut Chance) -> List {
    let n = chance.size();
    of_trees(chance, n, 1)
}

/// As many trees as a list and a buffer of a stream have room for.
fn as_many_as_fit(chance: &mut Chance) -> List {
    let n = chance.one_of(&[1, 1, 2, 3, 3, 4, 5, 6, 9, 33, 100, 1023, 1024, 1024]);
    let in_room = if n < 3 { LONGEST } else { most_trees(n) };
    of_trees(chance, n, in_room.min(LONGEST / n))
}

/// Right lists whose archive is longer than any buffer lent: 3.
fn more_than_any_room(chance: &mut Chance) -> List {
    let n = chance.one_of(&[1023, 1024]);
    of_trees(chance, n, LONGEST / n)
}

/// The index in the list of an entry of some tree, and its bound. The first and the
/// last tree have a fair share, and so have the first and the last entry of a tree.
fn some_entry(chance: &mut Chance, (leaves, entries): &List) -> (usize, usize) {
    let n = *leaves as usize;
    let tree = chance.index(entries.len() / n);
    let i = chance.index(n);
    (tree * n + i, bound(i))
}

fn entry_at_its_bound(chance: &mut Chance) -> List {
    let mut list = of_leaves_from(chance, 1);
    let (index, most) = some_entry(chance, &list);
    list.1[index] = element(most);
    list
}

fn entry_one_above(chance: &mut Chance) -> List {
    let mut list = of_leaves_from(chance, 1);
    let (index, most) = some_entry(chance, &list);
    list.1[index] = element(most + 1);
    list
}

fn entry_far_above(chance: &mut Chance) -> List {
    let mut list = of_leaves_from(chance, 1);
    let (index, _) = some_entry(chance, &list);
    list.1[index] = chance.one_of(&[65535, 65535, 32768, 2047, 2048]);
    list
}

/// v(0) or v(1) of some tree, for which a record has no bits.
fn first_not_zero(chance: &mut Chance) -> List {
    let mut list = of_leaves_from(chance, 1);
    let n = list.0 as usize;
    let tree = chance.index(list.1.len() / n);
    list.1[tree * n + chance.below(n.min(2))] = chance.one_of(&[1, 1, 2, 65535]);
    list
}

/// "Of one number, the first place counts."
fn two_faults(chance: &mut Chance) -> List {
    let mut list = entry_one_above(chance);
    let (index, most) = some_entry(chance, &list);
    list.1[index] = element(most + chance.between(1, 9));
    list
}

/// Some of these are right numbers when their upper bits are lost.
fn leaf_count_out_of_range(chance: &mut Chance) -> List {
    let (n, entries) = if chance.one_in(2) { right(chance) } else { any_entries(chance) };
    let wide = [1 << 32, (1 << 32) + n, (1 << 63) + n, u64::MAX, u64::MAX];
    let narrow = [0, 0, 1025, 1026, 2047, 2048 + n, (1 << 16) + n, 65535];
    let leaves = if chance.one_in(2) { chance.one_of(&wide) } else { chance.one_of(&narrow) };
    (leaves, entries)
}

fn leaf_count_out_of_range_and_no_entries(chance: &mut Chance) -> List {
    (chance.one_of(&[0, 1025, 1 << 32, u64::MAX]), Vec::new())
}

/// Right vectors cut up as those of another leaf count.
fn other_leaf_count(chance: &mut Chance) -> List {
    let (n, entries) = of_leaves_from(chance, 2);
    let most = MOST_LEAVES as u64;
    let leaves = chance.one_of(&[1, n - 1, n + 1, 2 * n, n / 2, most]);
    (leaves.min(most), entries)
}

fn one_entry_less_or_more(chance: &mut Chance) -> List {
    let (leaves, mut entries) = of_leaves_from(chance, 2);
    if chance.one_in(2) {
        entries.pop();
    } else {
        entries.push(0);
    }
    (leaves, entries)
}

/// n-1 entries, one entry, or any number below n.
fn part_of_a_vector(chance: &mut Chance) -> List {
    let n = chance.size_from(2);
    let (leaves, mut entries) = of_trees(chance, n, 1);
    let any = chance.between(1, n - 1);
    entries.truncate(chance.one_of(&[n - 1, 1, any]));
    (leaves, entries)
}

/// 2 comes before 4, wherever the entry at fault stands.
fn not_whole_and_above_bounds(chance: &mut Chance) -> List {
    let (leaves, mut entries) = one_entry_less_or_more(chance);
    let index = chance.index(entries.len());
    entries[index] = chance.one_of(&[65535, 2047, 2048]);
    (leaves, entries)
}

/// Whole vectors of small numbers that mean nothing.
fn any_entries(chance: &mut Chance) -> List {
    let n = chance.size();
    let length = n * chance.between(1, 3);
    let most = chance.one_of(&[1, 2, n, 2 * n]);
    (n as u64, (0..length).map(|_| element(chance.between(0, most))).collect())
}
