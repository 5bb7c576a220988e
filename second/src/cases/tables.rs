//! Cases of the reader of merge tables.
//!
//! 01: "Table: 1, 2 (length not 3(n-1)), rows upward with 5, 6, 7 in each, 3." The
//! reader "takes any order where row t has parent n+t, both children below n+t,
//! and no child named twice; children may stand either way round".

use super::chance::Chance;
use super::{rooms, vectors};
use crate::building::merges;
use crate::stream::Case;
use crate::table::rows;
use crate::vector::element;

pub type Table = (u64, Vec<u16>);
type Kind = fn(&mut Chance) -> Table;

/// Each kind, and how often it is used.
const KINDS: [(Kind, usize); 16] = [
    (as_written, 120),
    (joined_by_chance, 120),
    (in_another_order, 120),
    (wrong_leaf_count, 80),
    (leaf_count_out_of_range, 60),
    (leaf_count_1025, 5),
    (wrong_length, 90),
    (wrong_parent, 80),
    (parents_one_too_high, 20),
    (child_too_high, 80),
    (child_of_a_later_row, 40),
    (child_twice_in_a_row, 50),
    (child_of_an_earlier_row, 70),
    (two_faults_in_a_row, 60),
    (two_rows_at_fault, 60),
    (any_numbers, 60),
];

pub fn add(cases: &mut Vec<Case>, chance: &mut Chance) {
    for (kind, times) in KINDS {
        for _ in 0..times {
            let (leaves, rows) = kind(chance);
            let out = rooms::lent(chance, rows.len() / 3 + 1);
            cases.push(Case::FromTable { leaves, rows, out });
        }
    }
}

fn table(rows: Vec<u16>) -> Table {
    (rows.len() as u64 / 3 + 1, rows)
}

/// The table that we write for a vector.
fn as_written(chance: &mut Chance) -> Table {
    table(rows(&merges(&vectors::right(chance))))
}

/// Any two nodes that stand are joined, so the rows keep no order of merges.
fn joined_by_chance(chance: &mut Chance) -> Table {
    let n = chance.size();
    joined(chance, n)
}

pub fn joined(chance: &mut Chance, n: usize) -> Table {
    let mut standing: Vec<usize> = (0..n).collect();
    let mut rows = Vec::new();
    for t in 0..n - 1 {
        let first = standing.swap_remove(chance.below(standing.len()));
        let second = standing.swap_remove(chance.below(standing.len()));
        rows.extend([first, second, n + t].map(element));
        standing.push(n + t);
    }
    table(rows)
}

/// The rows of a right table in another order that is accepted, the children
/// either way round: a row may come when its children stand.
fn in_another_order(chance: &mut Chance) -> Table {
    let (leaves, old_rows) = as_written(chance);
    let n = leaves as usize;
    let mut waiting: Vec<&[u16]> = old_rows.chunks(3).collect();
    let mut number: Vec<Option<u16>> = (0..n).map(|leaf| Some(element(leaf))).collect();
    number.resize(2 * n, None);
    let mut rows = Vec::new();
    while !waiting.is_empty() {
        let k = chance.below(waiting.len());
        let (first, second) =
            (number[usize::from(waiting[k][0])], number[usize::from(waiting[k][1])]);
        if let (Some(first), Some(second)) = (first, second) {
            let row = waiting.swap_remove(k);
            let parent = element(n + rows.len() / 3);
            number[usize::from(row[2])] = Some(parent);
            let children = if chance.one_in(2) { [first, second] } else { [second, first] };
            rows.extend(children);
            rows.push(parent);
        }
    }
    table(rows)
}

/// A right table with at least so many rows.
fn with_rows(chance: &mut Chance, least: usize) -> Table {
    let n = chance.size_from(least + 1);
    joined(chance, n)
}

fn wrong_leaf_count(chance: &mut Chance) -> Table {
    let (n, rows) = joined_by_chance(chance);
    let wrong = [1, n - 1, n + 1, n + 2, 2 * n, 1024];
    (chance.one_of(&wrong), rows)
}

fn leaf_count_out_of_range(chance: &mut Chance) -> Table {
    let (_, rows) = joined_by_chance(chance);
    let wrong = [0, 1025, 65536, 65537, 1 << 32, (1 << 32) - 1, (1 << 32) + 3, 1 << 63, u64::MAX];
    (chance.one_of(&wrong), rows)
}

/// A table right in all but its size.
fn leaf_count_1025(chance: &mut Chance) -> Table {
    joined(chance, 1025)
}

fn wrong_length(chance: &mut Chance) -> Table {
    let (leaves, mut rows) = joined_by_chance(chance);
    let length = rows.len();
    let wrong = match chance.below(7) {
        0 => length.saturating_sub(1),
        1 => length + 1,
        2 => length.saturating_sub(3),
        3 => length + 3,
        4 => 0,
        5 => chance.below(length + 1),
        _ => length + 2,
    };
    rows.resize(wrong, 0);
    (leaves, rows)
}

fn wrong_parent(chance: &mut Chance) -> Table {
    let (leaves, mut rows) = with_rows(chance, 1);
    let t = chance.index(rows.len() / 3);
    let parent = rows[3 * t + 2];
    rows[3 * t + 2] = chance.one_of(&[parent - 1, parent + 1, 0, 65535, element(t)]);
    (leaves, rows)
}

/// 01's slip: "Numbering a parent n+t+1".
fn parents_one_too_high(chance: &mut Chance) -> Table {
    let (leaves, mut rows) = with_rows(chance, 1);
    let first = chance.below(rows.len() / 3);
    for row in rows.chunks_mut(3).skip(first) {
        row[2] += 1;
    }
    (leaves, rows)
}

fn child_too_high(chance: &mut Chance) -> Table {
    let (leaves, mut rows) = with_rows(chance, 1);
    let t = chance.index(rows.len() / 3);
    let parent = rows[3 * t + 2];
    rows[3 * t + chance.below(2)] = chance.one_of(&[parent, parent, parent + 1, 65535, 2047]);
    (leaves, rows)
}

/// A row stands before the rows of its children.
fn child_of_a_later_row(chance: &mut Chance) -> Table {
    let (leaves, mut rows) = with_rows(chance, 2);
    let count = rows.len() / 3;
    let t = chance.below(count - 1);
    rows.swap(3 * t, 3 * t + 3);
    rows.swap(3 * t + 1, 3 * t + 4);
    (leaves, rows)
}

fn child_twice_in_a_row(chance: &mut Chance) -> Table {
    let (leaves, mut rows) = with_rows(chance, 1);
    let t = chance.index(rows.len() / 3);
    let kept = chance.below(2);
    rows[3 * t + 1 - kept] = rows[3 * t + kept];
    (leaves, rows)
}

fn child_of_an_earlier_row(chance: &mut Chance) -> Table {
    let (leaves, mut rows) = with_rows(chance, 2);
    let t = chance.between(1, rows.len() / 3 - 1);
    let earlier = chance.below(t);
    rows[3 * t + chance.below(2)] = rows[3 * earlier + chance.below(2)];
    (leaves, rows)
}

/// Faults of two numbers in one row: 5 before 6 before 7.
fn two_faults_in_a_row(chance: &mut Chance) -> Table {
    let (leaves, mut rows) = child_twice_in_a_row(chance);
    let t = chance.index(rows.len() / 3);
    let parent = rows[3 * t + 2];
    match chance.below(3) {
        0 => rows[3 * t + 2] = parent + 1,
        1 => rows[3 * t..3 * t + 2].fill(parent),
        _ => rows[3 * t..3 * t + 3].fill(parent + 1),
    }
    (leaves, rows)
}

/// An earlier row's fault of a later number, and the other way about.
fn two_rows_at_fault(chance: &mut Chance) -> Table {
    let (leaves, mut rows) = child_of_an_earlier_row(chance);
    let t = chance.index(rows.len() / 3);
    let parent = rows[3 * t + 2];
    rows[3 * t + chance.below(3)] = chance.one_of(&[parent + 1, 65535]);
    (leaves, rows)
}

/// Numbers that are in range for the most part, and mean nothing.
fn any_numbers(chance: &mut Chance) -> Table {
    let (leaves, mut rows) = with_rows(chance, 1);
    let n = leaves as usize;
    for (t, row) in rows.chunks_mut(3).enumerate() {
        row[0] = element(chance.below(n + t));
        row[1] = element(chance.below(n + t));
    }
    (leaves, rows)
}
