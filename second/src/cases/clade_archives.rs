//! Cases of the clade table on archives that are right, with lists of every room.
//!
//! 02, CR 4: "and last 15, exactly when there are more different clades than entries
//! lent (place: entries needed)".

use super::chance::Chance;
use super::drafts::Draft;
use super::{rooms, runs};
use crate::archive::MOST_TREES;
use crate::clades;
use crate::stream::{Case, Lent};

pub type Kind = fn(&mut Chance) -> Vec<u8>;

/// No list by chance has more entries; those by plan may.
const MOST_ROOM: usize = 40_000;

/// Each kind, and how often it is used.
const KINDS: [(Kind, usize); 7] = [
    (one_tree, 40),
    (few_trees, 60),
    (many_trees, 40),
    (trees_near_one, 70),
    (equal_trees, 30),
    (no_trees, 20),
    (header_alone, 24),
];

pub fn add(cases: &mut Vec<Case>, chance: &mut Chance) {
    add_kinds(cases, chance, &KINDS);
}

pub fn add_kinds(cases: &mut Vec<Case>, chance: &mut Chance, kinds: &[(Kind, usize)]) {
    for &(kind, times) in kinds {
        for _ in 0..times {
            let archive = kind(chance);
            let out = lent(chance, &archive);
            cases.push(Case::CladeTable { archive, out });
        }
    }
}

/// A list for the table of an archive: exact, ample, with an entry for every clade of
/// every tree, short by one, short, and none. A refused archive has no table, and its
/// list is often empty: 15 must not be given before its fault.
fn lent(chance: &mut Chance, archive: &[u8]) -> Lent {
    let room = match needs(archive) {
        Some((needed, all)) => room_for(chance, needed, all),
        None => chance.one_of(&[0, 1, 70, 500]),
    };
    rooms::of_room(chance, room.min(MOST_ROOM))
}

fn room_for(chance: &mut Chance, needed: usize, all: usize) -> usize {
    match chance.below(10) {
        0..=2 => needed,
        3 => needed + chance.between(1, 20),
        4..=5 => all,
        6 => all.saturating_sub(1),
        7 => needed.saturating_sub(1),
        8 => chance.below(needed + 1),
        _ => 0,
    }
}

/// The entries of the table, and what its counts add up to.
pub fn needs(archive: &[u8]) -> Option<(usize, usize)> {
    let table = clades::table(archive).ok()?;
    Some((table.len(), table.iter().map(|clade| clade.count as usize).sum()))
}

fn of_run(run: &[Vec<u16>]) -> Vec<u8> {
    Draft::of_run(run[0].len(), run).bytes()
}

fn one_tree(chance: &mut Chance) -> Vec<u8> {
    let n = runs::size(chance);
    Draft::right(chance, n, 1).bytes()
}

/// Trees of every shape.
fn few_trees(chance: &mut Chance) -> Vec<u8> {
    let n = runs::size(chance);
    Draft::few(chance, n, 2).bytes()
}

fn many_trees(chance: &mut Chance) -> Vec<u8> {
    let (n, trees) = (runs::size(chance), chance.between(20, 300));
    of_run(&runs::any(chance, n, trees))
}

fn trees_near_one(chance: &mut Chance) -> Vec<u8> {
    let (n, trees) = (runs::size(chance), chance.between(20, 300));
    of_run(&runs::near(chance, n, trees))
}

fn equal_trees(chance: &mut Chance) -> Vec<u8> {
    let (n, trees) = (runs::size(chance), chance.between(2, 300));
    of_run(&runs::equal(chance, n, trees))
}

/// "No trees, or n = 1: done with 0."
fn no_trees(chance: &mut Chance) -> Vec<u8> {
    let n = runs::size(chance);
    Draft::right(chance, n, 0).bytes()
}

/// Records without bytes: the header's count is believed.
fn header_alone(chance: &mut Chance) -> Vec<u8> {
    let trees = chance.one_of(&[1, 2, 1000, 65536, MOST_TREES - 1, MOST_TREES]);
    Draft { leaves: chance.between(1, 2), trees, records: Vec::new() }.bytes()
}
