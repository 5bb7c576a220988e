//! Cases of the clade table that follow a plan: each size, each room, exact numbers of
//! clades around powers of two, headers that are all there is, and large archives.
//!
//! 02, CR 4: "For archives of up to 64 leaves, build a table in a lent list of entries".

use super::archive_records::{damage_entry, damage_padding};
use super::chance::Chance;
use super::clade_archives::needs;
use super::drafts::Draft;
use super::{rooms, runs};
use crate::archive::MOST_TREES;
use crate::clades::MOST_LEAVES_OF_TABLE;
use crate::stream::Case;

/// Where arrays of fixed size may end.
const NUMBERS_OF_CLADES: [usize; 4] = [1024, 2048, 4096, 8192];

/// Random trees of 64 leaves, with some 40 new clades each.
const TREES_OF_LARGE: usize = 300;

pub fn add(cases: &mut Vec<Case>, chance: &mut Chance) {
    for n in 1..=MOST_LEAVES_OF_TABLE {
        each_size(cases, chance, n);
    }
    for n in [0, 1, 2, 3, 64, 65, 100, 1023, 1024, 1025, 2047] {
        headers(cases, chance, n);
    }
    for number in NUMBERS_OF_CLADES {
        for wanted in [number, number + 1] {
            let run = runs::with_clades(chance, wanted);
            each_room(cases, chance, &Draft::of_run(MOST_LEAVES_OF_TABLE, &run).bytes());
        }
    }
    most_trees(cases, chance);
    large(cases, chance);
}

fn push(cases: &mut Vec<Case>, chance: &mut Chance, archive: &[u8], room: usize) {
    cases.push(Case::CladeTable { archive: archive.to_vec(), out: rooms::of_room(chance, room) });
}

/// Exact, ample, short by one, none; and with an entry for every clade of every tree,
/// or all but one.
fn each_room(cases: &mut Vec<Case>, chance: &mut Chance, archive: &[u8]) {
    let (needed, all) = needs(archive).expect("the archive is right");
    for room in [needed, needed + 9, needed - 1, 0, all - 1, all] {
        push(cases, chance, archive, room);
    }
}

/// Trees near one, with exact room and short by one; and trees of every shape.
fn each_size(cases: &mut Vec<Case>, chance: &mut Chance, n: usize) {
    let near = Draft::of_run(n, &runs::near(chance, n, 25)).bytes();
    let (needed, _) = needs(&near).expect("the archive is right");
    push(cases, chance, &near, needed);
    push(cases, chance, &near, needed.saturating_sub(1));
    let any = Draft::right(chance, n, 12).bytes();
    let (needed, all) = needs(&any).expect("the archive is right");
    push(cases, chance, &any, needed + 3);
    push(cases, chance, &any, all);
}

/// A header and nothing behind it, and one byte behind it.
fn headers(cases: &mut Vec<Case>, chance: &mut Chance, n: usize) {
    for trees in [0, 1, MOST_TREES - 1, MOST_TREES] {
        let mut archive = Draft { leaves: n, trees, records: Vec::new() }.bytes();
        push(cases, chance, &archive, 2);
        archive.push(0);
        push(cases, chance, &archive, 2);
    }
}

/// "such an archive of four bytes may hold 2,097,151 trees": one entry, or none.
fn most_trees(cases: &mut Vec<Case>, chance: &mut Chance) {
    for leaves in [1, 2] {
        let archive = Draft { leaves, trees: MOST_TREES, records: Vec::new() }.bytes();
        for room in [0, 1, 2, MOST_TREES - 1, MOST_TREES] {
            push(cases, chance, &archive, room);
        }
    }
}

/// More than ten thousand different clades; then a fault in the last tree, whatever the
/// room; and a long run near one tree.
fn large(cases: &mut Vec<Case>, chance: &mut Chance) {
    let n = MOST_LEAVES_OF_TABLE;
    let draft = Draft::of_run(n, &runs::any(chance, n, TREES_OF_LARGE));
    each_room(cases, chance, &draft.bytes());
    let last = TREES_OF_LARGE - 1;
    let mut above = draft.clone();
    damage_entry(&mut above, chance, last);
    let mut padded = draft;
    damage_padding(&mut padded, chance, last);
    for archive in [above.bytes(), padded.bytes()] {
        for room in [0, 5000, TREES_OF_LARGE * (n - 1)] {
            push(cases, chance, &archive, room);
        }
    }
    let near = Draft::of_run(n, &runs::near(chance, n, 5 * TREES_OF_LARGE));
    each_room(cases, chance, &near.bytes());
}
