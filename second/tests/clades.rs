//! The clade table: its samples worked out by hand from 02, its refusals in their
//! order, what holds of every table, and the same clades found again in a text.

mod common;

use common::*;
use second::answer::Answer::Done;
use second::archive::MOST_TREES;
use second::calls::clade_table;
use second::cases::chance::Chance;
use second::cases::runs;
use second::clades::Clade;
use second::every::vectors;
use std::collections::BTreeMap;

fn clade(leaves: u64, size: u32, count: u32) -> Clade {
    Clade { leaves, size, count }
}

/// n and the tree count in 32 bits, and nothing behind them.
fn header(n: u32, trees: u32) -> Vec<u8> {
    (n << 21 | trees).to_be_bytes().to_vec()
}

/// 0,0,2 is ((0,1),2): {0,1} is 1 + 2, {0,1,2} is 1 + 2 + 4.
#[test]
fn one_tree_of_three_leaves() {
    let archive = [0x00, 0x60, 0x00, 0x01, 0x80];
    assert_eq!(common::archive(3, &[0, 0, 2]), archive);
    assert_eq!(clades_of(&archive), [clade(3, 2, 1), clade(7, 3, 1)]);
}

/// 0,0,1,4 is ((0,(1,2)),3) and 0,0,2,1 is ((0,(1,3)),2): only the whole is in both.
#[test]
fn two_trees_of_four_leaves() {
    let table = clades_of(&[0x00, 0x80, 0x00, 0x02, 0x60, 0x88]);
    let singly = [clade(6, 2, 1), clade(7, 3, 1), clade(10, 2, 1), clade(11, 3, 1)];
    assert_eq!(table[..4], singly);
    assert_eq!(table[4..], [clade(15, 4, 2)]);
}

/// ((0,1),2) twice and (0,(1,2)) once; 0,0,0 is ((0,2),1) and 0,0,1 is (0,(1,2)).
#[test]
fn trees_of_three_leaves_counted() {
    let archive = archive(3, &[0, 0, 2, 0, 0, 1, 0, 0, 2]);
    assert_eq!(clades_of(&archive), [clade(3, 2, 2), clade(6, 2, 1), clade(7, 3, 3)]);
    let archive = common::archive(3, &[0, 0, 0]);
    assert_eq!(clades_of(&archive), [clade(5, 2, 1), clade(7, 3, 1)]);
}

/// Entries rise as numbers, where sets of leaves would have {0,3} before {1,2}:
/// ((0,3),(1,2)) has 6, 9 and 15.
#[test]
fn entries_rise_as_numbers() {
    let v = of_text("((0,3),(1,2));");
    let table = clades_of(&archive(4, &v));
    assert_eq!(table, [clade(6, 2, 1), clade(9, 2, 1), clade(15, 4, 1)]);
}

/// A ladder with each leaf beside the one before: its clades are the last two leaves,
/// the last three, and so on.
#[test]
fn the_last_leaf_is_the_highest_bit() {
    let v: Vec<u16> = (0..64u16).map(|i| i.saturating_sub(1)).collect();
    let table = clades_of(&archive(64, &v));
    let wanted: Vec<Clade> = (2..=64).map(|size| clade(!0 << (64 - size), size, 1)).collect();
    assert_eq!(table, wanted);
    assert_eq!(table[62], clade(u64::MAX, 64, 1));
}

/// "No trees, or n = 1: done with 0."
#[test]
fn tables_without_entries() {
    for n in 1..=64 {
        assert_eq!(clades_of(&header(n, 0)), []);
    }
    for trees in [0, 1, 2, 2_097_151] {
        assert_eq!(clades_of(&header(1, trees)), []);
    }
}

#[test]
fn as_many_pairs_as_there_may_be() {
    assert_eq!(header(2, 2_097_151), [0x00, 0x5F, 0xFF, 0xFF]);
    assert_eq!(clades_of(&header(2, 2_097_151)), [clade(3, 2, MOST_TREES as u32)]);
    assert_eq!(clade_table(&header(2, 2_097_151), &mut []), refused(15, 1));
}

#[test]
fn headers_refused() {
    for length in 0..4 {
        assert_eq!(answer_of_clades(&header(2047, 0)[..length]), refused(2, 4));
    }
    for n in [0, 1025, 2047] {
        assert_eq!(answer_of_clades(&header(n, 0)), refused(1, 0));
        assert_eq!(answer_of_clades(&header(n, 7)), refused(1, 0));
    }
    for n in [65, 66, 100, 1023, 1024] {
        // Of no trees the length is right, of some it is not: 14 is said of both.
        assert_eq!(answer_of_clades(&header(n, 0)), refused(14, n as usize));
        assert_eq!(answer_of_clades(&header(n, 2_097_151)), refused(14, n as usize));
    }
}

/// A record of 64 leaves has 2 + 2 * 3 + 4 * 4 + 8 * 5 + 16 * 6 + 31 * 7 = 377 bits.
#[test]
fn lengths_refused() {
    assert_eq!(answer_of_clades(&header(64, 1)), refused(2, 52));
    assert_eq!(answer_of_clades(&header(64, 2_097_151)), refused(2, 4 + 48 * MOST_TREES));
    let two = [0x00, 0x80, 0x00, 0x02, 0x60, 0x88, 0x00];
    assert_eq!(answer_of_clades(&two[..5]), refused(2, 6));
    assert_eq!(answer_of_clades(&two), refused(2, 6));
    assert_eq!(answer_of_clades(&[header(2, 9), vec![0]].concat()), refused(2, 4));
}

/// v(2) in 2 bits, v(3) in 3, three bits of padding: 60 is right, A8 has v(3) = 5, 61
/// has padding, A9 has both. The first tree at fault is told, whatever comes behind it.
#[test]
fn trees_refused_one_by_one() {
    let of = |records: [u8; 3]| answer_of_clades(&[&header(4, 3)[..], &records].concat());
    assert_eq!(of([0x60, 0x88, 0x60]), Done(5));
    assert_eq!(of([0x60, 0xA8, 0x60]), refused(4, 3));
    assert_eq!(of([0x60, 0x61, 0xA8]), refused(10, 0));
    assert_eq!(of([0x60, 0xA8, 0x61]), refused(4, 3));
    assert_eq!(of([0x60, 0x60, 0xA9]), refused(4, 3));
    assert_eq!(of([0xE1, 0x61, 0x61]), refused(4, 2));
}

/// Faults of trees come before 15, and 15 writes nothing; what is behind a table stays.
#[test]
fn room_is_looked_at_last() {
    let two = [0x00, 0x80, 0x00, 0x02, 0x60, 0x88];
    let old: Vec<Clade> = (1..=7).map(|k| clade(1000 + k, 100, 10)).collect();
    for room in 0..=7 {
        let mut out = old[..room].to_vec();
        let answer = clade_table(&two, &mut out);
        if room < 5 {
            assert_eq!((answer, &out[..]), (refused(15, 5), &old[..room]));
        } else {
            assert_eq!(answer, Done(5));
            assert_eq!((out[0], &out[5..]), (clade(6, 2, 1), &old[5..room]));
        }
    }
    assert_eq!(clade_table(&[0x00, 0x80, 0x00, 0x01, 0xA8], &mut []), refused(4, 3));
    assert_eq!(clade_table(&[0x00, 0x80, 0x00, 0x01, 0x61], &mut []), refused(10, 0));
}

/// The sets between the brackets of a text, as numbers: another way to the clades.
fn sets_of_text(text: &str) -> Vec<u64> {
    let (mut open, mut sets) = (vec![0], Vec::new());
    for sign in text.replace('(', "( ").replace(')', " )").replace(',', " ").split(' ') {
        match sign {
            "(" => open.push(0),
            ")" | ");" => {
                let set = open.pop().unwrap();
                sets.push(set);
                *open.last_mut().unwrap() |= set;
            }
            label => {
                let leaf: u64 = label.trim_end_matches(';').parse().unwrap();
                *open.last_mut().unwrap() |= 1 << leaf;
            }
        }
    }
    sets
}

fn table_by_texts(run: &[Vec<u16>]) -> Vec<Clade> {
    let mut counts = BTreeMap::new();
    for v in run {
        for set in sets_of_text(&text(v)) {
            *counts.entry(set).or_insert(0) += 1;
        }
    }
    counts.into_iter().map(|(set, count)| clade(set, set.count_ones(), count)).collect()
}

fn table_of(run: &[Vec<u16>]) -> Vec<Clade> {
    clades_of(&archive(run[0].len() as u64, &run.concat()))
}

#[test]
fn the_same_clades_stand_in_the_texts() {
    let mut chance = Chance::from_seed(4);
    for n in 2..=64 {
        for run in [runs::any(&mut chance, n, 20), runs::near(&mut chance, n, 30)] {
            assert_eq!(table_of(&run), table_by_texts(&run), "{n} leaves");
        }
    }
}

/// Every vector of up to 6 leaves, alone and all together.
#[test]
fn tables_of_every_small_tree() {
    for n in 2..=6 {
        let all = vectors(n);
        for one in all.chunks(1) {
            assert_eq!(table_of(one), table_by_texts(one));
        }
        assert_eq!(table_of(&all), table_by_texts(&all));
    }
    // 4 leaves: 11 sets of two or more; of 15 trees 3 have a given pair.
    let table = table_of(&vectors(4));
    assert_eq!(table.len(), 11);
    assert!(table.iter().all(|c| c.count == [3, 3, 15][c.size as usize - 2]));
}

/// "The counts [..] add up to trees times (n-1)."
#[test]
fn counts_add_up() {
    let mut chance = Chance::from_seed(5);
    for n in [2, 3, 5, 17, 40, 64] {
        for trees in [1, 2, 50] {
            for run in [
                runs::any(&mut chance, n, trees),
                runs::near(&mut chance, n, trees),
                runs::equal(&mut chance, n, trees),
            ] {
                let table = table_of(&run);
                let sum: usize = table.iter().map(|clade| clade.count as usize).sum();
                assert_eq!(sum, trees * (n - 1));
                assert!(table.iter().all(|clade| (1..=trees).contains(&(clade.count as usize))));
            }
        }
    }
}
