//! Queue Shuffle and relabelling, by the clades of the trees.

mod common;

use common::*;
use second::cases::chance::Chance;
use second::cases::permutations::any;
use second::cases::vectors::of_size;
use second::every::vectors;
use second::tree::{Leaves, Tree};
use std::collections::BTreeSet;

/// The clades of a vector's tree, leaf x called new[x].
fn renamed_clades(v: &[u16], new: &[u16]) -> BTreeSet<Leaves> {
    let clades = Tree::of_vector(v).clades();
    let rename = |clade: Leaves| clade.iter().map(|&x| usize::from(new[x])).collect();
    clades.into_iter().map(rename).collect()
}

fn clades(v: &[u16]) -> BTreeSet<Leaves> {
    Tree::of_vector(v).clades()
}

fn check_shuffle(v: &[u16]) {
    let (new, shuffled) = shuffle(v);
    let mut sorted = new.clone();
    sorted.sort_unstable();
    let all: Vec<u16> = (0..v.len() as u16).collect();
    assert_eq!(sorted, all, "new is a permutation");
    assert!(shuffled.iter().enumerate().skip(1).all(|(i, &entry)| usize::from(entry) < i));
    assert_eq!(clades(&shuffled), renamed_clades(v, &new));
}

#[test]
fn shuffled_trees_are_ordered_and_the_same_but_for_names() {
    for v in (1..=7).flat_map(vectors) {
        check_shuffle(&v);
    }
    let mut chance = Chance::from_seed(8);
    for n in [20, 60, 150] {
        for _ in 0..10 {
            check_shuffle(&of_size(&mut chance, n));
        }
    }
}

/// Levels come one after another, so the leaves of a full tree get their labels as
/// the levels give them: new is known without a queue.
#[test]
fn a_full_tree_is_labelled_level_by_level() {
    let v = of_text("(((0,1),(2,3)),((4,5),(6,7)));");
    let (new, _) = shuffle(&v);
    assert_eq!(new, [0, 4, 2, 5, 1, 6, 3, 7]);
    // The child with the smaller least leaf keeps the label, wherever it stands.
    let v = of_text("((7,(6,0)),(3,(5,(4,(2,1)))));");
    let (new, _) = shuffle(&v);
    assert_eq!(new, [0, 1, 7, 3, 6, 5, 4, 2]);
}

/// A shuffled tree stays as it is.
#[test]
fn a_second_shuffle_changes_nothing() {
    for v in (1..=6).flat_map(vectors) {
        let (_, once) = shuffle(&v);
        let (new, twice) = shuffle(&once);
        assert_eq!(twice, once);
        assert!(new.iter().enumerate().all(|(x, &label)| usize::from(label) == x));
    }
}

/// Every permutation of 0 to n-1.
fn permutations(n: u16) -> Vec<Vec<u16>> {
    let mut all = vec![Vec::new()];
    for value in 0..n {
        let places =
            |p: &Vec<u16>| (0..=p.len()).map(|k| [&p[..k], &[value], &p[k..]].concat()).collect();
        all = all.iter().flat_map(|p| -> Vec<Vec<u16>> { places(p) }).collect();
    }
    all
}

#[test]
fn relabelling_renames_the_clades() {
    assert_eq!(permutations(5).into_iter().collect::<BTreeSet<_>>().len(), 120);
    for n in 1..=5 {
        for v in vectors(n) {
            for p in permutations(n as u16) {
                assert_eq!(clades(&relabel(&v, &p)), renamed_clades(&v, &p));
            }
        }
    }
    let mut chance = Chance::from_seed(9);
    for n in [6, 40, 150] {
        for _ in 0..10 {
            let v = of_size(&mut chance, n);
            let p = any(&mut chance, n);
            assert_eq!(clades(&relabel(&v, &p)), renamed_clades(&v, &p));
        }
    }
}

/// The shuffled vector is the vector relabelled by new.
#[test]
fn shuffling_is_relabelling_by_new() {
    for v in (1..=6).flat_map(vectors) {
        let (new, shuffled) = shuffle(&v);
        assert_eq!(relabel(&v, &new), shuffled);
    }
}
