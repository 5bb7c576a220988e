//! The building rule against a slower reading of the same words, and the two
//! facts that 01 says follow from it.

mod common;

use second::building::{self, Merge};
use second::cases::chance::Chance;
use second::cases::vectors::of_size;
use second::every::vectors;
use second::order;
use second::tree::Tree;
use std::collections::{BTreeMap, BTreeSet};

/// Labels in one map by leaf and cluster, and all the labels each leaf has used.
/// The smallest one not used is searched for from 0 on.
fn merges_by_search(v: &[u16]) -> Vec<Merge> {
    let n = v.len();
    let mut label = BTreeMap::new();
    for leaf in 0..n {
        label.extend((0..leaf).map(|cluster| ((leaf, cluster), cluster)));
    }
    let mut used: Vec<BTreeSet<usize>> = (0..n).map(|leaf| (0..leaf).collect()).collect();
    let mut merges = Vec::new();
    let mut names: Vec<usize> = (0..n).collect();
    for _ in 1..n {
        let sees = |i: usize, a: usize| label.get(&(i, a)) == Some(&usize::from(v[i]));
        let pairs = names.iter().flat_map(|&i| names.iter().map(move |&a| (i, a)));
        let (i, a) = pairs.filter(|&(i, a)| sees(i, a)).max().unwrap();
        names.retain(|&name| name != i);
        for (j, used) in used.iter_mut().enumerate().skip(i + 1) {
            let fresh = (0..).find(|candidate| !used.contains(candidate)).unwrap();
            used.insert(fresh);
            label.insert((j, a), fresh);
        }
        merges.push(Merge { smaller: a, larger: i });
    }
    merges
}

#[test]
fn the_rule_read_in_two_ways_gives_the_same_merges() {
    for n in 1..=6 {
        for v in vectors(n) {
            assert_eq!(building::merges(&v), merges_by_search(&v), "{v:?}");
        }
    }
    let mut chance = Chance::from_seed(5);
    for _ in 0..40 {
        let n = chance.between(7, 40);
        let v = of_size(&mut chance, n);
        assert_eq!(building::merges(&v), merges_by_search(&v), "{v:?}");
    }
}

/// 01's slip: "In 0,0,2,2 the merge (2,3) comes first, yet leaf 2 does not count
/// it; its label 2 is the merge of 0 and 1."
#[test]
fn leaf_2_does_not_count_a_merge_it_cannot_see() {
    let merges = building::merges(&[0, 0, 2, 2]);
    let pairs: Vec<(usize, usize)> = merges.iter().map(|m| (m.smaller, m.larger)).collect();
    assert_eq!(pairs, [(2, 3), (0, 1), (0, 2)]);
}

/// The first fact. The tree forgets the order of merges, and the fact finds it.
#[test]
fn the_order_of_merges_depends_on_the_tree_alone() {
    for n in 1..=7 {
        for v in vectors(n) {
            let merges = building::merges(&v);
            assert_eq!(order::merges(&Tree::of_merges(&merges)), merges, "{v:?}");
        }
    }
}

/// Both facts, for larger trees of every shape that the cases use.
#[test]
fn the_vector_of_a_large_tree_is_found_again() {
    let mut chance = Chance::from_seed(6);
    for n in [8, 50, 200, 1023, 1024] {
        for _ in 0..12 {
            let v = of_size(&mut chance, n);
            let merges = building::merges(&v);
            let tree = Tree::of_merges(&merges);
            assert_eq!(order::merges(&tree), merges);
            assert_eq!(order::vector(&tree), v);
        }
    }
}

/// Document 001's ladder trees of four leaves, outermost leaf first.
#[test]
fn ladder_trees_of_document_001() {
    let ladders: [(&[u16], [usize; 4]); 3] = [
        (&[0, 0, 1, 2], [0, 1, 2, 3]),
        (&[0, 0, 1, 4], [3, 0, 1, 2]),
        (&[0, 0, 2, 1], [2, 0, 1, 3]),
    ];
    for (v, [a, b, c, d]) in ladders {
        let mut clades: BTreeSet<BTreeSet<usize>> =
            (0..4).map(|leaf| BTreeSet::from([leaf])).collect();
        clades.insert(BTreeSet::from([c, d]));
        clades.insert(BTreeSet::from([b, c, d]));
        clades.insert(BTreeSet::from([a, b, c, d]));
        assert_eq!(Tree::of_vector(v).clades(), clades);
    }
}
