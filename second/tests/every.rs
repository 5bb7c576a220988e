//! Every vector for n up to 7: no two have the same tree, text or record, and each
//! comes back from its table, its text and its record.

mod common;

use common::*;
use second::every::{self, vectors};
use second::tree::Tree;
use std::collections::BTreeSet;

fn every_vector() -> Vec<Vec<u16>> {
    (1..=7).flat_map(vectors).collect()
}

/// 1, 1, 3, 15, 105, 945, 10,395: the numbers of rooted binary trees (001).
#[test]
fn there_are_as_many_vectors_as_trees() {
    let counts: Vec<usize> = (1..=7).map(|n| vectors(n).len()).collect();
    assert_eq!(counts, [1, 1, 3, 15, 105, 945, 10395]);
    let all = every_vector();
    assert_eq!(all.iter().collect::<BTreeSet<_>>().len(), all.len());
    assert!(all.iter().all(|v| second::vector::accepted(v).is_ok()));
}

#[test]
fn no_two_vectors_share_a_tree() {
    for n in 1..=7 {
        let vectors = vectors(n);
        let trees: BTreeSet<_> = vectors.iter().map(|v| Tree::of_vector(v).clades()).collect();
        assert_eq!(trees.len(), vectors.len());
    }
}

#[test]
fn a_tree_of_n_leaves_has_2n_minus_1_clades() {
    for v in every_vector() {
        assert_eq!(Tree::of_vector(&v).clades().len(), 2 * v.len() - 1);
    }
}

#[test]
fn no_two_vectors_share_a_text_and_each_is_read_back() {
    let all = every_vector();
    let texts: BTreeSet<String> = all.iter().map(|v| text(v)).collect();
    assert_eq!(texts.len(), all.len());
    for v in all {
        assert_eq!(of_text(&text(&v)), v);
    }
}

#[test]
fn no_two_vectors_share_a_record_and_each_is_unpacked() {
    let all = every_vector();
    let records: BTreeSet<Vec<u8>> = all.iter().map(|v| record(v)).collect();
    assert_eq!(records.len(), all.len());
    for v in all {
        assert_eq!(of_record(&record(&v)), v);
    }
}

/// "Parent is n+t. A child is a leaf or an earlier row's parent", named once, "the
/// child with the smaller least leaf first".
#[test]
fn tables_are_numbered_as_01_says_and_read_back() {
    for v in every_vector() {
        let rows = table(&v);
        let n = v.len();
        let mut least: Vec<usize> = (0..n).collect();
        let mut children = BTreeSet::new();
        for (t, row) in rows.chunks(3).enumerate() {
            let [first, second, parent] = [0, 1, 2].map(|k| usize::from(row[k]));
            assert_eq!(parent, n + t);
            assert!(children.insert(first) && children.insert(second));
            assert!(least[first] < least[second]);
            least.push(least[first]);
        }
        assert_eq!(children.len(), 2 * (n - 1));
        assert_eq!(of_table(n as u64, &rows), v);
    }
}

/// "We write the child with the smaller least leaf first; the reader takes either."
#[test]
fn texts_are_of_the_same_tree_either_way_round() {
    for v in every_vector() {
        let turned = turned(&Tree::of_vector(&v));
        assert_eq!(of_text(&second::newick::text(&turned)), v);
    }
}

/// The children of every pair the other way round.
fn turned(tree: &Tree) -> Tree {
    match tree {
        Tree::Leaf(leaf) => Tree::Leaf(*leaf),
        Tree::Pair(first, second) => Tree::pair(turned(second), turned(first)),
    }
}

/// "We write the child with the smaller least leaf first": the first of all leaves
/// is 0, and the text of each inner node begins with its least label.
#[test]
fn texts_have_the_smaller_least_leaf_first() {
    for v in every_vector() {
        assert!(in_order(&Tree::of_vector(&v)));
        let text = text(&v);
        assert!(text.trim_start_matches('(').starts_with('0'), "{text}");
    }
}

fn in_order(tree: &Tree) -> bool {
    match tree {
        Tree::Leaf(_) => true,
        Tree::Pair(first, second) => {
            first.least_leaf() < second.least_leaf() && in_order(first) && in_order(second)
        }
    }
}

/// 1,070 vectors for n up to 6, ten lines each, in rising order.
#[test]
fn the_lines_hold_every_vector_in_order() {
    let lines = String::from_utf8(every::lines()).unwrap();
    assert_eq!(lines.lines().count(), 1070 * 10);
    let first: Vec<&str> = lines.lines().skip(20).take(11).collect();
    assert_eq!(
        first,
        [
            "to_table 0,0,0 : done 6 : 0,2,3,3,1,4",
            "from_table 3 0,2,3,3,1,4 : done 3 : 0,0,0",
            "to_newick 0,0,0 : done 10 : ((0,2),1);",
            "from_newick ((0,2),1); : done 3 : 0,0,0",
            "pack 0,0,0 : done 2 : 0060",
            "unpack 0060 : done 3 : 0,0,0",
            "write_archive 3 0,0,0 : done 5 : 0060000100",
            "read_tree 0060000100 0 : done 3 : 0,0,0",
            "view 0060000100 0 : part 4 1 : 00",
            "shuffle 0,0,0 : done 3 : 0,1,2 0,0,0",
            "to_table 0,0,1 : done 6 : 1,2,3,0,3,4",
        ]
    );
}
