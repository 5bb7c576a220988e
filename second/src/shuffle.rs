//! The Queue Shuffle and permutations.
//!
//! 01: "Put the root in a queue with label 0; the next label is 1. Take the front.
//! A leaf x gets its label as new(x). At an inner node the child with the smaller
//! least old leaf keeps the label, the other takes the next label; both go to the
//! back, the keeper first." "Relabelling takes a vector and a permutation p, leaf
//! x becoming p(x)."

use crate::answer::{refuse, Refusal, LENGTH, PERMUTATION};
use crate::tree::Tree;
use crate::vector::element;
use std::collections::{BTreeSet, VecDeque};

/// The permutation new of a tree with n leaves.
pub fn new_labels(tree: &Tree, n: usize) -> Vec<u16> {
    let mut new = vec![0; n];
    let mut queue = VecDeque::from([(tree, 0)]);
    let mut next_label = 1;
    while let Some((node, label)) = queue.pop_front() {
        match node {
            Tree::Leaf(x) => new[*x] = element(label),
            Tree::Pair(first, second) => {
                let (keeper, other) = if first.least_leaf() < second.least_leaf() {
                    (first, second)
                } else {
                    (second, first)
                };
                queue.push_back((keeper, label));
                queue.push_back((other, next_label));
                next_label += 1;
            }
        }
    }
    new
}

/// "2 (permutation length not n) and 11": "permutation value not below n, or used
/// before", place "its index".
pub fn is_permutation(p: &[u16], n: usize) -> Result<(), Refusal> {
    if p.len() != n {
        return refuse(LENGTH, n);
    }
    let mut used = BTreeSet::new();
    for (index, &value) in p.iter().enumerate() {
        if usize::from(value) >= n || !used.insert(value) {
            return refuse(PERMUTATION, index);
        }
    }
    Ok(())
}
