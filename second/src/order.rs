//! The order of merges of a tree, and the vector of a tree.
//!
//! 01: "The order of merges depends on the tree alone: of the pairs whose two
//! clusters are complete, the one whose larger name is greatest comes first. And
//! if s merges of two clusters both named below i came before i merged with
//! cluster a, then v(i) = a when s = 0, else v(i) = i-1+s."

use crate::building::Merge;
use crate::tree::{name, Clusters, Leaves, Tree};
use crate::vector::element;
use std::collections::BTreeSet;

/// The merges of a tree on the leaves 0 to n-1, in their order.
pub fn merges(tree: &Tree) -> Vec<Merge> {
    let mut waiting = tree.pairs();
    // The pair whose larger name is greatest first; no two share a larger name.
    waiting.sort_by_key(|pair| std::cmp::Reverse(name(&pair.larger)));
    let mut standing: Vec<Leaves> =
        (0..=waiting.len()).map(|leaf| BTreeSet::from([leaf])).collect();
    let mut merges = Vec::new();
    while !waiting.is_empty() {
        let ready = waiting.iter().position(|pair| is_complete(pair, &standing));
        let pair = waiting.remove(ready.expect("some pair is always complete"));
        let merge = Merge { smaller: name(&pair.smaller), larger: name(&pair.larger) };
        let mut gone = std::mem::take(&mut standing[merge.larger]);
        standing[merge.smaller].append(&mut gone);
        merges.push(merge);
    }
    merges
}

/// Both clusters stand as they are in the pair: not smaller, not merged further.
fn is_complete(pair: &Clusters, standing: &[Leaves]) -> bool {
    standing[name(&pair.smaller)] == pair.smaller && standing[name(&pair.larger)] == pair.larger
}

/// The vector of a tree on the leaves 0 to n-1.
pub fn vector(tree: &Tree) -> Vec<u16> {
    let merges = merges(tree);
    let mut v = vec![0; merges.len() + 1];
    for (t, merge) in merges.iter().enumerate() {
        let i = merge.larger;
        let s = merges[..t].iter().filter(|m| m.smaller < i && m.larger < i).count();
        v[i] = element(if s == 0 { merge.smaller } else { i - 1 + s });
    }
    v
}
