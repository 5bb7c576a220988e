//! The merge table.
//!
//! 01: "Row t, t from 0 to n-2, is three numbers: child, child, parent. Parent is
//! n+t. A child is a leaf or an earlier row's parent. We write rows in the order
//! of merges, the child with the smaller least leaf first." The reader "takes any
//! order where row t has parent n+t, both children below n+t, and no child named
//! twice; children may stand either way round. n=1 has no rows."

use crate::answer::{refuse, Refusal, CHILD, CHILD_AGAIN, LENGTH, PARENT};
use crate::building::Merge;
use crate::tree::Tree;
use crate::vector::{element, leaf_count};
use std::collections::BTreeSet;

/// The rows, one after another in one list, of merges in their order.
pub fn rows(merges: &[Merge]) -> Vec<u16> {
    let n = merges.len() + 1;
    // The node that bears each name now: first the leaf, later a row's parent.
    let mut node: Vec<usize> = (0..n).collect();
    let mut rows = Vec::new();
    for (t, merge) in merges.iter().enumerate() {
        let parent = n + t;
        rows.extend([node[merge.smaller], node[merge.larger], parent].map(element));
        node[merge.smaller] = parent;
    }
    rows
}

/// The tree of a table, or the first refusal of the order "1, 2 (length not
/// 3(n-1)), rows upward with 5, 6, 7 in each".
pub fn read(leaves: u64, rows: &[u16]) -> Result<Tree, Refusal> {
    let n = leaf_count(leaves)?;
    if rows.len() != 3 * (n - 1) {
        return refuse(LENGTH, 3 * (n - 1));
    }
    let mut named = BTreeSet::new();
    for (t, row) in rows.chunks(3).enumerate() {
        check_row(n, t, row, &mut named)?;
    }
    Ok(tree(n, rows))
}

fn check_row(n: usize, t: usize, row: &[u16], named: &mut BTreeSet<u16>) -> Result<(), Refusal> {
    let children = &row[..2];
    if usize::from(row[2]) != n + t {
        return refuse(PARENT, t);
    }
    if children.iter().any(|&child| usize::from(child) >= n + t) {
        return refuse(CHILD, t);
    }
    for &child in children {
        if !named.insert(child) {
            return refuse(CHILD_AGAIN, t);
        }
    }
    Ok(())
}

/// The tree of rows that are right. Every node but the last parent is a child
/// once, so each is taken when it is named.
fn tree(n: usize, rows: &[u16]) -> Tree {
    let mut nodes: Vec<Option<Tree>> = (0..n).map(|leaf| Some(Tree::Leaf(leaf))).collect();
    for row in rows.chunks(3) {
        let first = nodes[usize::from(row[0])].take().expect("no child is named twice");
        let second = nodes[usize::from(row[1])].take().expect("no child is named twice");
        nodes.push(Some(Tree::pair(first, second)));
    }
    nodes.pop().flatten().expect("the last node is the root")
}
