//! The tree: a leaf, or a pair of trees.
//!
//! 01: "rooted binary trees with n leaves, labelled 0 to n-1". A cluster is a
//! set of leaves and its name is the least of them, since "the merged cluster
//! keeps the smaller name".

use crate::building::{self, Merge};
use std::collections::BTreeSet;

pub type Leaves = BTreeSet<usize>;

#[derive(Clone, Debug, PartialEq, Eq)]
pub enum Tree {
    Leaf(usize),
    Pair(Box<Tree>, Box<Tree>),
}

/// A pair of a tree by the two clusters that it merges.
#[derive(Clone, Debug, PartialEq, Eq)]
pub struct Clusters {
    pub smaller: Leaves,
    pub larger: Leaves,
}

/// The least leaf of a cluster.
pub fn name(leaves: &Leaves) -> usize {
    *leaves.iter().next().expect("a cluster has a leaf")
}

impl Tree {
    pub fn pair(first: Tree, second: Tree) -> Tree {
        Tree::Pair(Box::new(first), Box::new(second))
    }

    /// The tree of a vector that is accepted.
    pub fn of_vector(v: &[u16]) -> Tree {
        Tree::of_merges(&building::merges(v))
    }

    /// Each cluster is kept as a tree under its name. The child with the smaller
    /// name, which is its least leaf, stands first.
    pub fn of_merges(merges: &[Merge]) -> Tree {
        let mut clusters: Vec<Option<Tree>> =
            (0..=merges.len()).map(|leaf| Some(Tree::Leaf(leaf))).collect();
        for merge in merges {
            let first = clusters[merge.smaller].take().expect("a cluster has this name");
            let second = clusters[merge.larger].take().expect("a cluster has this name");
            clusters[merge.smaller] = Some(Tree::pair(first, second));
        }
        clusters[0].take().expect("one cluster is left")
    }

    pub fn leaves(&self) -> Leaves {
        let mut leaves = BTreeSet::new();
        self.list_leaves(&mut leaves);
        leaves
    }

    fn list_leaves(&self, leaves: &mut Leaves) {
        match self {
            Tree::Leaf(leaf) => {
                leaves.insert(*leaf);
            }
            Tree::Pair(first, second) => {
                first.list_leaves(leaves);
                second.list_leaves(leaves);
            }
        }
    }

    pub fn least_leaf(&self) -> usize {
        name(&self.leaves())
    }

    /// Every pair of the tree, in no order that matters.
    pub fn pairs(&self) -> Vec<Clusters> {
        let mut pairs = Vec::new();
        self.list_pairs(&mut pairs);
        pairs
    }

    /// Lists the pairs and gives the leaves, so that no set is made twice.
    fn list_pairs(&self, pairs: &mut Vec<Clusters>) -> Leaves {
        let (first, second) = match self {
            Tree::Leaf(leaf) => return BTreeSet::from([*leaf]),
            Tree::Pair(first, second) => (first.list_pairs(pairs), second.list_pairs(pairs)),
        };
        let both = first.union(&second).copied().collect();
        let (smaller, larger) =
            if name(&first) < name(&second) { (first, second) } else { (second, first) };
        pairs.push(Clusters { smaller, larger });
        both
    }

    /// The sets of leaves under the nodes, single leaves included. Two trees are
    /// the same tree when their clades are the same.
    pub fn clades(&self) -> BTreeSet<Leaves> {
        let single = self.leaves().into_iter().map(|leaf| BTreeSet::from([leaf]));
        let joined = self.pairs().into_iter().map(|p| &p.smaller | &p.larger);
        single.chain(joined).collect()
    }

    /// The same tree with leaf x called new[x].
    pub fn renamed(&self, new: &[u16]) -> Tree {
        match self {
            Tree::Leaf(leaf) => Tree::Leaf(usize::from(new[*leaf])),
            Tree::Pair(first, second) => Tree::pair(first.renamed(new), second.renamed(new)),
        }
    }
}
