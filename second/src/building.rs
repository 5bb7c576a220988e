//! The building rule, word for word, with a table of labels for each leaf.
//!
//! 01: "Every leaf starts as a cluster named by itself. Leaf i sees only clusters
//! named below i, first labelled by name. At each step the largest i that still
//! names a cluster and sees one labelled v(i) merges with that one. The merged
//! cluster keeps the smaller name. Each leaf j > i gives it the smallest label j
//! has not used; others go on calling it by the label they had. After n-1 steps
//! one cluster is left."

use std::collections::BTreeSet;
use std::ops::RangeFrom;

/// One merge: the cluster named `larger` merges with the one named `smaller`.
#[derive(Clone, Copy, Debug, PartialEq, Eq)]
pub struct Merge {
    pub smaller: usize,
    pub larger: usize,
}

/// What one leaf sees: the labels it gives to clusters, kept both ways round.
struct View {
    label_of_cluster: Vec<Option<u16>>,
    cluster_of_label: Vec<Option<u16>>,
    /// A leaf takes labels in rising order, so what it has not used is all from
    /// a number on.
    unused: RangeFrom<u16>,
}

impl View {
    /// "Leaf i sees only clusters named below i, first labelled by name."
    fn of_leaf(i: u16) -> View {
        let by_name: Vec<Option<u16>> = (0..i).map(Some).collect();
        View { label_of_cluster: by_name.clone(), cluster_of_label: by_name, unused: i.. }
    }

    fn cluster_labelled(&self, label: u16) -> Option<usize> {
        let cluster = self.cluster_of_label.get(usize::from(label))?;
        cluster.map(usize::from)
    }

    /// The label is used and stays so, but nothing bears it any more.
    fn forget(&mut self, cluster: usize) {
        if let Some(label) = self.label_of_cluster[cluster].take() {
            self.cluster_of_label[usize::from(label)] = None;
        }
    }

    /// "the smallest label j has not used"
    fn give_new_label(&mut self, cluster: usize) {
        let label = self.unused.next().expect("labels do not run out");
        self.label_of_cluster[cluster] = Some(label);
        self.cluster_of_label.push(Some(cluster as u16));
        assert_eq!(self.cluster_of_label.len(), usize::from(label) + 1);
    }
}

/// The n-1 merges of a vector that `vector::accepted` accepts, in their order.
pub fn merges(v: &[u16]) -> Vec<Merge> {
    let n = v.len();
    let mut views: Vec<View> = (0..n).map(|i| View::of_leaf(i as u16)).collect();
    let mut names: BTreeSet<usize> = (0..n).collect();
    let mut merges = Vec::new();
    while names.len() > 1 {
        let merge = next_merge(v, &views, &names);
        names.remove(&merge.larger);
        for view in &mut views[merge.larger + 1..] {
            view.forget(merge.smaller);
            view.forget(merge.larger);
            view.give_new_label(merge.smaller);
        }
        merges.push(merge);
    }
    merges
}

/// "the largest i that still names a cluster and sees one labelled v(i)"
fn next_merge(v: &[u16], views: &[View], names: &BTreeSet<usize>) -> Merge {
    for &i in names.iter().rev() {
        if let Some(smaller) = views[i].cluster_labelled(v[i]) {
            return Merge { smaller, larger: i };
        }
    }
    panic!("in a valid vector some leaf always sees its label")
}
