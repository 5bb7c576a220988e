//! The Newick text of a tree, and the tree of a text.
//!
//! 01: "We write the child with the smaller least leaf first; the reader takes
//! either. The leaf count n is the number of labels; each of 0 to n-1 must stand
//! once." 02, CR 2: "9 is now only "not below n"; 13 is "used before"; label by label
//! in text order, 9 before 13 at the same label."
//!
//! 02, CR 3: "Places of 8, 9 and 13 are in the bytes as sent. The writer still writes
//! none. Demand 3 reads such a text as its signs without blanks. Refusals: 2 is now
//! given first for a text above 65,536 bytes (place 65536), then for more than 6,056
//! bytes that aren't blanks (place 6056)."
//!
//! No text is made without its blanks: the labels are found among the bytes as sent,
//! and the blanks around a node are trimmed off where the node is read.

use crate::answer::{refuse, Refusal, DOUBLE_LABEL, LENGTH, STRAY_LABEL};
use crate::grammar::{self, is_blank};
use crate::tree::Tree;
use crate::vector::leaf_count;

/// The bytes of a text as it is sent, and those of them that are no blanks.
pub const MOST_BYTES: usize = 65536;
pub const MOST_SIGNS: usize = 6056;

/// The text that we write for a tree whose children stand as we write them, the
/// child with the smaller least leaf first.
pub fn text(tree: &Tree) -> String {
    format!("{};", node(tree))
}

fn node(tree: &Tree) -> String {
    match tree {
        Tree::Leaf(leaf) => leaf.to_string(),
        Tree::Pair(first, second) => format!("({},{})", node(first), node(second)),
    }
}

/// The tree of a text, or the first refusal of the order 2 for its bytes, 2 for its
/// signs, 8, 1, then 9 and 13.
pub fn read(text: &[u8]) -> Result<Tree, Refusal> {
    if text.len() > MOST_BYTES {
        return refuse(LENGTH, MOST_BYTES);
    }
    if text.iter().filter(|&&byte| !is_blank(byte)).count() > MOST_SIGNS {
        return refuse(LENGTH, MOST_SIGNS);
    }
    grammar::follows(text)?;
    let text = std::str::from_utf8(text).expect("the grammar has ASCII bytes only");
    let labels = labels(text);
    let n = leaf_count(labels.len() as u64)?;
    match faults(&labels, n).first() {
        Some(&(place, number)) => refuse(number, place),
        None => Ok(tree(trimmed(text).trim_end_matches(';'))),
    }
}

/// The same without the blanks before its first sign and behind its last.
fn trimmed(text: &str) -> &str {
    text.trim_matches(|sign| grammar::BLANKS.map(char::from).contains(&sign))
}

/// Every fault of every label, the place before the number, in rising order: so the
/// first is the one of the first label at fault, and 9 where that label has both.
fn faults(labels: &[(usize, usize)], n: usize) -> Vec<(usize, u8)> {
    let stray =
        labels.iter().filter(|(_, label)| *label >= n).map(|&(place, _)| (place, STRAY_LABEL));
    let double = labels
        .iter()
        .filter(|&&label| used_before(labels, label))
        .map(|&(place, _)| (place, DOUBLE_LABEL));
    let mut faults: Vec<(usize, u8)> = stray.chain(double).collect();
    faults.sort();
    faults
}

fn used_before(labels: &[(usize, usize)], (place, label): (usize, usize)) -> bool {
    labels.iter().any(|&(other_place, other)| other_place < place && other == label)
}

/// Each label with the place of its first byte, in text order.
fn labels(text: &str) -> Vec<(usize, usize)> {
    let mut labels = Vec::new();
    let mut place = 0;
    for run in text.split(|sign: char| !sign.is_ascii_digit()) {
        if !run.is_empty() {
            labels.push((place, run.parse().expect("a label has four digits at most")));
        }
        // The sign behind the run is one byte.
        place += run.len() + 1;
    }
    labels
}

/// The tree of a node's text: a label, or what stands before and behind the
/// comma that no inner bracket holds. Blanks around any of these say nothing.
fn tree(node: &str) -> Tree {
    let node = trimmed(node);
    let inner = match node.strip_prefix('(') {
        None => return Tree::Leaf(node.parse().expect("a node without brackets is a label")),
        Some(opened) => opened.strip_suffix(')').expect("the bracket of a node is closed"),
    };
    let (first, second) = inner.split_at(middle_comma(inner));
    Tree::pair(tree(first), tree(&second[1..]))
}

fn middle_comma(inner: &str) -> usize {
    let mut open = 0;
    for (place, sign) in inner.char_indices() {
        match sign {
            '(' => open += 1,
            ')' => open -= 1,
            ',' if open == 0 => return place,
            _ => {}
        }
    }
    panic!("a pair has a comma between its nodes")
}
