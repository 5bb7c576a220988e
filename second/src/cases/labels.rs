//! Cases of texts whose labels are at fault, in most of them several.
//!
//! 02, CR 2: "9 is now only "not below n"; 13 is "used before"; label by label in text
//! order, 9 before 13 at the same label." Damage: one fault, faults of both kinds in
//! either order, one stray label twice, the first label again behind it, up to six faults
//! by chance, faults in the longest text, and 1,025 labels with faults among them.

use super::chance::Chance;
use super::{texts, vectors};
use crate::stream::Case;
use crate::vector::MOST_LEAVES;

/// A kind changes the labels of a right text, which stand in text order.
type Kind = fn(&mut Chance, &mut [usize]);

/// Each kind, the fewest labels that it wants, and how often it is used.
const KINDS: [(Kind, usize, usize); 7] = [
    (one_stray, 1, 60),
    (one_double, 2, 60),
    (stray_then_double, 3, 100),
    (double_then_stray, 3, 100),
    (one_stray_label_twice, 2, 60),
    (first_label_again, 2, 60),
    (any_faults, 2, 150),
];

pub fn add(cases: &mut Vec<Case>, chance: &mut Chance) {
    for (kind, fewest, times) in KINDS {
        for _ in 0..times {
            let text = of_kind(chance, kind, fewest);
            cases.push(texts::case(text, chance));
        }
    }
    for _ in 0..60 {
        let text = changed(chance, MOST_LEAVES, at_most_leaves);
        cases.push(texts::case(text, chance));
    }
    for _ in 0..20 {
        let text = one_label_too_many(chance);
        cases.push(texts::case(text, chance));
    }
}

/// A text of a kind by chance.
pub fn any(chance: &mut Chance) -> Vec<u8> {
    let (kind, fewest, _) = chance.one_of(&KINDS);
    of_kind(chance, kind, fewest)
}

fn of_kind(chance: &mut Chance, kind: Kind, fewest: usize) -> Vec<u8> {
    let n = chance.size_from(fewest);
    changed(chance, n, kind)
}

/// The text of a tree of n leaves, its labels changed.
fn changed(chance: &mut Chance, n: usize, change: impl Fn(&mut Chance, &mut [usize])) -> Vec<u8> {
    let v = vectors::of_size(chance, n);
    let text = String::from_utf8(texts::turned_text(chance, &v)).expect("a text is ASCII");
    let (between, mut labels) = apart(&text);
    change(chance, &mut labels);
    together(&between, &labels)
}

/// What stands before, between and behind the labels, and the labels.
fn apart(text: &str) -> (Vec<String>, Vec<usize>) {
    let digit = |sign: char| sign.is_ascii_digit();
    let labels = text.split(|sign| !digit(sign)).filter(|run| !run.is_empty());
    let labels: Vec<usize> = labels.map(|run| run.parse().expect("a run of digits")).collect();
    let mut between = vec![String::new()];
    let mut inside = false;
    for sign in text.chars() {
        if digit(sign) && !inside {
            between.push(String::new());
        }
        inside = digit(sign);
        if !inside {
            between.last_mut().expect("there is a first").push(sign);
        }
    }
    (between, labels)
}

fn together(between: &[String], labels: &[usize]) -> Vec<u8> {
    let mut text = between[0].clone();
    for (label, behind) in labels.iter().zip(&between[1..]) {
        text += &label.to_string();
        text += behind;
    }
    text.into_bytes()
}

/// A label that is not below n: mostly n itself or little more.
fn stray(chance: &mut Chance, n: usize) -> usize {
    chance.one_of(&[n, n, n + 1, n + 8, 9999]).min(9999)
}

/// Two places, the one before the other, of three labels or more; the first is not
/// the first of all, so that a label stands before it.
fn two_places(chance: &mut Chance, n: usize) -> (usize, usize) {
    let first = chance.between(1, n - 2);
    (first, chance.between(first + 1, n - 1))
}

fn one_stray(chance: &mut Chance, labels: &mut [usize]) {
    labels[chance.index(labels.len())] = stray(chance, labels.len());
}

fn one_double(chance: &mut Chance, labels: &mut [usize]) {
    let place = chance.between(1, labels.len() - 1);
    labels[place] = labels[chance.below(place)];
}

fn stray_then_double(chance: &mut Chance, labels: &mut [usize]) {
    let (first, second) = two_places(chance, labels.len());
    labels[second] = labels[chance.below(first)];
    labels[first] = stray(chance, labels.len());
}

fn double_then_stray(chance: &mut Chance, labels: &mut [usize]) {
    let (first, second) = two_places(chance, labels.len());
    labels[first] = labels[chance.below(first)];
    labels[second] = stray(chance, labels.len());
}

/// The second one is not below n and was used before.
fn one_stray_label_twice(chance: &mut Chance, labels: &mut [usize]) {
    let last = labels.len() - 1;
    let first = chance.below(last);
    labels[first] = stray(chance, labels.len());
    labels[chance.between(first + 1, last)] = labels[first];
}

/// The first label is double only by a later one, which is the one to be told.
fn first_label_again(chance: &mut Chance, labels: &mut [usize]) {
    labels[1 + chance.index(labels.len() - 1)] = labels[0];
}

fn any_faults(chance: &mut Chance, labels: &mut [usize]) {
    for _ in 0..chance.between(2, 6) {
        if chance.one_in(2) {
            one_stray(chance, labels);
        } else {
            one_double(chance, labels);
        }
    }
}

/// At 1,024 leaves the longest text has no byte to spare, so that only labels of four
/// digits are changed.
fn at_most_leaves(chance: &mut Chance, labels: &mut [usize]) {
    let long: Vec<usize> = (0..labels.len()).filter(|&place| labels[place] >= 1000).collect();
    for _ in 0..chance.between(1, 4) {
        let place = long[chance.index(long.len())];
        let double = labels[chance.below(labels.len())];
        labels[place] = if chance.one_in(2) { stray(chance, labels.len()) } else { double };
    }
}

/// 1,025 labels, stray ones and double ones in any order: 1, before 9 and 13.
pub fn one_label_too_many(chance: &mut Chance) -> Vec<u8> {
    let labels: Vec<usize> = (0..=MOST_LEAVES).map(|_| chance.one_of(&[0, 1, 2, 9999])).collect();
    let mut text = labels[0].to_string();
    for label in &labels[1..MOST_LEAVES - 1] {
        text = format!("({text},{label})");
    }
    let [first, second] = [labels[MOST_LEAVES - 1], labels[MOST_LEAVES]];
    format!("({text},({first},{second}));").into_bytes()
}
