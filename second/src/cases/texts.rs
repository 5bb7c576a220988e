//! Cases of the reader of Newick texts.
//!
//! 01: "Text: 2 (above 6,056 bytes, place 6056), 8, 1, 9, 3", and 02's 13. Damage: a byte
//! missing, added or changed, a text cut short or gone on, labels with a leading
//! zero or five digits, labels out of range or twice, too many labels, and too
//! many brackets open at once. Labels with several faults are in `labels`, blanks in
//! `blanks`.

use super::chance::Chance;
use super::{rooms, vectors};
use crate::newick::{text, MOST_SIGNS};
use crate::stream::Case;
use crate::tree::Tree;

type Kind = fn(&mut Chance) -> Vec<u8>;

/// Each kind, and how often it is used.
const KINDS: [(Kind, usize); 18] = [
    (as_written, 130),
    (either_way_round, 150),
    (cut, 70),
    (byte_replaced, 90),
    (sign_replaced, 90),
    (byte_inserted, 60),
    (sign_inserted, 60),
    (byte_removed, 60),
    (leading_zero, 50),
    (longer_label, 50),
    (label_out_of_range, 60),
    (label_twice, 60),
    (goes_on, 40),
    (any_signs, 60),
    (deep, 10),
    (too_deep, 9),
    (many_labels, 12),
    (too_long, 10),
];

pub const SIGNS: &[u8] = b"0123456789(),;";

pub fn add(cases: &mut Vec<Case>, chance: &mut Chance) {
    for (kind, times) in KINDS {
        for _ in 0..times {
            let text = kind(chance);
            cases.push(case(text, chance));
        }
    }
    for text in ["0;", "(0,1);", "((0,1),2);", "(0,((1,2),3));"] {
        at_every_byte(cases, chance, text.as_bytes());
    }
}

/// A text of a kind by chance.
pub fn any(chance: &mut Chance) -> Vec<u8> {
    let (kind, _) = chance.one_of(&KINDS);
    kind(chance)
}

pub fn case(text: Vec<u8>, chance: &mut Chance) -> Case {
    // As many labels as commas and one more, where the text is right.
    let n = text.iter().filter(|&&byte| byte == b',').count() + 1;
    Case::FromNewick { text, out: rooms::lent(chance, n) }
}

/// A short text cut at every byte, and with every byte changed in turn.
fn at_every_byte(cases: &mut Vec<Case>, chance: &mut Chance, text: &[u8]) {
    for place in 0..text.len() {
        cases.push(case(text[..place].to_vec(), chance));
        for &sign in b"019(),; :/\x00\xFF" {
            let mut changed = text.to_vec();
            changed[place] = sign;
            cases.push(case(changed, chance));
        }
    }
}

fn as_written(chance: &mut Chance) -> Vec<u8> {
    text(&Tree::of_vector(&vectors::right(chance))).into_bytes()
}

pub fn either_way_round(chance: &mut Chance) -> Vec<u8> {
    let v = vectors::right(chance);
    turned_text(chance, &v)
}

/// The text of a vector's tree, the children of each pair in an order by chance.
pub fn turned_text(chance: &mut Chance, v: &[u16]) -> Vec<u8> {
    text(&turned(&Tree::of_vector(v), chance)).into_bytes()
}

fn turned(tree: &Tree, chance: &mut Chance) -> Tree {
    match tree {
        Tree::Leaf(leaf) => Tree::Leaf(*leaf),
        Tree::Pair(first, second) if chance.one_in(2) => {
            Tree::pair(turned(first, chance), turned(second, chance))
        }
        Tree::Pair(first, second) => Tree::pair(turned(second, chance), turned(first, chance)),
    }
}

fn cut(chance: &mut Chance) -> Vec<u8> {
    let mut text = either_way_round(chance);
    text.truncate(chance.index(text.len()));
    text
}

fn byte_replaced(chance: &mut Chance) -> Vec<u8> {
    let mut text = either_way_round(chance);
    let place = chance.index(text.len());
    text[place] = chance.byte();
    text
}

fn sign_replaced(chance: &mut Chance) -> Vec<u8> {
    let mut text = either_way_round(chance);
    let place = chance.index(text.len());
    text[place] = chance.one_of(SIGNS);
    text
}

fn byte_inserted(chance: &mut Chance) -> Vec<u8> {
    let mut text = either_way_round(chance);
    text.insert(chance.index(text.len()), chance.byte());
    text
}

fn sign_inserted(chance: &mut Chance) -> Vec<u8> {
    let mut text = either_way_round(chance);
    text.insert(chance.index(text.len()), chance.one_of(SIGNS));
    text
}

fn byte_removed(chance: &mut Chance) -> Vec<u8> {
    let mut text = either_way_round(chance);
    text.remove(chance.index(text.len()));
    text
}

/// A text with one label by chance written in another way.
pub fn with_label(chance: &mut Chance, write: impl FnOnce(&str, usize) -> String) -> Vec<u8> {
    let text = String::from_utf8(either_way_round(chance)).expect("a text is ASCII");
    let starts: Vec<usize> = (0..text.len()).filter(|&place| starts_label(&text, place)).collect();
    let start = starts[chance.index(starts.len())];
    let label: String = text[start..].chars().take_while(char::is_ascii_digit).collect();
    let changed = write(&label, starts.len());
    [&text[..start], &changed, &text[start + label.len()..]].concat().into_bytes()
}

fn starts_label(text: &str, place: usize) -> bool {
    let digit = |place: usize| text.as_bytes()[place].is_ascii_digit();
    digit(place) && (place == 0 || !digit(place - 1))
}

fn leading_zero(chance: &mut Chance) -> Vec<u8> {
    with_label(chance, |label, _| format!("0{label}"))
}

/// A label with digits behind it, up to six in all.
fn longer_label(chance: &mut Chance) -> Vec<u8> {
    let digits = chance.one_of(&["0", "00", "000", "1234", "99999"]);
    with_label(chance, |label, _| format!("{label}{digits}"))
}

fn label_out_of_range(chance: &mut Chance) -> Vec<u8> {
    let far = chance.one_of(&[0, 0, 1, 1024, 9999]);
    with_label(chance, |_, n| (n + far).min(9999).to_string())
}

/// A label that stands elsewhere too, but for one leaf, where it must be 0.
fn label_twice(chance: &mut Chance) -> Vec<u8> {
    let other = chance.below(1024);
    with_label(chance, |_, n| (other % n).to_string())
}

fn goes_on(chance: &mut Chance) -> Vec<u8> {
    let mut text = either_way_round(chance);
    for _ in 0..chance.between(1, 3) {
        text.push(chance.one_of(b";;0 \n\x00("));
    }
    text
}

fn any_signs(chance: &mut Chance) -> Vec<u8> {
    let length = chance.between(0, 12);
    (0..length).map(|_| chance.one_of(b"0123(((,,));")).collect()
}

/// Brackets nested to so many levels, with a label at each; the nodes that go
/// down stand first or second.
pub fn nested(levels: usize, down_first: bool) -> String {
    if down_first {
        let closing: String = (1..=levels).map(|label| format!(",{label})")).collect();
        format!("{}0{closing};", "(".repeat(levels))
    } else {
        let opening: String = (0..levels).map(|label| format!("({label},")).collect();
        format!("{opening}{levels}{};", ")".repeat(levels))
    }
}

/// "The nesting may go down 1,023 levels": as deep as can be, or cut there.
pub fn deep(chance: &mut Chance) -> Vec<u8> {
    let mut text = nested(1023, chance.one_in(2));
    if chance.one_in(2) {
        text.truncate(chance.between(1023, text.len()));
    }
    text.into_bytes()
}

/// "A bracket that would be the 1,024th open at once breaks the grammar at its
/// byte", whatever comes behind it.
pub fn too_deep(chance: &mut Chance) -> Vec<u8> {
    match chance.below(3) {
        0 => "(".repeat(chance.between(1024, 1026)).into_bytes(),
        1 => {
            let opening = "(0,".repeat(1024);
            format!("{opening}0{};", ")".repeat(1024)).into_bytes()
        }
        _ => format!("(0,{}0{});", "(".repeat(1023), ",0)".repeat(1023)).into_bytes(),
    }
}

/// A legal text of 1,024 or more labels that all are one digit, in few levels.
pub fn many_labels(chance: &mut Chance) -> Vec<u8> {
    let labels = chance.one_of(&[1024, 1025, 1025, 1026, 1514]);
    let mut nodes: Vec<String> = (0..labels).map(|label| (label % 10).to_string()).collect();
    while nodes.len() > 1 {
        let pairs = nodes.chunks(2);
        nodes = pairs
            .map(|pair| match pair {
                [first, second] => format!("({first},{second})"),
                _ => pair.concat(),
            })
            .collect();
    }
    format!("{};", nodes.concat()).into_bytes()
}

/// Texts of 6,056 bytes and more: right ones, and signs that mean nothing.
fn too_long(chance: &mut Chance) -> Vec<u8> {
    let length = MOST_SIGNS + chance.one_of(&[0, 1, 1, 2, 500]);
    let mut text = if chance.one_in(3) { vec![b'('; 3] } else { nested(1023, true).into_bytes() };
    text.resize_with(length, || chance.one_of(SIGNS));
    text
}
