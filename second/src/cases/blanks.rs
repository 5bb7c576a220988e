//! Cases of texts with blanks, by chance.
//!
//! 02, CR 3: "Accept spaces, tabs, carriage returns and line feeds anywhere except
//! inside a label, also before the first sign and after the semicolon. Places of 8, 9
//! and 13 are in the bytes as sent." Damage: every kind of `texts` and of `labels` with
//! blanks in it; labels parted by blanks, once or more often, alone or beside another
//! break; bytes that are nearly blanks.

use super::chance::Chance;
use super::{labels, manners, texts, vectors};
use crate::grammar::is_blank;
use crate::stream::Case;

type Kind = fn(&mut Chance) -> Vec<u8>;

/// Each kind, and how often it is used.
const KINDS: [(Kind, usize); 19] = [
    (right, 260),
    (blanks_around, 40),
    (damaged, 110),
    (labels_at_fault, 150),
    (cut, 70),
    (sign_replaced, 60),
    (sign_inserted, 60),
    (sign_removed, 60),
    (sign_made_blank, 50),
    (nearly_blank, 90),
    (parted, 90),
    (digits_behind, 80),
    (parted_again, 50),
    (parted_and_broken, 90),
    (goes_on, 50),
    (any_bytes, 120),
    (no_signs, 20),
    (too_many_labels, 8),
    (deepest, 10),
];

/// Bytes beside the blanks, and those that other programs take for blanks.
pub const NEARLY: [u8; 9] = [0, 8, 11, 12, 14, 31, 33, 160, 255];

pub fn add(cases: &mut Vec<Case>, chance: &mut Chance) {
    for (kind, times) in KINDS {
        for _ in 0..times {
            let text = kind(chance);
            cases.push(texts::case(text, chance));
        }
    }
}

fn right(chance: &mut Chance) -> Vec<u8> {
    let text = texts::either_way_round(chance);
    manners::any(chance, &text)
}

fn blanks_around(chance: &mut Chance) -> Vec<u8> {
    let text = texts::either_way_round(chance);
    manners::around(chance, &text)
}

fn damaged(chance: &mut Chance) -> Vec<u8> {
    let text = texts::any(chance);
    manners::any(chance, &text)
}

fn labels_at_fault(chance: &mut Chance) -> Vec<u8> {
    let text = labels::any(chance);
    manners::any(chance, &text)
}

/// Many end in blanks, and the place is behind them.
fn cut(chance: &mut Chance) -> Vec<u8> {
    let mut text = right(chance);
    text.truncate(chance.index(text.len()));
    if chance.one_in(3) {
        let count = chance.between(1, 5);
        text.extend(manners::blanks(chance, count));
    }
    text
}

fn sign_replaced(chance: &mut Chance) -> Vec<u8> {
    let mut text = right(chance);
    let place = chance.index(text.len());
    text[place] = chance.one_of(texts::SIGNS);
    text
}

fn sign_inserted(chance: &mut Chance) -> Vec<u8> {
    let mut text = right(chance);
    text.insert(chance.index(text.len()), chance.one_of(texts::SIGNS));
    text
}

/// The places of the bytes that are no blanks.
fn signs(text: &[u8]) -> Vec<usize> {
    (0..text.len()).filter(|&place| !is_blank(text[place])).collect()
}

fn sign_removed(chance: &mut Chance) -> Vec<u8> {
    let mut text = right(chance);
    let signs = signs(&text);
    text.remove(signs[chance.index(signs.len())]);
    text
}

fn sign_made_blank(chance: &mut Chance) -> Vec<u8> {
    let mut text = right(chance);
    let signs = signs(&text);
    text[signs[chance.index(signs.len())]] = manners::blanks(chance, 1)[0];
    text
}

/// A byte too many, or one in the place of a blank.
fn nearly_blank(chance: &mut Chance) -> Vec<u8> {
    let mut text = right(chance);
    let blanks: Vec<usize> = (0..text.len()).filter(|&place| is_blank(text[place])).collect();
    if blanks.is_empty() || chance.one_in(2) {
        text.insert(chance.below(text.len() + 1), chance.one_of(&NEARLY));
    } else {
        text[blanks[chance.index(blanks.len())]] = chance.one_of(&NEARLY);
    }
    text
}

/// A label of two digits or more with blanks inside it; often enough one of four.
fn parted(chance: &mut Chance) -> Vec<u8> {
    let n = if chance.one_in(15) { chance.between(1001, 1024) } else { chance.size_from(11) };
    let v = vectors::of_size(chance, n);
    let text = texts::turned_text(chance, &v);
    let mut text = manners::any(chance, &text);
    part(chance, &mut text);
    text
}

/// Puts blanks inside a label, if there still is one of two digits or more.
fn part(chance: &mut Chance, text: &mut Vec<u8>) {
    let inside: Vec<usize> =
        (0..text.len()).filter(|&place| manners::in_label(text, place)).collect();
    if !inside.is_empty() {
        let place = inside[chance.index(inside.len())];
        let count = chance.one_of(&[1, 1, 2, 5]);
        text.splice(place..place, manners::blanks(chance, count));
    }
}

/// More digits behind a label and blanks: behind 0, behind four digits, and others.
fn digits_behind(chance: &mut Chance) -> Vec<u8> {
    let four = if chance.one_in(4) { Some(chance.between(1000, 9999).to_string()) } else { None };
    let count = chance.one_of(&[1, 1, 3]);
    let blanks = String::from_utf8(manners::blanks(chance, count)).expect("blanks are ASCII");
    let digits = chance.one_of(&["0", "1", "00", "123", "7 7"]);
    let text = texts::with_label(chance, |label, _| {
        let label = four.as_deref().unwrap_or(label);
        format!("{label}{blanks}{digits}")
    });
    manners::any(chance, &text)
}

/// Several labels are parted, and one more than once.
fn parted_again(chance: &mut Chance) -> Vec<u8> {
    let mut text = parted(chance);
    for _ in 0..chance.between(1, 5) {
        part(chance, &mut text);
    }
    text
}

/// Another byte is at fault too, before the parted label or behind it.
fn parted_and_broken(chance: &mut Chance) -> Vec<u8> {
    let mut text = if chance.one_in(2) { parted(chance) } else { digits_behind(chance) };
    let place = chance.below(text.len());
    text[place] = chance.one_of(b"(),;x\x0b\x00");
    text
}

/// Signs behind the semicolon and blanks, as where a file has two trees.
fn goes_on(chance: &mut Chance) -> Vec<u8> {
    let mut text = right(chance);
    let count = chance.below(4);
    text.extend(manners::blanks(chance, count));
    text.extend(chance.one_of(&["0;", "(0,1);\n", ";", ",", ")", "\x0b", "\x1a"]).bytes());
    text
}

fn any_bytes(chance: &mut Chance) -> Vec<u8> {
    let length = chance.between(0, 14);
    (0..length).map(|_| chance.one_of(b"0123((,,)); \t\r\n  ")).collect()
}

fn no_signs(chance: &mut Chance) -> Vec<u8> {
    let any = chance.between(2, 300);
    let count = chance.one_of(&[0, 1, any, any, 6056, 6057]);
    manners::blanks(chance, count)
}

fn too_many_labels(chance: &mut Chance) -> Vec<u8> {
    let text = if chance.one_in(2) {
        labels::one_label_too_many(chance)
    } else {
        texts::many_labels(chance)
    };
    manners::any(chance, &text)
}

/// As many brackets open as may be, or one too many.
fn deepest(chance: &mut Chance) -> Vec<u8> {
    let text = if chance.one_in(2) { texts::deep(chance) } else { texts::too_deep(chance) };
    manners::any(chance, &text)
}
