//! Manners of blanks: how they stand between the signs of a text, by chance or as
//! other programs write them.
//!
//! 02, CR 3: "Accept spaces, tabs, carriage returns and line feeds anywhere except
//! inside a label, also before the first sign and after the semicolon." No manner
//! parts a label, and each takes damaged texts too.

use super::chance::Chance;
use crate::grammar::BLANKS;

pub type Manner = fn(&mut Chance, &[u8]) -> Vec<u8>;

const MANNERS: [Manner; 8] = [few, few, many, runs, around, behind_commas, in_lines, by_nodes];

/// Texts are made longer than this by plan only, so that a stream has few of them.
const LONG: usize = 9_000;

const LINE_ENDS: [&str; 3] = ["\n", "\r\n", "\r"];

/// The text in a manner by chance.
pub fn any(chance: &mut Chance, text: &[u8]) -> Vec<u8> {
    let manner = chance.one_of(&MANNERS);
    let sent = manner(chance, text);
    if sent.len() > LONG {
        return few(chance, text);
    }
    sent
}

/// The places where a blank parts no label, the length of the text included.
pub fn gaps(text: &[u8]) -> Vec<usize> {
    (0..=text.len()).filter(|&place| !in_label(text, place)).collect()
}

/// Whether a digit stands before the place and another one at it.
pub fn in_label(text: &[u8], place: usize) -> bool {
    place > 0 && place < text.len() && text[place - 1..=place].iter().all(u8::is_ascii_digit)
}

pub fn blanks(chance: &mut Chance, count: usize) -> Vec<u8> {
    (0..count).map(|_| chance.one_of(&BLANKS)).collect()
}

/// The text with so many blanks in each gap, in the order of the gaps.
fn put(chance: &mut Chance, text: &[u8], counts: &[usize]) -> Vec<u8> {
    let mut sent = Vec::new();
    let mut from = 0;
    for (gap, &count) in gaps(text).into_iter().zip(counts) {
        sent.extend(&text[from..gap]);
        sent.extend(blanks(chance, count));
        from = gap;
    }
    sent
}

/// The text with a number of blanks by chance in each gap.
fn each(chance: &mut Chance, text: &[u8], count: fn(&mut Chance) -> usize) -> Vec<u8> {
    let counts: Vec<usize> = gaps(text).iter().map(|_| count(chance)).collect();
    put(chance, text, &counts)
}

pub fn few(chance: &mut Chance, text: &[u8]) -> Vec<u8> {
    each(chance, text, |chance| usize::from(chance.one_in(12)))
}

fn many(chance: &mut Chance, text: &[u8]) -> Vec<u8> {
    each(chance, text, |chance| chance.below(3))
}

fn runs(chance: &mut Chance, text: &[u8]) -> Vec<u8> {
    each(chance, text, |chance| if chance.one_in(9) { chance.between(2, 20) } else { 0 })
}

/// Before the first sign and behind the last.
pub fn around(chance: &mut Chance, text: &[u8]) -> Vec<u8> {
    let (before, behind) = (chance.below(4), chance.between(1, 4));
    [blanks(chance, before), text.to_vec(), blanks(chance, behind)].concat()
}

fn behind_commas(chance: &mut Chance, text: &[u8]) -> Vec<u8> {
    let blank = char::from(chance.one_of(&BLANKS));
    spaced(text, &blank.to_string())
}

fn in_lines(chance: &mut Chance, text: &[u8]) -> Vec<u8> {
    let width = chance.between(1, 80);
    broken(text, width, chance.one_of(&LINE_ENDS))
}

fn by_nodes(chance: &mut Chance, text: &[u8]) -> Vec<u8> {
    let step = chance.one_of(&["", " ", "  ", "\t"]);
    indented(text, step, chance.one_of(&LINE_ENDS))
}

/// So many bytes in all, the blanks spread over the gaps.
pub fn stretched(chance: &mut Chance, text: &[u8], length: usize) -> Vec<u8> {
    let gaps = gaps(text).len();
    let mut counts = vec![0; gaps];
    for _ in text.len()..length {
        counts[chance.below(gaps)] += 1;
    }
    put(chance, text, &counts)
}

/// A blank, or several, behind every comma.
pub fn spaced(text: &[u8], blanks: &str) -> Vec<u8> {
    let parts: Vec<&[u8]> = text.split_inclusive(|&byte| byte == b',').collect();
    parts.join(blanks.as_bytes())
}

/// A line ends behind the first comma at its column `width` or later.
pub fn broken(text: &[u8], width: usize, line_end: &str) -> Vec<u8> {
    let mut sent = Vec::new();
    let mut column = 0;
    for &byte in text {
        sent.push(byte);
        column += 1;
        if byte == b',' && column >= width {
            sent.extend(line_end.bytes());
            column = 0;
        }
    }
    sent.extend(line_end.bytes());
    sent
}

/// A label or a bracket a line, each as far in as brackets are open around it.
pub fn indented(text: &[u8], step: &str, line_end: &str) -> Vec<u8> {
    let mut sent = Vec::new();
    let mut open: usize = 0;
    for &byte in text {
        if byte == b')' {
            open = open.saturating_sub(1);
            sent.extend(format!("{line_end}{}", step.repeat(open)).bytes());
        }
        sent.push(byte);
        open += usize::from(byte == b'(');
        if byte == b'(' || byte == b',' {
            sent.extend(format!("{line_end}{}", step.repeat(open)).bytes());
        }
    }
    sent.extend(line_end.bytes());
    sent
}
