//! Cases of texts with blanks that follow a plan: each blank at each place of short
//! texts, and bytes that are nearly blanks; each room; the greatest numbers of bytes
//! and of signs.
//!
//! 02, CR 3: "2 is now given first for a text above 65,536 bytes (place 65536), then for
//! more than 6,056 bytes that aren't blanks (place 6056)."

use super::blanks::NEARLY;
use super::chance::Chance;
use super::{manners, rooms, texts, vectors};
use crate::grammar::BLANKS;
use crate::newick::{MOST_BYTES, MOST_SIGNS};
use crate::stream::{Case, LONGEST_TEXT};
use crate::vector::MOST_LEAVES;

/// Three of them are right; the label 10 is parted at one place, and stray at the others.
const SHORT: [&str; 4] = ["0;", "(0,1);", "((2,0),1);", "((10,1),2);"];

pub fn add(cases: &mut Vec<Case>, chance: &mut Chance) {
    for text in SHORT {
        one_at_every_place(cases, chance, text.as_bytes());
        two_at_every_two_places(cases, chance, text.as_bytes());
    }
    for n in [1, 2, 3, 4, 11, 1023, 1024] {
        each_room(cases, chance, n);
    }
    for text in most_signs(chance).into_iter().chain(longest(chance)) {
        // Where a text is right, 3 must not hide it.
        let n = text.iter().filter(|&&byte| byte == b',').count() + 1;
        cases.push(Case::FromNewick { text, out: rooms::enough(chance, n) });
    }
}

fn with_bytes(text: &[u8], place: usize, bytes: &[u8]) -> Vec<u8> {
    [&text[..place], bytes, &text[place..]].concat()
}

fn one_at_every_place(cases: &mut Vec<Case>, chance: &mut Chance, text: &[u8]) {
    for place in 0..=text.len() {
        for byte in BLANKS.into_iter().chain(NEARLY) {
            cases.push(texts::case(with_bytes(text, place, &[byte]), chance));
        }
    }
}

/// The second place may be the first one again.
fn two_at_every_two_places(cases: &mut Vec<Case>, chance: &mut Chance, text: &[u8]) {
    for second in 0..=text.len() {
        for first in 0..=second {
            let one = with_bytes(text, second, &manners::blanks(chance, 1));
            let two = with_bytes(&one, first, &manners::blanks(chance, 1));
            cases.push(texts::case(two, chance));
        }
    }
}

/// Exact, ample, short by one, half and none.
fn each_room(cases: &mut Vec<Case>, chance: &mut Chance, n: usize) {
    for room in [n, n + 1, n + 19, n - 1, n / 2, 0] {
        let v = vectors::of_size(chance, n);
        let text = texts::turned_text(chance, &v);
        let text = manners::any(chance, &text);
        cases.push(Case::FromNewick { text, out: rooms::of_room(chance, room) });
    }
}

/// As many signs as may be, or a few more, of texts that are right, or broken at once, or
/// begin with a parted label.
fn most_signs(chance: &mut Chance) -> Vec<Vec<u8>> {
    let right = texts::nested(1023, true);
    assert_eq!(right.len(), MOST_SIGNS);
    let mut texts = Vec::new();
    for (front, signs) in [("", 0), ("x", 1), ("1 2", 2)] {
        for more in [0, 1, 2, 50] {
            let text = format!("{front}{}{}", &right[signs..], ";".repeat(more));
            texts.push(manners::few(chance, text.as_bytes()));
        }
    }
    texts
}

/// Texts of the greatest lengths, with as many signs as may be and with few; faults
/// stand far behind.
fn longest(chance: &mut Chance) -> Vec<Vec<u8>> {
    let v = vectors::of_size(chance, MOST_LEAVES);
    let right = texts::turned_text(chance, &v);
    let goes_on = [&right[..], b";"].concat();
    // The last label is another one, which is stray, or double.
    let nested = texts::nested(1023, true);
    let stray = nested.replace("1023", "9999");
    let double = nested.replace("1023", "1022");
    let plans: [(&[u8], usize); 12] = [
        (&right, MOST_BYTES - 1),
        (&right, MOST_BYTES),
        (&right, MOST_BYTES + 1),
        (&right, LONGEST_TEXT),
        (&goes_on, MOST_BYTES),
        (&goes_on, MOST_BYTES + 1),
        (stray.as_bytes(), MOST_BYTES),
        (double.as_bytes(), MOST_BYTES),
        (b"", MOST_BYTES),
        (b"", MOST_BYTES + 1),
        (b"0;", MOST_BYTES),
        (b"(0,1);x", MOST_BYTES),
    ];
    let mut texts: Vec<Vec<u8>> =
        plans.map(|(text, length)| manners::stretched(chance, text, length)).into();
    // A label is parted by all the blanks that there may be.
    texts.push([b"1".to_vec(), manners::blanks(chance, MOST_BYTES - 3), b"2;".to_vec()].concat());
    texts
}
