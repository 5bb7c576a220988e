//! The place of refusal 8 against another definition, found by listing how texts
//! begin: "first byte such that no text begins with the bytes up to and including
//! it; the length if it ends early". Texts are listed with blanks, and without.

mod common;

use common::*;
use second::answer::Answer::Done;
use second::answer::Refusal;
use second::grammar::follows;
use std::collections::BTreeSet;

type Words = BTreeSet<Vec<u8>>;

fn word(text: &str) -> Words {
    BTreeSet::from([text.as_bytes().to_vec()])
}

/// The words of one set before those of another, each cut to `most` bytes.
fn joined(first: &Words, second: &Words, most: usize) -> Words {
    let cut = |word: &Vec<u8>, length: usize| word.iter().take(length).copied().collect();
    let backs: Vec<Words> =
        (0..=most).map(|length| second.iter().map(|word| cut(word, length)).collect()).collect();
    let mut words = Words::new();
    for front in first {
        let front = &front[..most.min(front.len())];
        words.extend(backs[most - front.len()].iter().map(|back| [front, back].concat()));
    }
    words
}

/// The labels that have no digit but 0 and the given one.
fn labels(digit: char) -> Words {
    let mut labels = word("0");
    let mut longer = vec![digit.to_string()];
    for _ in 0..4 {
        labels.extend(longer.iter().map(|label| label.as_bytes().to_vec()));
        longer = longer.iter().flat_map(|l| [format!("{l}0"), format!("{l}{digit}")]).collect();
    }
    labels
}

/// All texts with such labels, each cut to `most` bytes; any number of the given blank
/// stands before each sign or label and behind the last. The nodes are found level by
/// level until a further level gives none that is new.
fn texts(digit: char, blank: &str, most: usize) -> Words {
    let blanks: Words = (0..=most).map(|count| blank.repeat(count).into_bytes()).collect();
    let spaced = |words: &Words| joined(&blanks, words, most);
    let mut nodes = spaced(&labels(digit));
    loop {
        let mut pairs = spaced(&word("("));
        for part in [&nodes, &spaced(&word(",")), &nodes, &spaced(&word(")"))] {
            pairs = joined(&pairs, part, most);
        }
        let count = nodes.len();
        nodes.extend(pairs);
        if nodes.len() == count {
            return joined(&joined(&nodes, &spaced(&word(";")), most), &blanks, most);
        }
    }
}

/// Every row of the signs up to a length.
fn rows(signs: &[u8], longest: usize) -> Vec<Vec<u8>> {
    let mut rows = vec![Vec::new()];
    let mut from = 0;
    for _ in 0..longest {
        let shorter = rows[from..].to_vec();
        from = rows.len();
        rows.extend(
            shorter.iter().flat_map(|row| signs.iter().map(move |s| [row, &[*s][..]].concat())),
        );
    }
    rows
}

/// The rows have the two digits, the other signs and the blank, if there is one.
fn compare(digit: char, blank: &str, longest: usize) {
    // Texts cut one byte later than the longest row: what is not longer is whole.
    let texts = texts(digit, blank, longest + 1);
    let beginnings: Words =
        texts.iter().flat_map(|t| (0..=t.len()).map(move |k| t[..k].to_vec())).collect();
    let mut whole = 0;
    for row in rows(format!("0{digit},();{blank}").as_bytes(), longest) {
        let fault = (0..row.len()).find(|&place| !beginnings.contains(&row[..=place]));
        let wanted = match fault {
            None if texts.contains(&row) => Ok(()),
            None => Err(Refusal { number: 8, place: row.len() }),
            Some(place) => Err(Refusal { number: 8, place }),
        };
        whole += usize::from(wanted.is_ok());
        assert_eq!(follows(&row), wanted, "{}", String::from_utf8_lossy(&row));
    }
    assert!(whole > 10, "some of the rows are whole texts");
}

#[test]
fn places_are_where_no_text_begins_so() {
    compare('1', "", 7);
}

#[test]
fn places_count_blanks() {
    compare('1', " ", 7);
}

#[test]
fn places_count_every_blank() {
    for blank in ["\t", "\r", "\n"] {
        compare('7', blank, 5);
    }
}

#[test]
fn places_are_the_same_with_another_digit() {
    compare('9', "", 5);
}

/// A byte that is no sign of the grammar and no blank is at fault where it stands, also
/// those that other programs take for blanks: 0, 11, 12 and 160.
#[test]
fn other_bytes_are_at_fault_where_they_stand() {
    let text = b"((0,1234),(12,3));";
    assert_eq!(follows(text), Ok(()));
    for place in 0..=text.len() {
        for byte in (0..=255).filter(|byte| !b"0123456789(),; \t\r\n".contains(byte)) {
            let mut inserted = text.to_vec();
            inserted.insert(place, byte);
            assert_eq!(follows(&inserted), Err(Refusal { number: 8, place }));
        }
    }
}

/// "A bracket that would be the 1,024th open at once breaks the grammar at its
/// byte", in the first node or the second.
#[test]
fn the_1024th_open_bracket_is_at_fault() {
    let levels = 1023;
    let first = format!("{}0{};", "(".repeat(levels), ",0)".repeat(levels));
    let second = format!("{}0{};", "(0,".repeat(levels), ")".repeat(levels));
    assert_eq!(follows(first.as_bytes()), Ok(()));
    assert_eq!(follows(second.as_bytes()), Ok(()));
    assert_eq!(follows(&[b'('; 1023]), Err(Refusal { number: 8, place: 1023 }));
    assert_eq!(follows(&[b'('; 1025]), Err(Refusal { number: 8, place: 1023 }));
    let too_deep = "(0,".repeat(levels + 1);
    assert_eq!(follows(too_deep.as_bytes()), Err(Refusal { number: 8, place: 3 * levels }));
    // Open at once is what counts: a bracket closed makes room for another.
    let inner = first.trim_end_matches(';');
    let twice = format!("({},0)", &inner[1..inner.len() - 3]);
    assert_eq!(follows(format!("{twice};").as_bytes()), Ok(()));
    let again = format!("({twice},0);");
    assert_eq!(follows(again.as_bytes()), Err(Refusal { number: 8, place: 1023 }));
}

/// The reader takes texts as deep as the nesting may go.
#[test]
fn the_deepest_trees_are_read() {
    let down_first: String = (1..=1023).map(|label| format!(",{label})")).collect();
    let text = format!("{}0{down_first};", "(".repeat(1023));
    assert_eq!(text.len(), 6056);
    let v: Vec<u16> = (0..1024).map(|i: u16| 2 * i.saturating_sub(1)).collect();
    assert_eq!(of_text(&text), v);
    let down_second: String = (0..1023).map(|label| format!("({label},")).collect();
    let text = format!("{down_second}1023{};", ")".repeat(1023));
    let v: Vec<u16> = (0..1024).map(|i: u16| i.saturating_sub(1)).collect();
    assert_eq!(of_text(&text), v);
}

#[test]
fn labels_of_one_to_four_digits() {
    for (text, answer) in [
        ("0;", Done(1)),
        ("9;", refused(9, 0)),
        ("9999;", refused(9, 0)),
        ("10000;", refused(8, 4)),
        ("00;", refused(8, 1)),
        ("(0,01);", refused(8, 4)),
        ("(1,0);;", refused(8, 6)),
        ("-1;", refused(8, 0)),
        (";", refused(8, 0)),
        ("()", refused(8, 1)),
        ("(0)", refused(8, 2)),
        ("(0,", refused(8, 3)),
        ("0,1;", refused(8, 1)),
    ] {
        assert_eq!(answer_of_text(text.as_bytes()), answer, "{text}");
    }
}
