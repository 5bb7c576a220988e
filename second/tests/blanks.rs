//! Blanks in texts, 02's CR 3: "Accept spaces, tabs, carriage returns and line feeds
//! anywhere except inside a label, also before the first sign and after the semicolon.
//! Places of 8, 9 and 13 are in the bytes as sent. [..] 2 is now given first for a text
//! above 65,536 bytes (place 65536), then for more than 6,056 bytes that aren't blanks
//! (place 6056)."

mod common;

use common::*;
use second::answer::Answer::{Done, Refused};
use second::answer::Refusal;
use second::calls;
use second::cases::chance::Chance;
use second::cases::vectors;
use second::grammar::follows;

const BLANKS: &str = " \t\r\n";

/// A text of 6,056 bytes, none of them a blank.
fn longest() -> String {
    let text = text(&[0; 1024]);
    assert_eq!(text.len(), 6056);
    text
}

/// The bytes with blanks behind the semicolon, so many in all.
fn filled(text: &str, length: usize) -> Vec<u8> {
    let mut bytes = text.as_bytes().to_vec();
    bytes.resize(length, b'\n');
    bytes
}

#[test]
fn texts_and_their_answers() {
    for (text, answer) in [
        ("( 0 , 1 ) ; ", Done(2)),
        (" 0;", Done(1)),
        ("0 ;", Done(1)),
        ("0;\r\n", Done(1)),
        ("\t\r\n 0 \n\r\t ; \t", Done(1)),
        ("((0,\n  1),\n 2);\n", Done(3)),
        // A label is parted, and the digit behind the blanks is at fault.
        ("1 2;", refused(8, 2)),
        ("1 \t\r\n2;", refused(8, 5)),
        ("0 0;", refused(8, 2)),
        ("(1,0 0);", refused(8, 5)),
        ("123 4;", refused(8, 4)),
        ("1234 5;", refused(8, 5)),
        ("1 2 3;", refused(8, 2)),
        ("(1 2,x);", refused(8, 3)),
        ("(x,1 2);", refused(8, 1)),
        // Another byte is at fault.
        ("(0,1) x", refused(8, 6)),
        ("(0,1);x", refused(8, 6)),
        ("(0,1) ; \n x", refused(8, 10)),
        (" ;", refused(8, 1)),
        ("( )", refused(8, 2)),
        ("0 , 1;", refused(8, 2)),
        ("0; ;", refused(8, 3)),
        // The text ends early, and the blanks behind it count.
        ("", refused(8, 0)),
        (" ", refused(8, 1)),
        ("\n\n\n", refused(8, 3)),
        ("1 ", refused(8, 2)),
        ("(0,1) ", refused(8, 6)),
        ("( 0 , 1 ) \r\n", refused(8, 12)),
        // A label is at fault.
        (" 5;", refused(9, 1)),
        ("( 5,0);", refused(9, 2)),
        ("(0,\n\t5 );", refused(9, 5)),
        ("(0 , 0);", refused(13, 5)),
        ("( ( 0 , 0 ) , 7 ) ;", refused(13, 8)),
        ("( ( 0 , 7 ) , 0 ) ;", refused(9, 8)),
        ("( 7 , 7 );", refused(9, 2)),
    ] {
        assert_eq!(answer_of_text(text.as_bytes()), answer, "{text:?}");
    }
    assert_eq!(of_text("( 0 , 1 ) ; "), [0, 0]);
    assert_eq!(of_text("((0,\n  1),\n 2);\n"), [0, 0, 2]);
}

/// A blank between two digits of one label parts it; anywhere else it says nothing.
#[test]
fn a_blank_more_at_each_place() {
    let text = "((0,1234),(12,3));";
    for place in 0..=text.len() {
        let (front, behind) = text.split_at(place);
        let digit = |sign: Option<char>| sign.map_or(false, |sign| sign.is_ascii_digit());
        let parted = digit(front.chars().last()) && digit(behind.chars().next());
        for blank in BLANKS.chars() {
            let sent = format!("{front}{blank}{behind}");
            let wanted = if parted { Err(Refusal { number: 8, place: place + 1 }) } else { Ok(()) };
            assert_eq!(follows(sent.as_bytes()), wanted, "{sent:?}");
        }
    }
}

/// "A bracket that would be the 1,024th open at once breaks the grammar at its byte",
/// wherever blanks have moved that byte.
#[test]
fn the_1024th_open_bracket_is_at_fault_as_sent() {
    for blanks in ["", " ", "\r\n", "\t\t \n"] {
        let step = 1 + blanks.len();
        let brackets = format!("{blanks}(").repeat(1024);
        assert_eq!(answer_of_text(brackets.as_bytes()), refused(8, 1024 * step - 1));
        let fewer = &brackets[..1023 * step];
        assert_eq!(answer_of_text(fewer.as_bytes()), refused(8, 1023 * step));
        let nodes = format!("{blanks}( 0,").repeat(1023);
        let closing = ")".repeat(1023);
        let right = format!("{nodes}0{blanks}{closing};");
        assert_eq!(follows(right.as_bytes()), Ok(()));
        let deeper = format!("{nodes} (");
        assert_eq!(answer_of_text(deeper.as_bytes()), refused(8, deeper.len() - 1));
    }
}

/// "2 is now given first for a text above 65,536 bytes": whatever else is wrong, and
/// however few of the bytes are signs.
#[test]
fn bytes_at_their_greatest_number() {
    let text = longest();
    assert_eq!(answer_of_text(&filled(&text, 65535)), Done(1024));
    assert_eq!(answer_of_text(&filled(&text, 65536)), Done(1024));
    assert_eq!(answer_of_text(&filled(&text, 65537)), refused(2, 65536));
    assert_eq!(answer_of_text(&filled("0;", 65536)), Done(1));
    assert_eq!(answer_of_text(&filled("0;", 65537)), refused(2, 65536));
    assert_eq!(answer_of_text(&filled("x", 65536)), refused(8, 0));
    assert_eq!(answer_of_text(&filled("x", 65537)), refused(2, 65536));
    assert_eq!(answer_of_text(&filled("", 65536)), refused(8, 65536));
    assert_eq!(answer_of_text(&filled("", 65537)), refused(2, 65536));
    assert_eq!(answer_of_text(&[b'('; 65536]), refused(2, 6056));
    assert_eq!(answer_of_text(&[b'('; 65537]), refused(2, 65536));
}

/// "then for more than 6,056 bytes that aren't blanks": blanks are not counted, and what
/// breaks the grammar is not looked at yet.
#[test]
fn signs_at_their_greatest_number() {
    let text = longest();
    let spaced = text.replace(',', ", ");
    assert_eq!(answer_of_text(spaced.as_bytes()), Done(1024));
    let goes_on = format!("{spaced};");
    assert_eq!(answer_of_text(goes_on.as_bytes()), refused(2, 6056));
    let early = format!("1 2{}", " x".repeat(6055));
    assert_eq!(answer_of_text(early.as_bytes()), refused(2, 6056));
    let one_less = &early[..early.len() - 1];
    assert_eq!(answer_of_text(one_less.as_bytes()), refused(8, 2));
    // A vertical tab is no blank and counts.
    let tabs = "\x0b".repeat(6057);
    assert_eq!(answer_of_text(tabs.as_bytes()), refused(2, 6056));
    assert_eq!(answer_of_text(&tabs.as_bytes()[1..]), refused(8, 0));
}

/// 1,025 labels are 1 with blanks too: after 8, and before 13.
#[test]
fn too_many_labels_with_blanks() {
    let most = format!(" {} ;\n", labels_of_zeros(1024));
    let second_zero = most.match_indices('0').nth(1).unwrap().0;
    assert_eq!(answer_of_text(most.as_bytes()), refused(13, second_zero));
    let too_many = format!(" {} ;\n", labels_of_zeros(1025));
    assert_eq!(answer_of_text(too_many.as_bytes()), refused(1, 0));
    let (front, last) = too_many.split_at(too_many.rfind('0').unwrap());
    let parted = format!("{front}0 {last}");
    assert_eq!(answer_of_text(parted.as_bytes()), refused(8, front.len() + 2));
}

/// A node of so many labels, all 0, in few levels, with blanks.
fn labels_of_zeros(count: usize) -> String {
    if count == 1 {
        return "0".to_string();
    }
    let half = count / 2;
    format!("( {} ,{}\n)", labels_of_zeros(half), labels_of_zeros(count - half))
}

/// Blanks by chance at places where no label is parted, and where each byte then stands.
fn spread(text: &[u8], chance: &mut Chance) -> (Vec<u8>, Vec<usize>) {
    let mut sent = Vec::new();
    let mut places = Vec::new();
    let mut digit_before = false;
    for &byte in text {
        if !(digit_before && byte.is_ascii_digit()) {
            add_blanks(&mut sent, chance);
        }
        digit_before = byte.is_ascii_digit();
        places.push(sent.len());
        sent.push(byte);
    }
    add_blanks(&mut sent, chance);
    (sent, places)
}

fn add_blanks(sent: &mut Vec<u8>, chance: &mut Chance) {
    for _ in 0..chance.below(4).saturating_sub(1) {
        sent.push(chance.one_of(BLANKS.as_bytes()));
    }
}

/// "Demand 3 reads such a text as its signs without blanks": the same vector, and the
/// same fault at the same byte, wherever it stands.
#[test]
fn texts_that_differ_in_blanks_only_have_the_same_answer() {
    let mut chance = Chance::from_seed(7);
    for round in 0..400 {
        let v = vectors::right(&mut chance);
        let mut signs = text(&v).into_bytes();
        if round % 2 == 1 {
            let place = chance.index(signs.len());
            signs[place] = chance.one_of(b"0123456789(),;x");
        }
        let (sent, places) = spread(&signs, &mut chance);
        let mut without = vec![7; 1024];
        let mut with = without.clone();
        let wanted = match calls::from_newick(&signs, &mut without) {
            Refused(Refusal { number, place }) => {
                refused(number, places.get(place).copied().unwrap_or(sent.len()))
            }
            done => done,
        };
        assert_eq!(calls::from_newick(&sent, &mut with), wanted);
        assert_eq!(with, without);
    }
}

/// "The writer still writes none."
#[test]
fn no_blank_is_written() {
    let mut chance = Chance::from_seed(8);
    for _ in 0..100 {
        let text = text(&vectors::right(&mut chance));
        assert!(text.bytes().all(|byte| b"0123456789(),;".contains(&byte)), "{text}");
    }
}
