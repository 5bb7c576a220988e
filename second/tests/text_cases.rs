//! The seeded cases of texts with blanks: their answers are found again from the signs
//! alone, and there are enough of every kind.

mod common;

use common::{hashes_before, lengths, refused};
use second::answer::Answer::{self, Done, Refused};
use second::answer::Refusal;
use second::calls;
use second::cases::{self, newick_files};
use second::run::{run, Given};
use second::stream::{self, Case};
use std::collections::{BTreeMap, BTreeSet};
use std::sync::{Arc, Mutex};

const BLANKS: &[u8] = b" \t\r\n";

/// A text, its room, the answer, and the hash of its buffer after the call.
struct Ran {
    case: Case,
    text: Vec<u8>,
    room: usize,
    answer: Answer,
    hashes: Vec<u32>,
}

/// All the cases, made and run once for all the tests.
fn all() -> Arc<Vec<Ran>> {
    static ALL: Mutex<Option<Arc<Vec<Ran>>>> = Mutex::new(None);
    let mut all = ALL.lock().unwrap();
    let made = || Arc::new(cases::of_texts().into_iter().map(ran).collect());
    Arc::clone(all.get_or_insert_with(made))
}

fn ran(case: Case) -> Ran {
    match (case.clone(), run(&case)) {
        (Case::FromNewick { text, out }, (Given::Answer(answer), hashes)) => {
            Ran { case, text, room: out.room, answer, hashes }
        }
        _ => panic!("the cases are all texts"),
    }
}

fn blank(byte: &u8) -> bool {
    BLANKS.contains(byte)
}

/// The places of the bytes that are no blanks.
fn signs(text: &[u8]) -> Vec<usize> {
    (0..text.len()).filter(|&place| !blank(&text[place])).collect()
}

/// The first digit that follows a digit and blanks.
fn parted(text: &[u8]) -> Option<usize> {
    let signs = signs(text);
    let digit = |place: usize| text[place].is_ascii_digit();
    let two = signs.windows(2).find(|two| two[0] + 1 < two[1] && two.iter().all(|&p| digit(p)));
    two.map(|two| two[1])
}

/// The answer that follows from that about the signs without blanks: their break or the
/// first parted label, whichever comes first, and every place as sent.
fn answer_from_signs(text: &[u8], room: usize) -> Answer {
    if text.len() > 65536 {
        return refused(2, 65536);
    }
    let places = signs(text);
    let bytes: Vec<u8> = places.iter().map(|&place| text[place]).collect();
    let sent = |place: usize| places.get(place).copied().unwrap_or(text.len());
    match (calls::from_newick(&bytes, &mut vec![0; room]), parted(text)) {
        (Refused(Refusal { number: 2, place }), _) => refused(2, place),
        (Refused(Refusal { number: 8, place }), None) => refused(8, sent(place)),
        (Refused(Refusal { number: 8, place }), Some(digit)) => refused(8, sent(place).min(digit)),
        (_, Some(digit)) => refused(8, digit),
        (Refused(Refusal { number: number @ (9 | 13), place }), None) => {
            refused(number, sent(place))
        }
        (answer, None) => answer,
    }
}

#[test]
fn answers_follow_from_the_signs() {
    for case in all().iter() {
        let wanted = answer_from_signs(&case.text, case.room);
        assert_eq!(case.answer, wanted, "{:?}", String::from_utf8_lossy(&case.text));
    }
}

#[test]
fn every_refusal_comes_often_enough() {
    let mut counts = BTreeMap::new();
    for case in all().iter() {
        let outcome = match case.answer {
            Done(_) => (0, 0),
            Refused(Refusal { number: 2, place }) => (2, place),
            Refused(refusal) => (refusal.number, 0),
        };
        *counts.entry(outcome).or_insert(0) += 1;
    }
    let wanted = [
        ((0, 0), 300),
        ((1, 0), 10),
        ((2, 6056), 20),
        ((2, 65536), 4),
        ((3, 0), 150),
        ((8, 0), 700),
        ((9, 0), 150),
        ((13, 0), 80),
    ];
    assert!(counts.keys().eq(wanted.iter().map(|(outcome, _)| outcome)), "{counts:?}");
    for (outcome, least) in wanted {
        assert!(counts[&outcome] >= least, "{outcome:?}: {}", counts[&outcome]);
    }
}

#[test]
fn there_are_enough_cases_and_they_are_small_enough() {
    let all = all();
    assert!(all.len() >= 2000, "{}", all.len());
    let cases: Vec<Case> = all.iter().map(|case| case.case.clone()).collect();
    let stream = stream::write(&cases);
    assert!(stream.len() <= 2_500_000, "{}", stream.len());
    assert_eq!(stream::read(&stream), cases);
    let longest = cases.iter().flat_map(lengths).max().unwrap();
    assert_eq!(longest, stream::LONGEST_TEXT);
    assert!(all.iter().all(|case| case.room <= stream::LONGEST));
}

/// Texts with blanks are done for leaf counts at both ends, and with each kind of room.
#[test]
fn sizes_and_rooms_have_their_share() {
    let mut done = BTreeMap::new();
    let mut rooms = BTreeMap::new();
    for case in all().iter().filter(|case| case.text.iter().any(blank)) {
        match case.answer {
            Done(n) => {
                *done.entry(n).or_insert(0) += 1;
                *rooms.entry(if case.room == n { "exact" } else { "ample" }).or_insert(0) += 1;
            }
            Refused(Refusal { number: 3, place }) if case.room == 0 && place > 1 => {
                *rooms.entry("none").or_insert(0) += 1;
            }
            Refused(Refusal { number: 3, place }) if case.room + 1 == place => {
                *rooms.entry("one short").or_insert(0) += 1;
            }
            Refused(_) => {}
        }
    }
    for n in [1, 2, 3, 1023, 1024] {
        assert!(done.get(&n) >= Some(&4), "{n} leaves");
    }
    assert!(done.len() >= 50, "{} sizes", done.len());
    for room in ["exact", "ample", "none", "one short"] {
        assert!(rooms.get(room) >= Some(&30), "{room}: {rooms:?}");
    }
}

/// Each blank stands beside each sign, before the first and behind the last, in texts
/// that are not refused for it.
#[test]
fn every_blank_stands_everywhere() {
    let mut found = BTreeSet::new();
    for case in all().iter().filter(|case| matches!(case.answer, Done(_))) {
        let text = &case.text;
        let kind = |byte: u8| if byte.is_ascii_digit() { b'0' } else { byte };
        found.extend(text.windows(2).map(|two| (kind(two[0]), kind(two[1]))));
        found.extend([(b'^', text[0]), (text[text.len() - 1], b'$')]);
    }
    for &blank in BLANKS {
        assert!(found.contains(&(b'^', blank)) && found.contains(&(blank, b'$')));
        for sign in *b"0(),;" {
            assert!(found.contains(&(blank, sign)), "{blank} before {sign}");
            assert!(found.contains(&(sign, blank)), "{blank} behind {sign}");
        }
        for &other in BLANKS {
            assert!(found.contains(&(blank, other)), "{blank} before {other}");
        }
    }
}

/// Labels of every length are parted, by one blank and by several, in front of another
/// break and behind one.
#[test]
fn labels_are_parted_in_every_way() {
    let mut digits = BTreeSet::new();
    let mut ways: BTreeMap<&str, usize> = BTreeMap::new();
    for case in all().iter() {
        let (digit, place) = match (parted(&case.text), case.answer) {
            (Some(digit), Refused(Refusal { number: 8, place })) => (digit, place),
            _ => continue,
        };
        let before = &case.text[..digit];
        let label = before.iter().rposition(|byte| !blank(byte)).unwrap();
        digits.insert(before[..=label].iter().rev().take_while(|b| b.is_ascii_digit()).count());
        *ways.entry(if digit - label > 2 { "several" } else { "one" }).or_default() += 1;
        let signs: Vec<u8> = case.text.iter().copied().filter(|byte| !blank(byte)).collect();
        let broken = matches!(
            calls::from_newick(&signs, &mut []),
            Refused(Refusal { number: 8, place }) if place < signs.len()
        );
        let way = match (place == digit, broken) {
            (true, true) => "in front",
            (true, false) => "alone",
            (false, _) => "behind",
        };
        *ways.entry(way).or_default() += 1;
    }
    assert_eq!(digits, BTreeSet::from([1, 2, 3, 4]));
    for way in ["one", "several", "in front", "alone", "behind"] {
        assert!(ways[way] >= 30, "{ways:?}");
    }
}

/// Bytes that are nearly blanks are at fault where they stand.
#[test]
fn bytes_that_are_nearly_blanks() {
    let mut counts = BTreeMap::new();
    for case in all().iter() {
        if let Refused(Refusal { number: 8, place }) = case.answer {
            if let Some(byte) = case.text.get(place) {
                *counts.entry(*byte).or_insert(0) += 1;
            }
        }
    }
    for byte in [0, 8, 11, 12, 14, 31, 33, 160, 255] {
        assert!(counts.get(&byte) >= Some(&20), "byte {byte}");
    }
    assert!(BLANKS.iter().all(|blank| !counts.contains_key(blank)));
}

/// The greatest numbers of bytes and of signs, and one more of each.
#[test]
fn texts_at_the_greatest_lengths_are_among_the_cases() {
    let all = all();
    let count = |bytes: usize, count: usize, answer: Answer| {
        let same = |case: &&Ran| case.text.len() == bytes && case.answer == answer;
        all.iter().filter(same).filter(|case| signs(&case.text).len() == count).count()
    };
    for (bytes, signs, answer) in [
        (65535, 6056, Done(1024)),
        (65536, 6056, Done(1024)),
        (65537, 6056, refused(2, 65536)),
        (65600, 6056, refused(2, 65536)),
        (65536, 6057, refused(2, 6056)),
        (65537, 6057, refused(2, 65536)),
        (65536, 2, Done(1)),
        (65536, 3, refused(8, 65534)),
        (65536, 0, refused(8, 65536)),
        (65537, 0, refused(2, 65536)),
        (0, 0, refused(8, 0)),
        (1, 0, refused(8, 1)),
    ] {
        assert!(count(bytes, signs, answer) > 0, "{bytes} bytes, {signs} signs, {answer}");
    }
    for number in [8, 9, 13] {
        let far = |answer| matches!(answer, Refused(r) if r.number == number && r.place > 60000);
        assert!(all.iter().any(|case| far(case.answer)), "{number} far behind");
    }
}

/// 2 comes before what breaks a text at its front, and not where the signs are 6,056.
#[test]
fn texts_with_the_most_signs_are_broken_early_too() {
    let mut found = BTreeSet::new();
    for case in all().iter() {
        let places = signs(&case.text);
        let early = match places.first().map(|&place| case.text[place]) {
            Some(b'x') => "broken",
            Some(b'1') if parted(&case.text) == Some(places[1]) => "parted",
            _ => continue,
        };
        match case.answer {
            Refused(Refusal { number, .. }) => found.insert((early, places.len(), number)),
            Done(_) => panic!("a broken text is refused"),
        };
    }
    for early in ["broken", "parted"] {
        assert!(found.contains(&(early, 6056, 8)) && found.contains(&(early, 6057, 2)), "{early}");
    }
}

/// Every Newick file is read whole, and is a case as it stands.
#[test]
fn newick_files_are_among_the_cases_and_done() {
    for file in newick_files::all() {
        let n = file.contents.iter().filter(|&&byte| byte == b',').count() + 1;
        let all = all();
        let done = all.iter().filter(|case| case.text == file.contents && case.answer == Done(n));
        assert!(done.count() >= 1, "{}", file.name);
    }
}

#[test]
fn refusals_leave_buffers_alone() {
    for case in all().iter().filter(|case| matches!(case.answer, Refused(_))) {
        assert_eq!(case.hashes, hashes_before(&case.case));
    }
}
