//! The seeded cases: there are enough of every kind, the stream says what the
//! cases are, and the lines say what the calls do.

mod common;

use common::{hashes_before, lengths};
use second::answer::Answer::{self, Done, Refused};
use second::cases;
use second::run::{hash, line, run, Given};
use second::stream::{self, Case, Lent};
use std::collections::{BTreeMap, BTreeSet};
use std::sync::{Arc, Mutex};

/// A case, its answer, and the hashes of its buffers after the call.
type Ran = (Case, Answer, Vec<u32>);

/// All the cases, made and run once for all the tests.
fn all() -> Arc<Vec<Ran>> {
    static ALL: Mutex<Option<Arc<Vec<Ran>>>> = Mutex::new(None);
    let mut all = ALL.lock().unwrap();
    let ran = all.get_or_insert_with(|| Arc::new(cases::all().into_iter().map(ran).collect()));
    Arc::clone(ran)
}

fn ran(case: Case) -> Ran {
    match run(&case) {
        (Given::Answer(answer), hashes) => (case, answer, hashes),
        (Given::Part(_), _) => panic!("the view is no call of 01"),
    }
}

/// How often each call gives each refusal; 0 stands for done.
fn counts() -> BTreeMap<(u8, u8), usize> {
    let mut counts = BTreeMap::new();
    for (case, answer, _) in all().iter() {
        let outcome = match answer {
            Done(_) => 0,
            Refused(refusal) => refusal.number,
        };
        *counts.entry((stream::number(case), outcome)).or_insert(0) += 1;
    }
    counts
}

/// Done, and every refusal that 01's order, and 02's, gives to the call, and no other.
#[test]
fn every_call_meets_every_refusal_it_can_give() {
    let wanted: [(u8, &[u8]); 9] = [
        (1, &[0, 1, 4]),
        (2, &[0, 1, 3, 4]),
        (3, &[0, 1, 2, 3, 5, 6, 7]),
        (4, &[0, 1, 3, 4]),
        (5, &[0, 1, 2, 3, 8, 9, 13]),
        (6, &[0, 1, 3, 4]),
        (7, &[0, 1, 2, 3, 4, 10]),
        (8, &[0, 1, 3, 4]),
        (9, &[0, 1, 2, 3, 4, 11]),
    ];
    let counts = counts();
    let pairs: Vec<(u8, u8)> =
        wanted.iter().flat_map(|(call, outs)| outs.iter().map(move |out| (*call, *out))).collect();
    assert_eq!(counts.keys().copied().collect::<Vec<_>>(), pairs);
    for (pair, count) in counts {
        assert!(count >= 8, "{pair:?} comes {count} times");
    }
}

/// What is wrong with a text's labels, in text order: 9 or 13.
fn label_faults(text: &[u8]) -> Vec<u8> {
    let runs = text.split(|byte| !byte.is_ascii_digit()).filter(|run| !run.is_empty());
    let labels: Vec<&[u8]> = runs.collect();
    let right: Vec<String> = (0..labels.len()).map(|label| label.to_string()).collect();
    let mut unused: BTreeSet<&[u8]> = right.iter().map(|label| label.as_bytes()).collect();
    let mut faults = Vec::new();
    for label in labels {
        if !right.iter().any(|other| other.as_bytes() == label) {
            faults.push(9);
        } else if !unused.remove(label) {
            faults.push(13);
        }
    }
    faults
}

/// Of texts with faults of both kinds, either one is the first often enough, and told.
#[test]
fn labels_at_fault_come_in_either_order() {
    let mut firsts = BTreeMap::new();
    for (case, answer, _) in all().iter() {
        let (text, refusal) = match (case, answer) {
            (Case::FromNewick { text, .. }, Refused(r)) if [9, 13].contains(&r.number) => (text, r),
            _ => continue,
        };
        let faults = label_faults(text);
        assert_eq!(faults[0], refusal.number);
        if faults.iter().any(|&fault| fault != faults[0]) {
            *firsts.entry(faults[0]).or_insert(0) += 1;
        }
    }
    assert!(firsts[&9] >= 100 && firsts[&13] >= 100, "{firsts:?}");
}

#[test]
fn there_are_enough_cases_and_they_are_small_enough() {
    let all: Vec<Case> = all().iter().map(|(case, _, _)| case.clone()).collect();
    assert!(all.len() >= 6000);
    assert!(stream::write(&all).len() <= 4 << 20);
    let longest = all.iter().flat_map(lengths).max().unwrap();
    assert!(longest > 6056 && longest <= 8192, "{longest}");
}

/// Of each call that makes a vector, the leaf counts at both ends are done.
#[test]
fn sizes_at_the_ends_have_their_share() {
    let mut done = BTreeMap::new();
    for (case, answer, _) in all().iter() {
        if let Done(count) = answer {
            *done.entry((stream::number(case), *count)).or_insert(0) += 1;
        }
    }
    for call in [3, 5, 7, 8, 9] {
        for n in [1, 2, 3, 1023, 1024] {
            assert!(done.get(&(call, n)) >= Some(&4), "call {call} with {n} leaves");
        }
    }
}

/// A right text of the greatest length, and one byte more.
#[test]
fn texts_at_the_greatest_length_are_among_the_cases() {
    let mut answers = Vec::new();
    for (case, answer, _) in all().iter() {
        if let Case::FromNewick { text, .. } = case {
            if text.len() == 6056 || text.len() == 6057 {
                answers.push((text.len(), *answer));
            }
        }
    }
    assert!(answers.contains(&(6056, Done(1024))));
    assert!(answers.contains(&(6057, common::refused(2, 6056))));
    assert!(!answers.contains(&(6056, common::refused(2, 6056))));
}

#[test]
fn the_stream_is_read_as_it_was_written() {
    let all: Vec<Case> = all().iter().map(|(case, _, _)| case.clone()).collect();
    assert_eq!(stream::read(&stream::write(&all)), all);
}

/// The format of README.md, byte for byte.
#[test]
fn streams_byte_for_byte() {
    let out = Lent { room: 3, seed: 0x0102 };
    let case = Case::FromTable { leaves: 2, rows: vec![0, 1, 2], out };
    let mut wanted = vec![3, 2, 0, 0, 0, 0, 0, 0, 0, 3, 0, 0, 0, 0, 0, 1, 0, 2, 0];
    wanted.extend([3, 0, 0, 0, 0x02, 0x01, 0]);
    assert_eq!(stream::write(&[case]), wanted);
    let case = Case::Unpack { record: vec![0x00, 0x40], out };
    assert_eq!(stream::write(&[case]), [7, 2, 0, 0, 0, 0x00, 0x40, 3, 0, 0, 0, 0x02, 0x01, 0]);
}

#[test]
fn hashes_are_fnv_1a() {
    assert_eq!(hash(b""), 0x811c9dc5);
    assert_eq!(hash(b"a"), 0xe40c292c);
    assert_eq!(hash(b"foobar"), 0xbf9cf968);
}

#[test]
fn buffers_hold_what_the_seed_says() {
    let lent = Lent { room: 4, seed: 65500 };
    assert_eq!(lent.words(), [65500, 65531, 26, 57]);
    assert_eq!(lent.bytes(), [220, 251, 26, 57]);
}

/// The hash is of the whole buffer after the call: written elements and the tail,
/// or the old elements where the call was refused.
#[test]
fn lines_have_hashes_of_whole_buffers() {
    let out = Lent { room: 3, seed: 7 };
    let done = Case::Relabel { v: vec![0, 0], p: vec![1, 0], out };
    let after = hash(&[0, 0, 0, 0, 69, 0]);
    assert_eq!(line(&done), format!("9 done 2 {after:08x}"));
    let case = Case::Relabel { v: vec![0, 0], p: vec![1, 1], out };
    let before = hash(&[7, 0, 38, 0, 69, 0]);
    assert_eq!(line(&case), format!("9 refused 11 1 {before:08x}"));
    assert_eq!(line(&Case::Check { v: vec![0] }), "1 done 0");
    let both = Case::Shuffle { v: vec![0, 0], new_out: out, vector_out: Lent { room: 2, seed: 9 } };
    let (new, vector) = (hash(&[0, 0, 1, 0, 69, 0]), hash(&[0; 4]));
    assert_eq!(line(&both), format!("8 done 2 {new:08x} {vector:08x}"));
}

/// A refusal leaves every buffer as it was, in all the cases.
#[test]
fn refusals_leave_buffers_alone() {
    let mut refusals = 0;
    for (case, answer, hashes) in all().iter() {
        if let Refused(_) = answer {
            assert_eq!(*hashes, hashes_before(case));
            refusals += 1;
        }
    }
    assert!(refusals > 1000);
}

/// The rows of another order give the tree that they tell of.
#[test]
fn tables_in_another_order_are_among_the_cases_and_done() {
    let mut reordered = 0;
    for (case, _, _) in all().iter() {
        if let Case::FromTable { leaves, rows, .. } = case {
            let mut v = vec![0; rows.len() / 3 + 1];
            let n = v.len();
            if second::calls::from_table(*leaves, rows, &mut v) == Done(n) {
                reordered += usize::from(common::table(&v) != *rows);
            }
        }
    }
    assert!(reordered > 50, "{reordered}");
}
