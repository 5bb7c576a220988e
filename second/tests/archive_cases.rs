//! The seeded cases of the archive's calls: their answers are found again by
//! arithmetic, and there are enough of every kind.

mod common;

use common::{hashes_before, lengths, refused};
use second::answer::Answer::{Done, Refused};
use second::cases;
use second::run::{hash, line, run, Given};
use second::stream::{self, Case, Lent};
use std::collections::{BTreeMap, BTreeSet};
use std::sync::{Arc, Mutex};

const WRITE: u8 = 10;
const READ: u8 = 11;
const VIEW: u8 = 12;

/// A refusal's number and place.
type Fault = (u8, u64);

/// All the cases, made once for all the tests.
fn all() -> Arc<Vec<Case>> {
    static ALL: Mutex<Option<Arc<Vec<Case>>>> = Mutex::new(None);
    let mut all = ALL.lock().unwrap();
    Arc::clone(all.get_or_insert_with(|| Arc::new(cases::of_archives())))
}

fn bound(i: u64) -> u64 {
    2 * i.max(1) - 2
}

fn bits_of(n: u64) -> u64 {
    (2..n).map(|i| u64::from(u64::BITS - bound(i).leading_zeros())).sum()
}

fn record_length(n: u64) -> u64 {
    (bits_of(n) + 7) / 8
}

/// Leaf count and tree count of four bytes or more.
fn header(archive: &[u8]) -> Option<(u64, u64)> {
    let bytes: [u8; 4] = archive.get(..4)?.try_into().unwrap();
    let word = u64::from(u32::from_be_bytes(bytes));
    Some((word >> 21, word & 0x1F_FFFF))
}

/// The bits from one place to another, as one number.
fn number(record: &[u8], from: u64, to: u64) -> u64 {
    (from..to).fold(0, |number, place| {
        let byte = record[(place / 8) as usize];
        2 * number + u64::from(byte >> (7 - place % 8) & 1)
    })
}

fn entries(n: u64, record: &[u8]) -> Vec<u64> {
    let field = |i| if i < 2 { 0 } else { number(record, bits_of(i), bits_of(i + 1)) };
    (0..n).map(field).collect()
}

/// The place of record r, where there is such a record.
fn part(archive: &[u8], tree: u64) -> Option<(u64, u64)> {
    let (n, trees) = header(archive)?;
    let length = record_length(n);
    let right = (1..=1024).contains(&n) && archive.len() as u64 == 4 + trees * length;
    (right && tree < trees).then(|| (4 + tree * length, length))
}

/// Every fault that an input of the reader has, in 02's order. Where the leaf count is
/// not known, neither are the lengths.
fn faults_of_reading(archive: &[u8], tree: u64, room: usize) -> Vec<Fault> {
    let (n, trees) = match header(archive) {
        None => return vec![(2, 4)],
        Some(counts) => counts,
    };
    let known = (1..=1024).contains(&n);
    let mut faults = Vec::new();
    if !known {
        faults.push((1, 0));
    }
    if known && archive.len() as u64 != 4 + trees * record_length(n) {
        faults.push((2, 4 + trees * record_length(n)));
    }
    if tree >= trees {
        faults.push((12, tree));
    }
    if known && tree < trees {
        faults.extend(faults_of_tree(n, archive, tree));
    }
    if (room as u64) < n {
        faults.push((3, n));
    }
    faults
}

/// The faults of a record, as far as the archive reaches.
fn faults_of_tree(n: u64, archive: &[u8], tree: u64) -> Vec<Fault> {
    let start = (4 + tree * record_length(n)) as usize;
    let record = archive.get(start..start + record_length(n) as usize);
    record.map_or(Vec::new(), |record| faults_of_record(n, record))
}

fn faults_of_record(n: u64, record: &[u8]) -> Vec<Fault> {
    let entries = entries(n, record);
    let above = (0..n).find(|&i| entries[i as usize] > bound(i));
    let padding = number(record, bits_of(n), 8 * record.len() as u64);
    let mut faults: Vec<Fault> = above.into_iter().map(|i| (4, i)).collect();
    if padding != 0 {
        faults.push((10, record.len() as u64 - 1));
    }
    faults
}

/// Every fault that an input of the writer has, in 02's order.
fn faults_of_writing(leaves: u64, list: &[u16], room: usize) -> Vec<Fault> {
    if leaves == 0 || leaves > 1024 {
        return vec![(1, 0)];
    }
    let length = list.len() as u64;
    let trees = (length + leaves - 1) / leaves;
    let mut faults = Vec::new();
    if length % leaves != 0 {
        faults.push((2, trees * leaves));
    }
    let above = (0..length).find(|k| u64::from(list[*k as usize]) > bound(k % leaves));
    faults.extend(above.map(|k| (4, k)));
    let needed = 4 + trees * record_length(leaves);
    if (room as u64) < needed {
        faults.push((3, needed));
    }
    faults
}

fn faults(case: &Case) -> Vec<Fault> {
    match case {
        Case::WriteArchive { leaves, entries, out } => {
            faults_of_writing(*leaves, entries, out.room)
        }
        Case::ReadTree { archive, tree, out } => faults_of_reading(archive, *tree, out.room),
        _ => Vec::new(),
    }
}

/// What a case is done with, by arithmetic: the hash of its buffer.
fn hash_when_done(case: &Case) -> u32 {
    match case {
        Case::WriteArchive { leaves, entries, out } => {
            let mut bytes = out.bytes();
            let made = written(*leaves, entries);
            bytes[..made.len()].copy_from_slice(&made);
            hash(&bytes)
        }
        Case::ReadTree { archive, tree, out } => {
            let (n, _) = header(archive).unwrap();
            let (start, length) = part(archive, *tree).unwrap();
            let record = &archive[start as usize..(start + length) as usize];
            let mut words = out.words();
            for (word, entry) in words.iter_mut().zip(entries(n, record)) {
                *word = entry as u16;
            }
            hash(&words.iter().flat_map(|word| word.to_le_bytes()).collect::<Vec<u8>>())
        }
        _ => panic!("the view makes nothing"),
    }
}

/// The archive, each entry added to the bytes where its bits stand.
fn written(leaves: u64, list: &[u16]) -> Vec<u8> {
    let trees = list.len() as u64 / leaves;
    let mut bytes = ((leaves << 21 | trees) as u32).to_be_bytes().to_vec();
    bytes.resize((4 + trees * record_length(leaves)) as usize, 0);
    let ends: Vec<u64> = (0..leaves).map(|i| if i < 2 { 0 } else { bits_of(i + 1) }).collect();
    for (k, &entry) in list.iter().enumerate() {
        let (tree, i) = (k as u64 / leaves, k % leaves as usize);
        let end = 8 * (4 + tree * record_length(leaves)) + ends[i];
        for bit in 0..16 {
            if entry >> bit & 1 == 1 {
                let place = end - 1 - bit;
                bytes[(place / 8) as usize] |= 1 << (7 - place % 8);
            }
        }
    }
    bytes
}

#[test]
fn answers_and_buffers_are_found_again_by_arithmetic() {
    for case in all().iter() {
        let (given, hashes) = run(case);
        match (given, faults(case).first()) {
            (Given::Part(found), _) => {
                let (archive, tree) = asked(case).unwrap();
                let (start, length) = part(archive, tree).unwrap_or((0, 0));
                assert_eq!((found.start as u64, found.length as u64), (start, length));
                let end = (start + length) as usize;
                assert_eq!(hashes, [hash(&archive[start as usize..end])]);
            }
            (Given::Answer(answer), Some(&(number, place))) => {
                assert_eq!(answer, refused(number, place as usize), "{case:?}");
                assert_eq!(hashes, hashes_before(case));
            }
            (Given::Answer(answer), None) => {
                assert!(matches!(answer, Done(_)), "{case:?}");
                assert_eq!(hashes, [hash_when_done(case)]);
            }
        }
    }
}

/// The archive of a case, and the tree that is asked for.
fn asked(case: &Case) -> Option<(&[u8], u64)> {
    match case {
        Case::ReadTree { archive, tree, .. } | Case::View { archive, tree } => {
            Some((archive, *tree))
        }
        _ => None,
    }
}

/// How often each call gives each refusal; 0 stands for done. Of the view, how often
/// it is empty at 0, empty at 4, or a record.
#[test]
fn every_call_meets_every_refusal_it_can_give() {
    let mut counts = BTreeMap::new();
    for case in all().iter() {
        let outcome = match run(case).0 {
            Given::Answer(Done(_)) => 0,
            Given::Answer(Refused(refusal)) => refusal.number,
            Given::Part(part) if part.start == 0 => 100,
            Given::Part(part) => 101 + u8::from(part.length > 0),
        };
        *counts.entry((stream::number(case), outcome)).or_insert(0) += 1;
    }
    let wanted: [(u8, &[u8]); 3] =
        [(WRITE, &[0, 1, 2, 3, 4]), (READ, &[0, 1, 2, 3, 4, 10, 12]), (VIEW, &[100, 101, 102])];
    let pairs: Vec<(u8, u8)> =
        wanted.iter().flat_map(|(call, outs)| outs.iter().map(move |out| (*call, *out))).collect();
    assert_eq!(counts.keys().copied().collect::<Vec<_>>(), pairs);
    for call in [WRITE, READ, VIEW] {
        let of_call = counts.iter().filter(|(pair, _)| pair.0 == call);
        assert!(of_call.map(|(_, count)| count).sum::<usize>() >= 1200, "call {call}");
    }
    assert!(counts.values().all(|&count| count >= 50), "{counts:?}");
}

/// Each two faults that an input can have at once, the first of them told.
#[test]
fn faults_compete() {
    let mut counts = BTreeMap::new();
    for case in all().iter() {
        let numbers: BTreeSet<u8> = faults(case).iter().map(|fault| fault.0).collect();
        for first in &numbers {
            for second in &numbers {
                *counts.entry((stream::number(case), *first, *second)).or_insert(0) += 1;
            }
        }
    }
    for (call, first, second) in [
        (WRITE, 2, 4),
        (WRITE, 2, 3),
        (WRITE, 4, 3),
        (READ, 1, 12),
        (READ, 1, 3),
        (READ, 2, 12),
        (READ, 2, 4),
        (READ, 2, 10),
        (READ, 2, 3),
        (READ, 12, 3),
        (READ, 4, 10),
        (READ, 4, 3),
        (READ, 10, 3),
    ] {
        let count = counts.get(&(call, first, second)).copied().unwrap_or(0);
        assert!(count >= 15, "call {call}, {first} before {second}: {count}");
    }
}

/// Records at fault that must not be seen: all of them, where there is no tree r, and
/// another one, where tree r is done.
#[test]
fn faults_of_other_records_are_among_the_cases() {
    let (mut behind_12, mut beside_done) = (0, 0);
    for case in all().iter() {
        if let (Case::ReadTree { archive, .. }, Given::Answer(answer)) = (case, run(case).0) {
            let (n, trees) = header(archive).unwrap_or((0, 0));
            let few = 0..trees.min(6);
            let bad = few.clone().filter(|&tree| !faults_of_tree(n, archive, tree).is_empty());
            match (answer, bad.count() as u64) {
                (Refused(refusal), bad) if refusal.number == 12 => {
                    behind_12 += usize::from(bad > 0 && bad == few.end);
                }
                (Done(_), bad) => beside_done += usize::from(bad > 0),
                _ => (),
            }
        }
    }
    assert!(behind_12 >= 30 && beside_done >= 50, "{behind_12} {beside_done}");
}

#[test]
fn the_stream_is_read_as_it_was_written_and_small_enough() {
    let all = all();
    let stream = stream::write(&all);
    assert!(stream.len() < 4_000_000);
    assert_eq!(stream::read(&stream), *all);
    let longest = all.iter().flat_map(lengths).max();
    assert_eq!(longest, Some(8192));
}

/// Sizes at both ends, done, of each call that answers; and archives and lists of as
/// many trees as a stream has room for.
#[test]
fn sizes_at_the_ends_have_their_share() {
    let mut done = BTreeMap::new();
    let mut lengths_seen = BTreeSet::new();
    for case in all().iter() {
        let leaves = match case {
            Case::WriteArchive { leaves, entries, .. } => {
                lengths_seen.insert((WRITE, *leaves, entries.len()));
                *leaves
            }
            Case::ReadTree { archive, .. } | Case::View { archive, .. } => {
                let leaves = header(archive).map_or(0, |(n, _)| n);
                lengths_seen.insert((stream::number(case), leaves, archive.len()));
                leaves
            }
            _ => panic!("a call of 01"),
        };
        if let Given::Answer(Done(_)) = run(case).0 {
            *done.entry((stream::number(case), leaves)).or_insert(0) += 1;
        }
    }
    for call in [WRITE, READ] {
        for n in (1..=40).chain([1023, 1024]) {
            let wanted = if (4..=1000).contains(&n) { 1 } else { 5 };
            assert!(done.get(&(call, n)) >= Some(&wanted), "call {call} with {n} leaves");
        }
    }
    assert!(lengths_seen.contains(&(WRITE, 1, 8192)));
    assert!(lengths_seen.contains(&(WRITE, 1024, 8 * 1024)));
    for leaves in [0, 1025, 1 << 32, u64::MAX] {
        assert!(lengths_seen.contains(&(WRITE, leaves, 0)));
        let with_entries = (WRITE, leaves, 1)..=(WRITE, leaves, 8192);
        assert!(lengths_seen.range(with_entries).next().is_some());
    }
    for call in [READ, VIEW] {
        assert!(lengths_seen.contains(&(call, 3, 8192)));
        assert!(lengths_seen.contains(&(call, 1024, 4 + 6 * 1279)));
        assert!((0..4).all(|length| lengths_seen.contains(&(call, 0, length))));
    }
}

/// Each number that may be taken for another one stands in some case of both calls.
#[test]
fn headers_and_numbers_at_the_ends_are_among_the_cases() {
    for call in [READ, VIEW] {
        let (mut counts, mut trees, mut alone) =
            (BTreeSet::new(), BTreeSet::new(), BTreeSet::new());
        for case in all().iter().filter(|case| stream::number(case) == call) {
            let (archive, tree) = asked(case).unwrap();
            trees.insert(tree);
            if let Some((n, count)) = header(archive) {
                counts.extend([(0, n), (1, count)]);
                if archive.len() == 4 {
                    alone.insert((n, count, tree));
                }
            }
        }
        for n in [0, 1, 2, 3, 1023, 1024, 1025, 2047] {
            assert!(counts.contains(&(0, n)), "{n} leaves");
        }
        for count in [0, 1, 2_097_150, 2_097_151] {
            assert!(counts.contains(&(1, count)), "{count} trees");
        }
        for tree in [0, 1, 2, 2_097_150, 2_097_151, 1 << 32, (1 << 32) + 1, 1 << 63, u64::MAX] {
            assert!(trees.contains(&tree), "tree {tree}");
        }
        for n in [1, 2] {
            for tree in [0, 2_097_150, 2_097_151] {
                assert!(alone.contains(&(n, 2_097_151, tree)));
            }
        }
    }
}

/// "The answer about tree r depends on the header, the archive's length, r, the
/// output's length and record r's bytes only": of two such archives in a row, with
/// every other byte another, both lines are the same.
#[test]
fn archives_that_agree_in_record_r_alone_have_the_same_lines() {
    for call in [READ, VIEW] {
        let all = all();
        let of_call: Vec<&Case> = all.iter().filter(|case| stream::number(case) == call).collect();
        let mut pairs = 0;
        for pair in of_call.windows(2) {
            if agree_in_record_alone(pair[0], pair[1]) {
                assert_eq!(line(pair[0]), line(pair[1]));
                pairs += 1;
            }
        }
        assert!(pairs >= 40, "call {call}: {pairs}");
    }
}

fn agree_in_record_alone(one: &Case, other: &Case) -> bool {
    let ((first, tree), (second, other_tree)) = (asked(one).unwrap(), asked(other).unwrap());
    let part = match part(first, tree) {
        Some((start, length)) => start as usize..(start + length) as usize,
        None => return false,
    };
    let same = |place: usize| first[place] == second[place];
    tree == other_tree
        && first.len() == second.len()
        && first.len() > 4 + part.len()
        && (0..first.len()).all(|place| same(place) == (place < 4 || part.contains(&place)))
}

/// The format of README.md, byte for byte.
#[test]
fn streams_byte_for_byte() {
    let out = Lent { room: 3, seed: 0x0102 };
    let case = Case::WriteArchive { leaves: 258, entries: vec![0, 772], out };
    let mut wanted = vec![10, 2, 1, 0, 0, 0, 0, 0, 0, 2, 0, 0, 0, 0, 0, 4, 3];
    wanted.extend([3, 0, 0, 0, 0x02, 0x01, 0]);
    assert_eq!(stream::write(&[case]), wanted);
    let archive = vec![0x00, 0x20, 0x00, 0x03];
    let case = Case::ReadTree { archive: archive.clone(), tree: u64::MAX, out };
    let mut wanted = vec![11, 4, 0, 0, 0, 0x00, 0x20, 0x00, 0x03];
    wanted.extend([255; 8]);
    wanted.extend([3, 0, 0, 0, 0x02, 0x01, 0]);
    assert_eq!(stream::write(&[case]), wanted);
    let case = Case::View { archive, tree: 2 };
    let wanted = [12, 4, 0, 0, 0, 0x00, 0x20, 0x00, 0x03, 2, 0, 0, 0, 0, 0, 0, 0, 0];
    assert_eq!(stream::write(&[case]), wanted);
}

#[test]
fn lines_of_the_three_calls() {
    let archive = vec![0x00, 0x80, 0x00, 0x02, 0x60, 0x88];
    let out = Lent { room: 7, seed: 5 };
    let case = Case::WriteArchive { leaves: 4, entries: vec![0, 0, 1, 4, 0, 0, 2, 1], out };
    let after = hash(&[0x00, 0x80, 0x00, 0x02, 0x60, 0x88, 191]);
    assert_eq!(line(&case), format!("10 done 6 {after:08x}"));
    let out = Lent { room: 5, seed: 5 };
    let case = Case::ReadTree { archive: archive.clone(), tree: 1, out };
    let after = hash(&[0, 0, 0, 0, 2, 0, 1, 0, 129, 0]);
    assert_eq!(line(&case), format!("11 done 4 {after:08x}"));
    let case =
        Case::ReadTree { archive: archive.clone(), tree: u64::MAX, out: Lent { room: 0, seed: 5 } };
    assert_eq!(line(&case), "11 refused 12 18446744073709551615 811c9dc5");
    let view = |tree| line(&Case::View { archive: archive.clone(), tree });
    assert_eq!(view(1), format!("12 part 5 1 {:08x}", hash(&[0x88])));
    assert_eq!(view(2), "12 part 0 0 811c9dc5");
    let case = Case::View { archive: vec![0x00, 0x20, 0x00, 0x03], tree: 2 };
    assert_eq!(line(&case), "12 part 4 0 811c9dc5");
}
