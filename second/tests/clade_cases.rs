//! The seeded cases of the clade table: their refusals are found again by arithmetic,
//! and there are enough of every kind.

mod common;

use common::{hashes_before, refused};
use second::answer::Answer::{self, Done, Refused};
use second::cases;
use second::clades::{self, Clade};
use second::run::{answers, hash_clades, run, Given};
use second::stream::{self, Case, Lent};
use std::collections::{BTreeMap, BTreeSet};
use std::sync::{Arc, Mutex};

/// A case, its answer and the hash of its list after the call.
type Ran = (Vec<u8>, Lent, Answer, u32);

/// All the cases, run once for all the tests.
fn all() -> Arc<Vec<Ran>> {
    static ALL: Mutex<Option<Arc<Vec<Ran>>>> = Mutex::new(None);
    let mut all = ALL.lock().unwrap();
    Arc::clone(all.get_or_insert_with(|| Arc::new(cases::of_clades().iter().map(ran).collect())))
}

fn ran(case: &Case) -> Ran {
    match (case, run(case)) {
        (Case::CladeTable { archive, out }, (Given::Answer(answer), hashes)) => {
            (archive.clone(), *out, answer, hashes[0])
        }
        _ => panic!("{case:?}"),
    }
}

fn bound(i: u64) -> u64 {
    2 * i.max(1) - 2
}

fn bits_of(n: u64) -> u64 {
    (2..n).map(|i| u64::from(u64::BITS - bound(i).leading_zeros())).sum()
}

fn record_length(n: u64) -> u64 {
    (bits_of(n) + 7) / 8
}

/// Leaf count and tree count of four bytes or more.
fn header(archive: &[u8]) -> Option<(u64, u64)> {
    let bytes: [u8; 4] = archive.get(..4)?.try_into().unwrap();
    let word = u64::from(u32::from_be_bytes(bytes));
    Some((word >> 21, word & 0x1F_FFFF))
}

/// The bits from one place to another, as one number.
fn number(record: &[u8], from: u64, to: u64) -> u64 {
    (from..to).fold(0, |number, place| {
        let byte = record[(place / 8) as usize];
        2 * number + u64::from(byte >> (7 - place % 8) & 1)
    })
}

/// The faults of each record that the archive reaches to, tree by tree.
fn faults_of_trees(n: u64, trees: u64, archive: &[u8]) -> Vec<(u8, u64)> {
    let mut faults = Vec::new();
    let places: Vec<u64> = (0..=n).map(bits_of).collect();
    for record in archive[4..].chunks(record_length(n).max(1) as usize).take(trees as usize) {
        if record.len() as u64 != record_length(n) {
            break;
        }
        let entry = |i: u64| number(record, places[i as usize], places[i as usize + 1]);
        faults.extend((2..n).find(|&i| entry(i) > bound(i)).map(|i| (4, i)));
        if number(record, places[n as usize], 8 * record_length(n)) != 0 {
            faults.push((10, record_length(n) - 1));
        }
    }
    faults
}

/// Every fault of an archive, in 02's order, but for the room.
fn faults(archive: &[u8]) -> Vec<(u8, u64)> {
    let (n, trees) = match header(archive) {
        None => return vec![(2, 4)],
        Some(counts) => counts,
    };
    if n == 0 || n > 1024 {
        return vec![(1, 0)];
    }
    let mut faults = Vec::new();
    if n > 64 {
        faults.push((14, n));
    }
    let implied = 4 + trees * record_length(n);
    if archive.len() as u64 != implied {
        faults.push((2, implied));
    }
    if n >= 3 {
        faults.extend(faults_of_trees(n, trees, archive));
    }
    faults
}

/// The whole list after a call that is done.
fn list_after(table: &[Clade], out: &Lent) -> Vec<Clade> {
    let mut list = out.clades();
    list[..table.len()].copy_from_slice(table);
    list
}

#[test]
fn refusals_are_found_again_by_arithmetic() {
    for (archive, out, answer, hash) in all().iter() {
        match (answer, faults(archive).first()) {
            (answer, Some(&(number, place))) => {
                assert_eq!(*answer, refused(number, place as usize))
            }
            (Done(entries), None) => assert!(*entries <= out.room),
            (Refused(refusal), None) => {
                assert_eq!(refusal.number, 15);
                assert!(refusal.place > out.room);
            }
        }
        if let Refused(_) = answer {
            let case = Case::CladeTable { archive: archive.clone(), out: *out };
            assert_eq!([*hash], hashes_before(&case)[..]);
        }
    }
}

/// Of each table that is not large: it rises, its sizes and its counts are right, and
/// the list behind it is as it was.
#[test]
fn tables_that_are_done_hold_what_02_says_of_them() {
    for (archive, out, answer, hash) in all().iter().filter(|ran| ran.0.len() < 3000) {
        if let Done(entries) = answer {
            let table = clades::table(archive).unwrap();
            let (n, trees) = header(archive).unwrap();
            assert_eq!(table.len(), *entries);
            assert!(table.windows(2).all(|two| two[0].leaves < two[1].leaves));
            assert!(table.iter().all(|c| c.size == c.leaves.count_ones() && c.size >= 2));
            assert!(table.iter().all(|c| n == 64 || c.leaves < 1 << n));
            let sum: u64 = table.iter().map(|c| u64::from(c.count)).sum();
            assert_eq!(sum, trees * (n - 1));
            assert_eq!(*hash, hash_clades(&list_after(&table, out)));
        }
    }
}

/// No field of a list that is lent is any other field of it.
#[test]
fn marks_are_all_different() {
    let list = Lent { room: 2000, seed: 65535 }.clades();
    let low = list.iter().flat_map(|c| [c.leaves as u32, c.size, c.count]);
    assert_eq!(low.collect::<BTreeSet<u32>>().len(), 6000);
}

#[test]
fn every_refusal_is_met() {
    let mut counts = BTreeMap::new();
    for (_, _, answer, _) in all().iter() {
        let outcome = match answer {
            Done(_) => 0,
            Refused(refusal) => refusal.number,
        };
        *counts.entry(outcome).or_insert(0) += 1;
    }
    assert_eq!(counts.keys().copied().collect::<Vec<u8>>(), [0, 1, 2, 4, 10, 14, 15]);
    assert!(counts.values().all(|&count| count >= 60), "{counts:?}");
    assert!(all().len() >= 1000);
}

/// Each two faults that an archive can have at once, the first of them told.
#[test]
fn faults_compete() {
    let mut counts = BTreeMap::new();
    for (archive, out, _, _) in all().iter() {
        let mut numbers: Vec<u8> = faults(archive).iter().map(|fault| fault.0).collect();
        if out.room == 0 {
            numbers.push(15);
        }
        let later = numbers.iter().skip(1).copied().collect::<BTreeSet<u8>>();
        for second in later {
            *counts.entry((numbers[0], second)).or_insert(0) += 1;
        }
    }
    for pair in [(14, 2), (14, 4), (2, 4), (2, 10), (4, 10), (10, 4), (4, 4), (10, 10)] {
        assert!(counts.get(&pair) >= Some(&5), "{pair:?} of {counts:?}");
    }
    for first in [1, 2, 4, 10, 14] {
        assert!(counts.get(&(first, 15)) >= Some(&10), "{first} without room of {counts:?}");
    }
}

/// Every size is done, and so is every room: exact, ample, for all clades of all trees.
#[test]
fn sizes_and_rooms_have_their_share() {
    let (mut done, mut sizes, mut rooms) = (BTreeMap::new(), BTreeSet::new(), BTreeMap::new());
    for (archive, out, answer, _) in all().iter() {
        let (n, trees) = header(archive).unwrap_or_default();
        sizes.insert(n);
        match answer {
            Done(entries) => {
                *done.entry(n).or_insert(0) += 1;
                *rooms.entry(("exact", out.room == *entries)).or_insert(0) += 1;
                *rooms.entry(("all", out.room as u64 == trees * (n - 1))).or_insert(0) += 1;
            }
            Refused(refusal) if refusal.number == 15 => {
                *rooms.entry(("one", out.room + 1 == refusal.place)).or_insert(0) += 1;
                *rooms.entry(("none", out.room == 0)).or_insert(0) += 1;
            }
            _ => (),
        }
    }
    assert!((1..=64).all(|n| done.get(&n) >= Some(&3)), "{done:?}");
    assert!([0, 65, 100, 1023, 1024, 1025, 2047].iter().all(|n| sizes.contains(n)));
    assert_eq!(rooms.len(), 8);
    assert!(rooms.values().all(|&count| count >= 20), "{rooms:?}");
}

/// Tables of exactly so many entries, and one more, with exact room and one short.
#[test]
fn large_tables_are_among_the_cases() {
    let seen: Vec<(Answer, usize)> = all()
        .iter()
        .map(|(_, out, answer, _)| (*answer, out.room))
        .filter(|(answer, _)| !matches!(answer, Refused(refusal) if refusal.number != 15))
        .collect();
    for entries in [1024, 1025, 2048, 2049, 4096, 4097, 8192, 8193] {
        assert!(seen.contains(&(Done(entries), entries)));
        assert!(seen.contains(&(Done(entries), entries + 9)));
        assert!(seen.contains(&(refused(15, entries), entries - 1)));
    }
    assert!(seen.contains(&(Done(1), 2_097_151)));
    assert!(seen.contains(&(Done(0), 2_097_151)));
    assert!(seen.contains(&(refused(15, 1), 0)));
    assert!(seen.iter().any(|(answer, _)| matches!(answer, Done(10_000..=50_000))));
}

#[test]
fn the_stream_is_read_as_it_was_written() {
    let all: Vec<Case> = all()
        .iter()
        .map(|(archive, out, _, _)| Case::CladeTable { archive: archive.clone(), out: *out })
        .collect();
    let stream = stream::write(&all);
    assert!(stream.len() < 4_000_000);
    assert_eq!(stream::read(&stream), all);
    let front = stream::write(&all[..3]);
    assert_eq!(answers(&front).iter().filter(|&&byte| byte == b'\n').count(), 3);
}
