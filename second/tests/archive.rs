//! The archive: its samples worked out by hand from 02, its lengths, and that each
//! tree comes back from where the view says it stands.

mod common;

use common::*;
use second::answer::Answer::Done;
use second::archive::{implied_length, length_of_record, MOST_TREES};
use second::calls;
use second::cases::chance::Chance;
use second::cases::vectors::of_size;
use second::every::vectors;
use second::record::{bits, bits_of_fields, bytes};

/// n = 4 in 11 bits, 2 trees in 21 bits; v(2) in 2 bits and v(3) in 3, three bits of
/// padding: 1 and 4 are 01 100, 2 and 1 are 10 001.
#[test]
fn two_trees_of_four_leaves() {
    let bits = "00000000100".to_string() + "000000000000000000010" + "01100000" + "10001000";
    let wanted = [0x00, 0x80, 0x00, 0x02, 0x60, 0x88];
    assert_eq!(bytes(&bits), wanted);
    assert_eq!(archive(4, &[0, 0, 1, 4, 0, 0, 2, 1]), wanted);
    assert_eq!(tree_of(&wanted, 0), [0, 0, 1, 4]);
    assert_eq!(tree_of(&wanted, 1), [0, 0, 2, 1]);
    assert_eq!(answer_of_tree(&wanted, 2), refused(12, 2));
    assert_eq!([0, 1, 2].map(|tree| part_of(&wanted, tree)), [(4, 1), (5, 1), (0, 0)]);
}

/// "an empty list: no trees"
#[test]
fn no_trees_of_four_leaves() {
    let wanted = [0x00, 0x80, 0x00, 0x00];
    assert_eq!(archive(4, &[]), wanted);
    assert_eq!(answer_of_tree(&wanted, 0), refused(12, 0));
    assert_eq!(part_of(&wanted, 0), (0, 0));
}

/// n = 1 and 3 trees in 32 bits, and nothing behind them: a record has no bytes.
#[test]
fn three_trees_of_one_leaf() {
    let wanted = [0x00, 0x20, 0x00, 0x03];
    assert_eq!(archive(1, &[0, 0, 0]), wanted);
    assert_eq!(tree_of(&wanted, 2), [0]);
    assert_eq!(part_of(&wanted, 2), (4, 0));
    assert_eq!(answer_of_tree(&wanted, 3), refused(12, 3));
    assert_eq!(part_of(&wanted, 3), (0, 0));
}

/// n = 5 has 2 + 3 + 3 bits and no padding; n = 6 has 4 more, in a second byte.
#[test]
fn records_of_whole_bytes_and_of_two() {
    assert_eq!(archive(5, &[0, 0, 2, 4, 6]), [0x00, 0xA0, 0x00, 0x01, 0b1010_0110]);
    let six = [0x00, 0xC0, 0x00, 0x01, 0b1010_0110, 0b1000_0000];
    assert_eq!(archive(6, &[0, 0, 2, 4, 6, 8]), six);
    assert_eq!(tree_of(&six, 0), [0, 0, 2, 4, 6, 8]);
    assert_eq!(part_of(&six, 0), (4, 2));
}

/// The header as one number of 32 bits.
#[test]
fn headers_by_arithmetic() {
    for n in [1u32, 2, 3, 4, 255, 256, 1023, 1024] {
        for trees in [0u32, 1, 2, 5] {
            let zeros = vec![0; (n * trees) as usize];
            let archive = archive(u64::from(n), &zeros);
            assert_eq!(archive[..4], (n << 21 | trees).to_be_bytes());
            assert_eq!(archive.len(), implied_length(n as usize, trees as usize));
            assert!(archive[4..].iter().all(|&byte| byte == 0));
        }
    }
}

/// 10,240 - 11 bits are 1,279 bytes; the longest archive has 2,682,256,133.
#[test]
fn lengths_of_records_and_archives() {
    let lengths: Vec<usize> = (1..=9).map(length_of_record).collect();
    assert_eq!(lengths, [0, 0, 1, 1, 1, 2, 2, 3, 3]);
    assert_eq!(length_of_record(1024), 1279);
    assert_eq!(implied_length(1024, MOST_TREES), 2_682_256_133);
    assert_eq!(implied_length(1, MOST_TREES), 4);
    assert_eq!(implied_length(3, 7), 11);
}

/// Each tree is read again, and the views follow each other from byte 4 to the end.
fn check_archive(n: usize, trees: &[Vec<u16>]) {
    let mut archive = vec![9; implied_length(n, trees.len())];
    let length = archive.len();
    let answer = calls::write_archive(n as u64, &trees.concat(), &mut archive);
    assert_eq!(answer, Done(length));
    let mut end = 4;
    for (tree, v) in trees.iter().enumerate() {
        assert_eq!(tree_of(&archive, tree as u64), *v);
        let (start, length) = part_of(&archive, tree as u64);
        assert_eq!(start, end);
        let fields = bits(&record(v))[11..].to_string();
        let record = bits(&archive[start..start + length]);
        let shared = bits_of_fields(n);
        assert_eq!(record[..shared], fields[..shared], "the bits of the packed record");
        assert!(!record[shared..].contains('1'));
        end += length;
    }
    assert_eq!(end, archive.len());
    assert_eq!(answer_of_tree(&archive, trees.len() as u64), refused(12, trees.len()));
}

#[test]
fn every_vector_comes_back_from_an_archive_of_all() {
    for n in 1..=6 {
        check_archive(n, &vectors(n));
    }
}

#[test]
fn large_vectors_come_back() {
    let mut chance = Chance::from_seed(10);
    for n in (7..=40).chain([64, 65, 66, 67, 129, 257, 513, 1022, 1023, 1024]) {
        for trees in [1, 2, 4] {
            let trees: Vec<Vec<u16>> = (0..trees).map(|_| of_size(&mut chance, n)).collect();
            check_archive(n, &trees);
        }
    }
}

/// No two lists of one leaf count have the same archive.
#[test]
fn lists_of_two_trees_have_archives_of_their_own() {
    let mut archives = std::collections::BTreeSet::new();
    let all = vectors(4);
    for first in &all {
        for second in &all {
            archives.insert(archive(4, &[&first[..], second].concat()));
        }
    }
    assert_eq!(archives.len(), 15 * 15);
}

/// "Demands 2 and 3 read archive records as packed records with that n": the record
/// behind its n in 11 bits is unpacked to the same vector, or refused 4 alike.
#[test]
fn archive_records_are_packed_records_with_that_n() {
    let mut chance = Chance::from_seed(11);
    let mut refusals = 0;
    for _ in 0..2000 {
        let n = chance.between(3, 9);
        let mut archive = archive(n as u64, &vec![0; 3 * n]);
        archive[4..].iter_mut().for_each(|byte| *byte = chance.byte());
        let tree = chance.below(3) as u64;
        let (start, length) = part_of(&archive, tree);
        let record = bits(&archive[start..start + length]);
        let (fields, padding) = record.split_at(bits_of_fields(n));
        let packed = second::record::padded(format!("{n:011b}{fields}"));
        let wanted = match answer_of_record(&bytes(&packed)) {
            Done(_) if padding.contains('1') => refused(10, length - 1),
            answer => answer,
        };
        assert_eq!(answer_of_tree(&archive, tree), wanted);
        match wanted {
            Done(_) => assert_eq!(tree_of(&archive, tree), of_record(&bytes(&packed))),
            _ => refusals += 1,
        }
    }
    assert!(refusals > 500 && refusals < 1900, "{refusals}");
}

/// "The answer about tree r depends on the header, the archive's length, r, the
/// output's length and record r's bytes only": every other byte takes every value.
#[test]
fn other_records_are_not_looked_at() {
    let right = archive(4, &[0, 0, 1, 4, 0, 0, 2, 1, 0, 0, 0, 3]);
    for tree in 0..3 {
        for other in (0..3).filter(|&other| other != tree) {
            for byte in 0..=255 {
                let mut damaged = right.clone();
                damaged[4 + other] = byte;
                assert_eq!(tree_of(&damaged, tree as u64), tree_of(&right, tree as u64));
                assert_eq!(part_of(&damaged, tree as u64), (4 + tree, 1));
            }
        }
    }
}

/// A right archive of 2,097,151 trees, records of no byte and of one.
#[test]
fn as_many_trees_as_the_header_can_tell() {
    for n in [1, 2, 3] {
        let mut list = vec![0; MOST_TREES * n];
        let last = list.len() - 1;
        list[last] = 2 * (n.max(2) - 2) as u16;
        let mut archive = vec![9; implied_length(n, MOST_TREES) + 1];
        let length = archive.len() - 1;
        assert_eq!(calls::write_archive(n as u64, &list, &mut archive), Done(length));
        assert_eq!(archive.pop(), Some(9));
        assert_eq!(archive[..4], ((n as u32) << 21 | 0x1F_FFFF).to_be_bytes());
        assert_eq!(tree_of(&archive, 2_097_150), list[list.len() - n..]);
        assert_eq!(tree_of(&archive, 0), vec![0; n]);
        assert_eq!(part_of(&archive, 2_097_150).0, length - length_of_record(n));
        assert_eq!(answer_of_tree(&archive, 2_097_151), refused(12, 2_097_151));
        assert_eq!(calls::write_archive(n as u64, &list, &mut archive[1..]), {
            refused(3, length)
        });
    }
}
