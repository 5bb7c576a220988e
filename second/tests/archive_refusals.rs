//! Every refusal of the archive's calls with its place, and 02's order: each fault
//! against a later one that competes with it.

mod common;

use common::*;
use second::answer::Answer::{self, Done};
use second::archive::MOST_TREES;
use second::calls;

/// Trees 0,0,1,4 and 0,0,2,1.
const TWO: [u8; 6] = [0x00, 0x80, 0x00, 0x02, 0x60, 0x88];

/// The same with v(3) = 5 in record 1, and with its last padding bit set.
const ENTRY: [u8; 6] = [0x00, 0x80, 0x00, 0x02, 0x60, 0xA8];
const PADDING: [u8; 6] = [0x00, 0x80, 0x00, 0x02, 0x60, 0x89];

fn read_with_no_room(archive: &[u8], tree: u64) -> Answer {
    calls::read_tree(archive, tree, &mut [])
}

/// Where the reader gives 1, 2 or 12 the view is empty and starts at 0.
fn refused_before_the_record(archive: &[u8], tree: u64, wanted: Answer) {
    assert_eq!(answer_of_tree(archive, tree), wanted);
    assert_eq!(read_with_no_room(archive, tree), wanted);
    assert_eq!(part_of(archive, tree), (0, 0));
}

#[test]
fn reader_2_under_4_bytes_before_1() {
    // Leaf counts of 0 and of 2047, as far as they go, and a tree that is not there.
    for archive in [&[][..], &[0x00], &[0xFF, 0xFF], &[0x00; 3], &[0xFF; 3], &TWO[..3]] {
        refused_before_the_record(archive, 0, refused(2, 4));
        refused_before_the_record(archive, u64::MAX, refused(2, 4));
    }
}

#[test]
fn reader_1_before_the_length() {
    for n in [0u32, 1025, 1026, 2047] {
        for trees in [0u32, 1, 2, 0x1F_FFFF] {
            for length in [4, 5, 6, 1284] {
                let mut archive = (n << 21 | trees).to_be_bytes().to_vec();
                archive.resize(length, 0xFF);
                refused_before_the_record(&archive, 0, refused(1, 0));
                refused_before_the_record(&archive, u64::MAX, refused(1, 0));
            }
        }
    }
}

#[test]
fn reader_2_with_the_implied_length() {
    for length in [4, 5, 7, 8, 600] {
        let mut archive = TWO.to_vec();
        archive.resize(length, 0);
        refused_before_the_record(&archive, 0, refused(2, 6));
    }
    // The header's count is off by one, none, or as great as can be.
    for (trees, implied) in [(0, 4), (1, 5), (3, 7)] {
        let mut archive = TWO;
        archive[3] = trees;
        refused_before_the_record(&archive, 0, refused(2, implied));
    }
    refused_before_the_record(&[0x00, 0x9F, 0xFF, 0xFF, 0x60, 0x88], 0, refused(2, 2_097_155));
    refused_before_the_record(&[0x80, 0x1F, 0xFF, 0xFF], 0, refused(2, 2_682_256_133));
    // Records of no bytes: every count implies 4.
    for n in [0x20, 0x40] {
        refused_before_the_record(&[0x00, n, 0x00, 0x02, 0x00], 0, refused(2, 4));
        refused_before_the_record(&[0x00, n | 0x1F, 0xFF, 0xFF, 0x00], 0, refused(2, 4));
    }
}

#[test]
fn reader_2_before_12_and_4_and_10() {
    refused_before_the_record(&TWO[..5], 2, refused(2, 6));
    refused_before_the_record(&TWO[..5], u64::MAX, refused(2, 6));
    let long = |archive: &[u8]| [archive, &[0]].concat();
    refused_before_the_record(&long(&ENTRY), 1, refused(2, 6));
    refused_before_the_record(&long(&PADDING), 1, refused(2, 6));
    refused_before_the_record(&long(&TWO), 7, refused(2, 6));
}

/// "12 when r is not below the count (place r)", and whatever the records hold.
#[test]
fn reader_12_with_any_number() {
    let far = [1 << 16, 1 << 21, 1 << 32, (1 << 32) + 1, 1 << 63, u64::MAX - 1, u64::MAX];
    let bad = [0x00, 0x80, 0x00, 0x02, 0xFF, 0xFF];
    for tree in [2, 3, 255, 256].into_iter().chain(far) {
        let wanted = refused(12, usize::try_from(tree).unwrap());
        refused_before_the_record(&TWO, tree, wanted);
        refused_before_the_record(&bad, tree, wanted);
    }
    refused_before_the_record(&[0x00, 0x80, 0x00, 0x00], 0, refused(12, 0));
}

/// "with 01's places within the record": entry 3 of its own vector.
#[test]
fn reader_4_at_the_entry() {
    assert_eq!(tree_of(&ENTRY, 0), [0, 0, 1, 4]);
    assert_eq!(answer_of_tree(&ENTRY, 1), refused(4, 3));
    assert_eq!(part_of(&ENTRY, 1), (5, 1));
    // v(2) = 3 before v(3) = 7.
    assert_eq!(answer_of_tree(&[0x00, 0x80, 0x00, 0x01, 0xF8], 0), refused(4, 2));
    assert_eq!(answer_of_tree(&[0x00, 0x80, 0x00, 0x01, 0x38], 0), refused(4, 3));
    assert_eq!(answer_of_tree(&[0x00, 0x60, 0x00, 0x01, 0xC0], 0), refused(4, 2));
    assert_eq!(answer_of_tree(&[0x00, 0x60, 0x00, 0x01, 0x80], 0), Done(3));
}

/// v(1023) = 2045, the last field of the second of two records.
#[test]
fn reader_4_at_the_last_entry_of_1024() {
    let mut list = vec![0; 2048];
    list[2047] = 2044;
    let mut archive = archive(1024, &list);
    assert_eq!(tree_of(&archive, 1)[1023], 2044);
    // 10,229 bits: the field ends three bits before the record does.
    let last = archive.len() - 1;
    archive[last] |= 0b1000;
    assert_eq!(answer_of_tree(&archive, 1), refused(4, 1023));
    archive[last] |= 0b111;
    assert_eq!(answer_of_tree(&archive, 1), refused(4, 1023));
    archive[last] &= 0b1111_0111;
    assert_eq!(answer_of_tree(&archive, 1), refused(10, 1278));
    assert_eq!(answer_of_tree(&archive, 0), Done(1024));
    assert_eq!(part_of(&archive, 1), (1283, 1279));
}

/// 10 at the record's last byte, from the record's own first: 0 where it has one.
#[test]
fn reader_10_for_each_padding_bit() {
    for bit in 0..3 {
        let mut archive = TWO;
        archive[5] |= 1 << bit;
        assert_eq!(answer_of_tree(&archive, 1), refused(10, 0));
        assert_eq!(tree_of(&archive, 0), [0, 0, 1, 4]);
        assert_eq!(part_of(&archive, 1), (5, 1));
    }
    // 6 leaves: 12 bits in two bytes.
    for bit in 0..4 {
        let mut archive = archive(6, &[0; 18]);
        archive[7] |= 1 << bit;
        assert_eq!(answer_of_tree(&archive, 1), refused(10, 1));
        assert_eq!(answer_of_tree(&archive, 0), Done(6));
        assert_eq!(answer_of_tree(&archive, 2), Done(6));
    }
}

#[test]
fn reader_4_before_10_before_3() {
    let both = [0x00, 0x80, 0x00, 0x02, 0x60, 0xAF];
    assert_eq!(answer_of_tree(&both, 1), refused(4, 3));
    assert_eq!(read_with_no_room(&both, 1), refused(4, 3));
    assert_eq!(read_with_no_room(&ENTRY, 1), refused(4, 3));
    assert_eq!(read_with_no_room(&PADDING, 1), refused(10, 0));
    assert_eq!(read_with_no_room(&TWO, 1), refused(3, 4));
}

#[test]
fn reader_3_with_the_entries_needed() {
    assert_eq!(calls::read_tree(&TWO, 0, &mut [0; 3]), refused(3, 4));
    assert_eq!(calls::read_tree(&TWO, 0, &mut [0; 4]), Done(4));
    assert_eq!(part_of(&TWO, 0), (4, 1));
    assert_eq!(read_with_no_room(&[0x00, 0x20, 0x00, 0x01], 0), refused(3, 1));
}

/// The four bytes of n = 1 and of n = 2 with 2,097,151 trees.
#[test]
fn reader_of_records_without_bytes() {
    for (n, archive) in [(1, [0x00, 0x3F, 0xFF, 0xFF]), (2, [0x00, 0x5F, 0xFF, 0xFF])] {
        for tree in [0, 1, 65536, 2_097_150] {
            assert_eq!(tree_of(&archive, tree), vec![0; n]);
            assert_eq!(part_of(&archive, tree), (4, 0));
        }
        refused_before_the_record(&archive, 2_097_151, refused(12, 2_097_151));
        refused_before_the_record(&archive, (1 << 32) + 1, refused(12, (1 << 32) + 1));
    }
}

#[test]
fn writer_1_before_21_and_2_and_4() {
    let counts = [0, 1025, 1026, 2047, 2049, 65537, 1 << 32, (1 << 32) + 1, 1 << 63, u64::MAX];
    for leaves in counts {
        assert_eq!(answer_of_archive(leaves, &[]), refused(1, 0));
        assert_eq!(answer_of_archive(leaves, &[0]), refused(1, 0));
        assert_eq!(answer_of_archive(leaves, &[65535; 9]), refused(1, 0));
        assert_eq!(calls::write_archive(leaves, &[0; 4], &mut []), refused(1, 0));
    }
    let many = vec![0; MOST_TREES + 1];
    assert_eq!(answer_of_archive(0, &many), refused(1, 0));
    assert_eq!(answer_of_archive(1025, &many), refused(1, 0));
}

/// One tree more, or one entry more, than 2,097,151 trees have: 21 comes before 2, 4
/// and 3. With fewer entries it is not given.
#[test]
fn writer_21_with_the_most_trees() {
    let wanted = refused(21, 2_097_151);
    for n in [1, 2, 3] {
        let most = MOST_TREES * n;
        assert_eq!(answer_of_archive(n as u64, &vec![0; most + n]), wanted);
        assert_eq!(answer_of_archive(n as u64, &vec![0; most + 1]), wanted);
        assert_eq!(calls::write_archive(n as u64, &vec![65535; most + 1], &mut []), wanted);
        assert_eq!(answer_of_archive(n as u64, &vec![65535; most]), refused(4, 0));
    }
    assert_eq!(answer_of_archive(1, &vec![0; MOST_TREES]), Done(4));
    assert_eq!(answer_of_archive(2, &vec![0; 2 * MOST_TREES]), Done(4));
    assert_eq!(answer_of_archive(2, &vec![0; 2 * MOST_TREES - 1]), refused(2, 2 * MOST_TREES));
    // 2,097,153 is the next multiple of three: the entries are counted in vectors.
    assert_eq!(answer_of_archive(3, &vec![0; MOST_TREES + 1]), refused(2, 2_097_153));
}

/// "2 when the list is not whole vectors (place: next multiple of n)", before 4 and 3.
#[test]
fn writer_2_at_the_next_multiple() {
    for (length, place) in [(1, 4), (3, 4), (5, 8), (7, 8), (9, 12)] {
        assert_eq!(answer_of_archive(4, &vec![0; length]), refused(2, place));
        assert_eq!(answer_of_archive(4, &vec![65535; length]), refused(2, place));
        assert_eq!(calls::write_archive(4, &vec![0; length], &mut []), refused(2, place));
    }
    assert_eq!(answer_of_archive(1024, &[0]), refused(2, 1024));
    assert_eq!(answer_of_archive(1024, &[0; 1023]), refused(2, 1024));
    assert_eq!(answer_of_archive(1024, &[0; 1025]), refused(2, 2048));
    assert_eq!(answer_of_archive(2, &[0]), refused(2, 2));
}

/// "4 (place: index in the list)", before 3.
#[test]
fn writer_4_at_the_index_in_the_list() {
    let right = [0, 0, 1, 4, 0, 0, 2, 1, 0, 0, 0, 3];
    let bounds = [0, 0, 2, 4, 0, 0, 2, 4, 0, 0, 2, 4];
    for index in 0..right.len() {
        let mut list = right;
        list[index] = bounds[index];
        assert_eq!(answer_of_archive(4, &list), Done(7));
        for above in [bounds[index] + 1, 65535] {
            list[index] = above;
            assert_eq!(answer_of_archive(4, &list), refused(4, index));
            assert_eq!(calls::write_archive(4, &list, &mut []), refused(4, index));
            // A later fault does not count, and an earlier one does.
            list[11] = 65535;
            assert_eq!(answer_of_archive(4, &list), refused(4, index));
            let mut earlier = list;
            earlier[index / 4 * 4] = 1;
            assert_eq!(answer_of_archive(4, &earlier), refused(4, index / 4 * 4));
            list[11] = right[11];
        }
    }
    assert_eq!(answer_of_archive(1, &[0, 0, 1]), refused(4, 2));
    assert_eq!(answer_of_archive(2, &[0, 0, 0, 1]), refused(4, 3));
}

#[test]
fn writer_3_with_the_bytes_needed() {
    let list = [0, 0, 1, 4, 0, 0, 2, 1];
    assert_eq!(calls::write_archive(4, &list, &mut []), refused(3, 6));
    assert_eq!(calls::write_archive(4, &list, &mut [0; 5]), refused(3, 6));
    assert_eq!(calls::write_archive(4, &list, &mut [0; 6]), Done(6));
    assert_eq!(calls::write_archive(4, &[], &mut [0; 3]), refused(3, 4));
    assert_eq!(calls::write_archive(1, &[0; 9], &mut [0; 3]), refused(3, 4));
    assert_eq!(calls::write_archive(1024, &[0; 8192], &mut [0; 8192]), refused(3, 10_236));
}

/// "A refusal writes nothing." "Elements past those written keep their old values."
#[test]
fn buffers_after_the_calls() {
    let mut bytes = [9; 8];
    let list = [0, 0, 1, 4, 0, 0, 2, 1];
    for refusal in [
        calls::write_archive(0, &list, &mut bytes),
        calls::write_archive(4, &list[1..], &mut bytes),
        calls::write_archive(4, &[0, 0, 1, 4, 0, 0, 2, 5], &mut bytes),
        calls::write_archive(4, &list, &mut bytes[..5]),
    ] {
        assert!(matches!(refusal, Answer::Refused(_)));
    }
    assert_eq!(bytes, [9; 8]);
    assert_eq!(calls::write_archive(4, &list, &mut bytes), Done(6));
    assert_eq!(bytes, [0x00, 0x80, 0x00, 0x02, 0x60, 0x88, 9, 9]);
    let mut words = [9; 5];
    for (archive, tree) in [(&TWO[..3], 0), (&TWO[..5], 0), (&TWO, 2), (&ENTRY, 1), (&PADDING, 1)] {
        assert!(matches!(calls::read_tree(archive, tree, &mut words), Answer::Refused(_)));
    }
    assert_eq!(calls::read_tree(&TWO, 1, &mut words[..3]), refused(3, 4));
    assert_eq!(words, [9; 5]);
    assert_eq!(calls::read_tree(&TWO, 1, &mut words), Done(4));
    assert_eq!(words, [0, 0, 2, 1, 9]);
}
