//! Lengths that depend on n alone: of tables, texts and records.

mod common;

use common::*;
use second::cases::chance::Chance;
use second::cases::vectors::of_size;
use second::record::{length_in_bits, length_in_bytes, width};

/// "L(1)=L(2)=11, L(3)=13, L(4)=16, L(1024)=10,240."
#[test]
fn bit_totals_of_01() {
    let totals = [(1, 11), (2, 11), (3, 13), (4, 16), (5, 19), (6, 23), (1024, 10240)];
    for (n, bits) in totals {
        assert_eq!(length_in_bits(n), bits);
    }
}

/// "2 bits for v(2), 3 for v(3) and v(4), 4 for v(5) to v(8)": the least number
/// of bits in which 2(i-1) can be written.
#[test]
fn widths_are_as_many_bits_as_the_bound_needs() {
    let first: Vec<usize> = (2..=9).map(width).collect();
    assert_eq!(first, [2, 3, 3, 4, 4, 4, 4, 5]);
    for i in 2..1024 {
        let most = 2 * (i - 1);
        assert!(most < 1 << width(i) && most >= 1 << (width(i) - 1));
    }
}

#[test]
fn lengths_depend_on_n_alone() {
    let mut chance = Chance::from_seed(7);
    for n in [1, 2, 3, 4, 9, 10, 11, 12, 99, 100, 101, 102, 500, 1000, 1001, 1023, 1024] {
        let labels: usize = (0..n).map(|leaf| leaf.to_string().len()).sum();
        for _ in 0..4 {
            let v = of_size(&mut chance, n);
            assert_eq!(table(&v).len(), 3 * (n - 1));
            assert_eq!(text(&v).len(), labels + 3 * (n - 1) + 1);
            assert_eq!(record(&v).len(), length_in_bytes(n));
        }
    }
}

/// 6,056 bytes is the longest text that we write, and the longest that we read.
#[test]
fn the_longest_text_has_6056_bytes() {
    let v = vec![0; 1024];
    assert_eq!(text(&v).len(), 6056);
    assert_eq!(of_text(&text(&v)), v);
    assert_eq!(record(&v).len(), 1280);
    assert_eq!(table(&v).len(), 3069);
}

/// "Entry i starts at bit L(i)."
#[test]
fn entry_i_starts_at_bit_l_of_i() {
    let n = 40;
    let zeros = second::record::bits(&record(&vec![0; n]));
    for i in 2..n {
        let mut v = vec![0; n];
        v[i] = second::vector::element(second::vector::bound(i));
        let bits = second::record::bits(&record(&v));
        let first_one = (11..bits.len()).find(|&place| bits[place..].starts_with('1'));
        assert_eq!(first_one, Some(length_in_bits(i)), "2(i-1) needs all its bits");
        assert_eq!(bits[..length_in_bits(i)], zeros[..length_in_bits(i)]);
    }
}
