//! The listing program, with every way in which its run may end.

mod common;

use common::*;
use second::listing::{list, list_up_to};

fn listed(input: &[u8]) -> String {
    let mut output = Vec::new();
    list(&mut &input[..], &mut output).unwrap();
    String::from_utf8(output).unwrap()
}

#[test]
fn the_sample_of_01() {
    let wanted = "4 0,0,1,4 ((0,(1,2)),3);\n2 0,0 (0,1);\n4 0,0,2,1 ((0,(1,3)),2);\nrefused 2 2\n";
    assert_eq!(listed(&[0x00, 0x8C, 0x00, 0x40, 0x00, 0x91, 0x00]), wanted);
    assert_eq!(listed(&second::samples::LISTING), wanted);
}

#[test]
fn empty_input_prints_nothing() {
    assert_eq!(listed(&[]), "");
    assert_eq!(listed(&[0x00, 0x20]), "1 0 0;\n");
}

#[test]
fn input_that_ends_inside_a_record_is_2() {
    let long = record(&[0; 9]);
    assert_eq!(long.len(), 5);
    assert_eq!(listed(&long[..1]), "refused 2 2\n");
    for cut in 2..5 {
        assert_eq!(listed(&long[..cut]), "refused 2 5\n");
    }
    assert_eq!(listed(&long).lines().count(), 1);
    assert_eq!(listed(&[0x80, 0x00]), "refused 2 1280\n");
}

/// "after 1 for its n"
#[test]
fn leaf_counts_are_looked_at_before_the_length() {
    assert_eq!(listed(&[0x00, 0x00]), "refused 1 0\n");
    assert_eq!(listed(&[0x80, 0x20]), "refused 1 0\n");
    assert_eq!(listed(&[0xFF, 0xE0, 0x00]), "refused 1 0\n");
}

#[test]
fn the_first_refusal_ends_the_run() {
    assert_eq!(listed(&[0x00, 0x40, 0x00, 0x41, 0x00, 0x40]), "2 0,0 (0,1);\nrefused 10 1\n");
    assert_eq!(listed(&[0x00, 0x78, 0x00, 0x40]), "refused 4 2\n");
}

/// "up to 4,294,967,295 of them; it looks no further": tried with fewer.
#[test]
fn the_listing_looks_no_further_than_the_last_record() {
    let input = [0x00, 0x20, 0x00, 0x40, 0x00];
    for (most, lines) in [(0, ""), (1, "1 0 0;\n"), (2, "1 0 0;\n2 0,0 (0,1);\n")] {
        let mut output = Vec::new();
        let mut rest = &input[..];
        list_up_to(most, &mut rest, &mut output).unwrap();
        assert_eq!(String::from_utf8(output).unwrap(), lines);
        assert_eq!(rest.len(), 5 - 2 * most as usize, "no byte more is read");
    }
    assert_eq!(second::listing::MOST_RECORDS, u32::MAX);
}

#[test]
fn lines_of_large_records() {
    let v: Vec<u16> = (0..1024).map(|i: u16| i.saturating_sub(1)).collect();
    let entries: Vec<String> = v.iter().map(u16::to_string).collect();
    let wanted = format!("1024 {} {}\n", entries.join(","), text(&v));
    assert_eq!(listed(&record(&v)), wanted);
}

/// Each input that is handed on ends in the way it is meant to.
#[test]
fn the_inputs_end_as_they_are_meant_to() {
    for (name, lines, last) in [
        ("listing", 318, "refused 10 1"),
        ("listing-sample", 4, "refused 2 2"),
        ("listing-cut", 7, "refused 2 1247"),
        ("listing-leaves", 4, "refused 1 0"),
        ("listing-entry", 4, "refused 4 2"),
    ] {
        let expected = String::from_utf8(second::files::expected(name).unwrap()).unwrap();
        assert_eq!(expected.lines().count(), lines, "{name}");
        assert_eq!(expected.lines().last(), Some(last), "{name}");
        assert!(second::files::input(name).unwrap().len() < 200_000);
    }
}
