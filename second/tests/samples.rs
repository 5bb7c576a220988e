//! 01's samples, marked or not, and its refused inputs, with the results as 01
//! gives them; and the lines of 02's archive, worked out by hand in archive.rs.

mod common;

use common::*;
use second::answer::Answer::Done;
use second::calls;
use second::samples;

/// Vector, text, and the record where 01 gives one.
const SAMPLES: [(&[u16], &str, &[u8]); 8] = [
    (&[0], "0;", &[0x00, 0x20]),
    (&[0, 0], "(0,1);", &[0x00, 0x40]),
    (&[0, 0, 2], "((0,1),2);", &[0x00, 0x70]),
    (&[0, 0, 1, 2], "(0,(1,(2,3)));", &[]),
    (&[0, 0, 1, 4], "((0,(1,2)),3);", &[0x00, 0x8C]),
    (&[0, 0, 2, 1], "((0,(1,3)),2);", &[0x00, 0x91]),
    (&[0, 0, 1, 3], "(0,((1,2),3));", &[]),
    (&[0, 0, 2, 2], "((0,1),(2,3));", &[]),
];

#[test]
fn vectors_pass_the_check() {
    for (v, _, _) in SAMPLES {
        assert_eq!(calls::check(v), Done(0));
    }
}

#[test]
fn texts_are_written_and_read() {
    for (v, sample, _) in SAMPLES {
        assert_eq!(text(v), sample);
        assert_eq!(of_text(sample), v);
    }
}

#[test]
fn records_are_packed_and_unpacked() {
    for (v, _, sample) in SAMPLES {
        if !sample.is_empty() {
            assert_eq!(record(v), sample);
        }
        assert_eq!(of_record(&record(v)), v);
    }
}

#[test]
fn tables_are_as_01_gives_them() {
    assert_eq!(table(&[0, 0, 1, 4]), [1, 2, 4, 0, 4, 5, 5, 3, 6]);
    assert_eq!(table(&[0, 0, 2, 2]), [2, 3, 4, 0, 1, 5, 5, 4, 6]);
    assert_eq!(of_table(4, &[1, 0, 4, 3, 2, 5, 5, 4, 6]), [0, 0, 2, 2]);
    assert_eq!(table(&[0]), []);
    assert_eq!(of_table(1, &[]), [0]);
}

#[test]
fn the_shuffle_and_the_relabelling_are_as_01_gives_them() {
    assert_eq!(shuffle(&[0, 0, 2, 1]), (vec![0, 2, 1, 3], vec![0, 0, 0, 2]));
    assert_eq!(relabel(&[0, 0, 1, 4], &[1, 0, 2, 3]), [0, 0, 0, 4]);
}

#[test]
fn refused_vectors() {
    let cases: [(&[u16], u8, usize); 4] =
        [(&[0, 1], 4, 1), (&[0, 0, 3], 4, 2), (&[], 1, 0), (&[0; 1025], 1, 0)];
    for (v, number, place) in cases {
        let wanted = refused(number, place);
        assert_eq!(calls::check(v), wanted);
        assert_eq!(calls::to_table(v, &mut [0; 4000]), wanted);
        assert_eq!(calls::to_newick(v, &mut [0; 7000]), wanted);
        assert_eq!(calls::pack(v, &mut [0; 2000]), wanted);
        assert_eq!(calls::shuffle(v, &mut [0; 2000], &mut [0; 2000]), wanted);
        assert_eq!(answer_of_relabel(v, &[0, 1]), wanted);
    }
}

#[test]
fn refused_texts() {
    let cases = [
        ("", 8, 0),
        ("01;", 8, 1),
        ("(0,1)", 8, 5),
        ("(0,1,2);", 8, 4),
        ("12345;", 8, 4),
        ("(0,0);", 13, 3),
        ("5;", 9, 0),
        ("((0,7),0);", 9, 4),
        ("((0,0),7);", 13, 4),
        ("((1,0),1);", 13, 7),
        ("(7,7);", 9, 1),
    ];
    for (text, number, place) in cases {
        assert_eq!(answer_of_text(text.as_bytes()), refused(number, place), "{text}");
    }
}

#[test]
fn texts_with_blanks() {
    let cases = [
        ("( 0 , 1 ) ; ", Done(2)),
        ("1 2;", refused(8, 2)),
        ("(0,1) ", refused(8, 6)),
        ("(0,1) x", refused(8, 6)),
        ("(0,1);x", refused(8, 6)),
        ("( 0 , 7 );", refused(9, 6)),
        ("( 0 , 0 );", refused(13, 6)),
    ];
    assert_eq!(samples::WITH_BLANKS, cases.map(|(text, _)| text));
    for (text, answer) in cases {
        assert_eq!(answer_of_text(text.as_bytes()), answer, "{text}");
    }
    assert_eq!(of_text("( 0 , 1 ) ; "), [0, 0]);
}

#[test]
fn refused_record() {
    assert_eq!(answer_of_record(&[0x00, 0x41]), refused(10, 1));
}

/// The lines that are handed on hold these samples and no others.
#[test]
fn the_lines_hold_all_samples() {
    assert_eq!(samples::VECTORS, SAMPLES.map(|(v, _, _)| v));
    let lines = String::from_utf8(samples::lines()).unwrap();
    for wanted in [
        "to_table 0,0,1,4 : done 9 : 1,2,4,0,4,5,5,3,6\n",
        "from_table 4 1,0,4,3,2,5,5,4,6 : done 4 : 0,0,2,2\n",
        "to_newick 0,0,1,3 : done 14 : (0,((1,2),3));\n",
        "from_newick (0,((1,2),3)); : done 4 : 0,0,1,3\n",
        "pack 0,0,2,1 : done 2 : 0091\n",
        "unpack 008C : done 4 : 0,0,1,4\n",
        "shuffle 0,0,2,1 : done 4 : 0,2,1,3 0,0,0,2\n",
        "relabel 0,0,1,4 1,0,2,3 : done 4 : 0,0,0,4\n",
        "check #1025 : refused 1 0 : -\n",
        "check - : refused 1 0 : -\n",
        "check 0,0,3 : refused 4 2 : -\n",
        "from_newick - : refused 8 0 : -\n",
        "from_newick (0,0); : refused 13 3 : -\n",
        "from_newick ((0,7),0); : refused 9 4 : -\n",
        "from_newick ( 0 , 1 ) ;  : done 2 : 0,0\n",
        "from_newick 1 2; : refused 8 2 : -\n",
        "unpack 0041 : refused 10 1 : -\n",
        "to_table 0 : done 0 : -\n",
    ] {
        assert_eq!(lines.matches(wanted).count(), 1, "{wanted}");
    }
    assert_eq!(lines.lines().count(), 8 * 8 + 2 + 4 * 6 + 11 + 7 + 1 + ARCHIVES.len());
}

/// The lines of the archive, the last ones.
const ARCHIVES: [&str; 28] = [
    "write_archive 4 0,0,1,4,0,0,2,1 : done 6 : 008000026088",
    "read_tree 008000026088 0 : done 4 : 0,0,1,4",
    "view 008000026088 0 : part 4 1 : 60",
    "read_tree 008000026088 1 : done 4 : 0,0,2,1",
    "view 008000026088 1 : part 5 1 : 88",
    "read_tree 008000026088 2 : refused 12 2 : -",
    "view 008000026088 2 : part 0 0 : -",
    "write_archive 4 - : done 4 : 00800000",
    "read_tree 00800000 0 : refused 12 0 : -",
    "view 00800000 0 : part 0 0 : -",
    "write_archive 1 0,0,0 : done 4 : 00200003",
    "read_tree 00200003 2 : done 1 : 0",
    "view 00200003 2 : part 4 0 : -",
    "read_tree 00200003 3 : refused 12 3 : -",
    "write_archive 0 - : refused 1 0 : -",
    "write_archive 1025 - : refused 1 0 : -",
    "write_archive 4 0,0,1 : refused 2 4 : -",
    "write_archive 4 0,0,1,4,0,0,2,5 : refused 4 7 : -",
    "read_tree 008000 0 : refused 2 4 : -",
    "read_tree 0080000260 0 : refused 2 6 : -",
    "read_tree 00800002608800 0 : refused 2 6 : -",
    "read_tree FFE000026088 0 : refused 1 0 : -",
    "read_tree 000000026088 0 : refused 1 0 : -",
    "read_tree 0080000260A8 0 : done 4 : 0,0,1,4",
    "read_tree 0080000260A8 1 : refused 4 3 : -",
    "read_tree 008000026089 1 : refused 10 0 : -",
    "read_tree 003FFFFF 2097150 : done 1 : 0",
    "read_tree 003FFFFF 2097151 : refused 12 2097151 : -",
];

#[test]
fn the_lines_end_with_those_of_the_archive() {
    let lines = String::from_utf8(samples::lines()).unwrap();
    let first = lines.lines().count() - ARCHIVES.len();
    let last: Vec<&str> = lines.lines().skip(first).collect();
    assert_eq!(last, ARCHIVES);
    assert_eq!(lines.lines().nth(first - 1), Some("unpack 0041 : refused 10 1 : -"));
}
