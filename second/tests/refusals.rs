//! Every refusal with its place, and 01's order: each fault against a later one
//! that competes with it. "Of one number, the first place counts."

mod common;

use common::*;
use second::answer::Answer::{self, Done};
use second::calls;

fn zeros(n: usize) -> Vec<u16> {
    vec![0; n]
}

#[test]
fn vector_1_before_4() {
    assert_eq!(calls::check(&[7; 1025]), refused(1, 0));
    assert_eq!(calls::check(&zeros(1024)), Done(0));
}

#[test]
fn vector_4_at_the_first_entry_at_fault() {
    assert_eq!(calls::check(&[1]), refused(4, 0));
    assert_eq!(calls::check(&[1, 1, 9]), refused(4, 0));
    assert_eq!(calls::check(&[0, 0, 2, 5, 9]), refused(4, 3));
    let mut v = zeros(1024);
    v[1023] = 2044;
    assert_eq!(calls::check(&v), Done(0));
    v[1023] = 2045;
    assert_eq!(calls::check(&v), refused(4, 1023));
    v[1022] = 65535;
    assert_eq!(calls::check(&v), refused(4, 1022));
}

#[test]
fn vector_4_before_3() {
    assert_eq!(calls::to_table(&[0, 1], &mut []), refused(4, 1));
    assert_eq!(calls::to_newick(&[0, 1], &mut []), refused(4, 1));
    assert_eq!(calls::pack(&[0, 1], &mut []), refused(4, 1));
    assert_eq!(calls::shuffle(&[0, 1], &mut [], &mut []), refused(4, 1));
    assert_eq!(calls::to_table(&[], &mut []), refused(1, 0));
}

#[test]
fn room_3_with_the_elements_needed() {
    let v = [0, 0, 1, 4];
    assert_eq!(calls::to_table(&v, &mut [0; 8]), refused(3, 9));
    assert_eq!(calls::to_newick(&v, &mut [0; 13]), refused(3, 14));
    assert_eq!(calls::pack(&v, &mut [0; 1]), refused(3, 2));
    assert_eq!(calls::relabel(&v, &[0, 1, 2, 3], &mut [0; 3]), refused(3, 4));
    assert_eq!(calls::from_table(2, &[0, 1, 2], &mut [0; 1]), refused(3, 2));
    assert_eq!(calls::from_newick(b"(0,1);", &mut [0; 1]), refused(3, 2));
    assert_eq!(calls::unpack(&[0x00, 0x40], &mut [0; 1]), refused(3, 2));
    assert_eq!(calls::to_table(&[0], &mut []), Done(0));
}

#[test]
fn shuffle_3_when_either_buffer_is_short() {
    let v = [0, 0, 1, 4];
    assert_eq!(calls::shuffle(&v, &mut [0; 3], &mut [0; 9]), refused(3, 4));
    assert_eq!(calls::shuffle(&v, &mut [0; 9], &mut [0; 3]), refused(3, 4));
    assert_eq!(calls::shuffle(&v, &mut [0; 4], &mut [0; 4]), Done(4));
}

#[test]
fn relabelling_in_order() {
    // 1 before all, 4 before 2, 2 before 11, 11 before 3.
    assert_eq!(answer_of_relabel(&[], &[9]), refused(1, 0));
    assert_eq!(answer_of_relabel(&[0, 1], &[9]), refused(4, 1));
    assert_eq!(answer_of_relabel(&[0, 0], &[9]), refused(2, 2));
    assert_eq!(answer_of_relabel(&[0, 0], &[]), refused(2, 2));
    assert_eq!(answer_of_relabel(&[0, 0], &[0, 1, 2]), refused(2, 2));
    assert_eq!(calls::relabel(&[0, 0], &[0, 2], &mut []), refused(11, 1));
    assert_eq!(calls::relabel(&[0, 0], &[0, 1], &mut []), refused(3, 2));
}

#[test]
fn permutation_11_at_the_first_index_at_fault() {
    let v = zeros(4);
    assert_eq!(answer_of_relabel(&v, &[4, 0, 0, 1]), refused(11, 0));
    assert_eq!(answer_of_relabel(&v, &[0, 1, 1, 65535]), refused(11, 2));
    assert_eq!(answer_of_relabel(&v, &[3, 2, 1, 3]), refused(11, 3));
    assert_eq!(answer_of_relabel(&v, &[3, 2, 1, 0]), Done(4));
}

#[test]
fn table_1_before_2_for_any_leaf_count() {
    for leaves in [0, 1025, 65537, u64::from(u32::MAX), 1 << 32, 1 << 63, u64::MAX] {
        assert_eq!(answer_of_table(leaves, &[5]), refused(1, 0));
        assert_eq!(answer_of_table(leaves, &[]), refused(1, 0));
    }
    assert_eq!(answer_of_table(1025, &zeros(3072)), refused(1, 0));
}

#[test]
fn table_2_before_5() {
    assert_eq!(answer_of_table(1, &[9, 9, 9]), refused(2, 0));
    assert_eq!(answer_of_table(3, &[9, 9, 9]), refused(2, 6));
    assert_eq!(answer_of_table(3, &zeros(7)), refused(2, 6));
    assert_eq!(answer_of_table(1024, &[]), refused(2, 3069));
}

#[test]
fn table_5_before_6_before_7_in_a_row() {
    assert_eq!(answer_of_table(2, &[9, 9, 3]), refused(5, 0));
    assert_eq!(answer_of_table(2, &[9, 9, 2]), refused(6, 0));
    assert_eq!(answer_of_table(2, &[2, 0, 2]), refused(6, 0));
    assert_eq!(answer_of_table(2, &[0, 2, 2]), refused(6, 0));
    assert_eq!(answer_of_table(2, &[1, 1, 2]), refused(7, 0));
    assert_eq!(answer_of_table(3, &[0, 1, 3, 0, 4, 4]), refused(6, 1));
    assert_eq!(answer_of_table(3, &[0, 1, 3, 0, 4, 5]), refused(5, 1));
}

#[test]
fn table_an_earlier_row_before_a_later_one() {
    // 7 in row 0 before 5 in row 1; 6 in row 0 before 5 in row 1; 7 before 5.
    assert_eq!(answer_of_table(3, &[0, 0, 3, 2, 3, 9]), refused(7, 0));
    assert_eq!(answer_of_table(3, &[0, 3, 3, 2, 3, 9]), refused(6, 0));
    assert_eq!(answer_of_table(4, &[0, 1, 4, 0, 2, 5, 3, 5, 9]), refused(7, 1));
    assert_eq!(answer_of_table(4, &[0, 1, 4, 2, 4, 5, 3, 4, 6]), refused(7, 2));
    assert_eq!(calls::from_table(2, &[1, 1, 2], &mut []), refused(7, 0));
}

#[test]
fn text_2_before_8() {
    assert_eq!(answer_of_text(&[b'x'; 6057]), refused(2, 6056));
    assert_eq!(answer_of_text(&[b'x'; 6056]), refused(8, 0));
}

/// A legal text of so many labels, all 0, in few levels.
fn wide(labels: usize) -> String {
    match labels {
        1 => "0".to_string(),
        _ => format!("({},{})", wide(labels / 2), wide(labels - labels / 2)),
    }
}

#[test]
fn text_8_before_1_before_13_before_3() {
    let broken = format!("{}x", wide(1025));
    assert_eq!(answer_of_text(broken.as_bytes()), refused(8, broken.len() - 1));
    assert_eq!(answer_of_text(wide(1025).as_bytes()), refused(8, 4097));
    assert_eq!(answer_of_text(format!("{};", wide(1025)).as_bytes()), refused(1, 0));
    let first = "(".repeat(10) + "0,";
    let right_count = format!("{};", wide(1024));
    assert!(right_count.starts_with(&first));
    assert_eq!(answer_of_text(right_count.as_bytes()), refused(13, first.len()));
    assert_eq!(calls::from_newick(b"(1,1);", &mut []), refused(13, 3));
    assert_eq!(calls::from_newick(b"(1,2);", &mut []), refused(9, 3));
    assert_eq!(calls::from_newick(b"(1,0);", &mut []), refused(3, 2));
}

#[test]
fn text_9_or_13_at_the_first_label_at_fault() {
    assert_eq!(answer_of_text(b"(9999,(0,0));"), refused(9, 1));
    assert_eq!(answer_of_text(b"((0,0),9999);"), refused(13, 4));
    assert_eq!(answer_of_text(b"(2,(1,3));"), refused(9, 6));
    assert_eq!(answer_of_text(b"(2,(1,0));"), Done(3));
    assert_eq!(answer_of_text(b"(0,0);"), refused(13, 3));
    assert_eq!(answer_of_text(b"5;"), refused(9, 0));
}

#[test]
fn a_label_is_double_where_it_stands_again() {
    assert_eq!(answer_of_text(b"((1,0),1);"), refused(13, 7));
    assert_eq!(answer_of_text(b"((2,0),(2,0));"), refused(13, 8));
    // The first 7 is stray; the second one, which is both, comes later.
    assert_eq!(answer_of_text(b"(7,7);"), refused(9, 1));
}

#[test]
fn record_in_order() {
    // 2 at 2 before 1, 1 before 2, 2 before 4, 4 before 10, 10 before 3.
    assert_eq!(answer_of_record(&[]), refused(2, 2));
    assert_eq!(answer_of_record(&[0x00]), refused(2, 2));
    assert_eq!(answer_of_record(&[0x00, 0x00, 0x00]), refused(1, 0));
    assert_eq!(answer_of_record(&[0x00, 0x1F]), refused(1, 0));
    assert_eq!(answer_of_record(&[0x80, 0x20]), refused(1, 0));
    assert_eq!(answer_of_record(&[0xFF, 0xFF]), refused(1, 0));
    assert_eq!(answer_of_record(&[0x80, 0x00]), refused(2, 1280));
    assert_eq!(answer_of_record(&[0x00, 0x7F, 0x00]), refused(2, 2));
    assert_eq!(answer_of_record(&[0x00, 0x7F]), refused(4, 2));
    assert_eq!(answer_of_record(&[0x00, 0x71]), refused(10, 1));
    assert_eq!(calls::unpack(&[0x00, 0x71], &mut []), refused(10, 1));
    assert_eq!(calls::unpack(&[0x00, 0x70], &mut []), refused(3, 3));
}

/// 5 leaves: 11 + 2 + 3 + 3 = 19 bits, 5 of padding in the third byte.
#[test]
fn record_10_for_each_padding_bit() {
    let right = record(&[0, 0, 1, 2, 3]);
    for bit in 0..5 {
        let mut damaged = right.clone();
        damaged[2] |= 1 << bit;
        assert_eq!(answer_of_record(&damaged), refused(10, 2));
    }
    let mut field = right;
    field[2] |= 1 << 7;
    assert_eq!(answer_of_record(&field), refused(4, 4));
}

/// "A refusal writes nothing", in either buffer.
#[test]
fn a_refusal_writes_nothing() {
    let mut words = [9u16; 3];
    let mut bytes = [9u8; 3];
    let mut ample = [9u16; 9];
    let v = [0, 0, 1, 4, 2];
    let mut answers: Vec<Answer> = vec![
        calls::to_table(&v, &mut words),
        calls::to_newick(&v, &mut bytes),
        calls::pack(&v, &mut bytes[..2]),
        calls::relabel(&v, &[0, 1, 2, 3, 4], &mut words),
        calls::from_table(2, &[1, 1, 2], &mut words),
        calls::from_newick(b"(0,(1,(2,3)));", &mut words),
        calls::unpack(&[0x00, 0x41], &mut words),
    ];
    answers.push(calls::shuffle(&v, &mut ample, &mut words));
    answers.push(calls::shuffle(&v, &mut words, &mut ample));
    assert!(answers.iter().all(|answer| matches!(answer, Answer::Refused(_))));
    assert_eq!((words, bytes, ample), ([9; 3], [9; 3], [9; 9]));
}

/// "Elements past those written keep their old values."
#[test]
fn done_keeps_the_tail() {
    let mut words = [9u16; 5];
    assert_eq!(calls::from_newick(b"((0,2),1);", &mut words), Done(3));
    assert_eq!(words, [0, 0, 0, 9, 9]);
    let mut bytes = [9u8; 4];
    assert_eq!(calls::pack(&[0, 0, 2], &mut bytes), Done(2));
    assert_eq!(bytes, [0x00, 0x70, 9, 9]);
    let (mut new, mut vector) = ([9u16; 5], [9u16; 6]);
    assert_eq!(calls::shuffle(&[0, 0, 2, 1], &mut new, &mut vector), Done(4));
    assert_eq!(new, [0, 2, 1, 3, 9]);
    assert_eq!(vector, [0, 0, 0, 2, 9, 9]);
}
