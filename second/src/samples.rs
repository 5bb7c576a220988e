//! The samples of 01 and its refused inputs, and samples of 02's labels, blanks and
//! archive; a line for each call.
//!
//! 01: "The marked ones (*) are proved of the definitions [..]. The rest, and
//! every vector for n up to 6, are run and compared with an independent second
//! program."

use crate::notation::Lines;

/// The vectors of 01's table of samples.
pub const VECTORS: [&[u16]; 8] = [
    &[0],
    &[0, 0],
    &[0, 0, 2],
    &[0, 0, 1, 2],
    &[0, 0, 1, 4],
    &[0, 0, 2, 1],
    &[0, 0, 1, 3],
    &[0, 0, 2, 2],
];

/// "Refused: vector 0,1 (4 at 1); 0,0,3 (4 at 2), while 0,0,2 passes; the empty
/// vector (1); 1,025 entries (1)." 0,0,2 is in the table above.
pub const REFUSED_VECTORS: [&[u16]; 4] = [&[0, 1], &[0, 0, 3], &[], &[0; 1025]];

pub const REFUSED_TEXTS: [&str; 7] = ["", "01;", "(0,1)", "(0,1,2);", "12345;", "(0,0);", "5;"];

/// Texts with several labels at fault: 9 at 4, 13 at 4, 13 at 7 and 9 at 1.
pub const FAULTY_LABELS: [&str; 4] = ["((0,7),0);", "((0,0),7);", "((1,0),1);", "(7,7);"];

/// Texts with blanks: done; 8 at 2, where a label is parted, and at 6, since the blank
/// behind a text that ends early counts; 8 at the x; 9 at 6 and 13 at 6.
pub const WITH_BLANKS: [&str; 7] =
    ["( 0 , 1 ) ; ", "1 2;", "(0,1) ", "(0,1) x", "(0,1);x", "( 0 , 7 );", "( 0 , 0 );"];

/// "Rows 1,0,4; 3,2,5; 5,4,6 give 0,0,2,2".
pub const ROWS: [u16; 9] = [1, 0, 4, 3, 2, 5, 5, 4, 6];

/// "Input 00 8C 00 40 00 91 00 gives" four lines.
pub const LISTING: [u8; 7] = [0x00, 0x8C, 0x00, 0x40, 0x00, 0x91, 0x00];

/// Two trees of four leaves, and three of one.
pub const TWO_TREES: [u16; 8] = [0, 0, 1, 4, 0, 0, 2, 1];
pub const THREE_LEAVES: [u16; 3] = [0; 3];

/// Lists that the archive's writer refuses, with their leaf counts: 1, 1, 2 at 4 and
/// 4 at 7.
pub const REFUSED_LISTS: [(u64, &[u16]); 4] =
    [(0, &[]), (1025, &[]), (4, &[0, 0, 1]), (4, &[0, 0, 1, 4, 0, 0, 2, 5])];

/// Archives, and the trees that are read of them: a cut header; one byte cut off and
/// one too many; n = 2047 and n = 0; v(3) above its bound in record 1, and a padding
/// bit set there; as many trees of one leaf as there may be.
pub const READ: [(&[u8], u64); 10] = [
    (&[0x00, 0x80, 0x00], 0),
    (&[0x00, 0x80, 0x00, 0x02, 0x60], 0),
    (&[0x00, 0x80, 0x00, 0x02, 0x60, 0x88, 0x00], 0),
    (&[0xFF, 0xE0, 0x00, 0x02, 0x60, 0x88], 0),
    (&[0x00, 0x00, 0x00, 0x02, 0x60, 0x88], 0),
    (&[0x00, 0x80, 0x00, 0x02, 0x60, 0xA8], 0),
    (&[0x00, 0x80, 0x00, 0x02, 0x60, 0xA8], 1),
    (&[0x00, 0x80, 0x00, 0x02, 0x60, 0x89], 1),
    (&[0x00, 0x3F, 0xFF, 0xFF], 2_097_150),
    (&[0x00, 0x3F, 0xFF, 0xFF], 2_097_151),
];

pub fn lines() -> Vec<u8> {
    let mut lines = Lines::default();
    for v in VECTORS {
        lines.check(v);
        there_and_back(&mut lines, v);
        lines.shuffle(v);
    }
    lines.from_table(4, &ROWS);
    lines.relabel(&[0, 0, 1, 4], &[1, 0, 2, 3]);
    for v in REFUSED_VECTORS {
        refused_vector(&mut lines, v);
    }
    for text in REFUSED_TEXTS.into_iter().chain(FAULTY_LABELS).chain(WITH_BLANKS) {
        lines.from_newick(text.as_bytes());
    }
    lines.unpack(&[0x00, 0x41]);
    archives(&mut lines);
    lines.into_bytes()
}

fn archives(lines: &mut Lines) {
    let two = lines.write_archive(4, &TWO_TREES);
    for tree in 0..3 {
        lines.read_tree(&two, tree);
        lines.view(&two, tree);
    }
    let none = lines.write_archive(4, &[]);
    lines.read_tree(&none, 0);
    lines.view(&none, 0);
    let three = lines.write_archive(1, &THREE_LEAVES);
    lines.read_tree(&three, 2);
    lines.view(&three, 2);
    lines.read_tree(&three, 3);
    for (leaves, entries) in REFUSED_LISTS {
        lines.write_archive(leaves, entries);
    }
    for (archive, tree) in READ {
        lines.read_tree(archive, tree);
    }
}

/// A vector to each form and each form back to a vector.
pub fn there_and_back(lines: &mut Lines, v: &[u16]) {
    let rows = lines.to_table(v);
    lines.from_table(v.len() as u64, &rows);
    let text = lines.to_newick(v);
    lines.from_newick(&text);
    let record = lines.pack(v);
    lines.unpack(&record);
}

/// A vector is refused alike by every call that begins from it.
fn refused_vector(lines: &mut Lines, v: &[u16]) {
    let identity: Vec<u16> = (0..v.len() as u16).collect();
    lines.check(v);
    lines.to_table(v);
    lines.to_newick(v);
    lines.pack(v);
    lines.shuffle(v);
    lines.relabel(v, &identity);
}
