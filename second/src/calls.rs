//! The public calls. Each makes its elements or a refusal, and then looks at the
//! room it was lent; the view alone makes nothing.
//!
//! 01: "check a vector; vector to merge table; merge table to vector; vector to
//! Newick; Newick to vector; pack; unpack; Queue Shuffle with relabelling by a
//! given permutation (two calls, so nine public calls)".
//!
//! 02, CR 1: "a writer into a lent buffer, from n and the vectors' entries in one
//! list [..]; a reader of tree r; and a view".
//!
//! 02, CR 4: "build a table in a lent list of entries".

use crate::answer::{give, give_or, room_for, write, Answer, Refusal, TABLE_ROOM};
use crate::archive::{self, Part};
use crate::building;
use crate::clades::{self, Clade};
use crate::tree::Tree;
use crate::{newick, order, record, shuffle, table, vector};

pub fn check(v: &[u16]) -> Answer {
    vector::accepted(v).map(|()| 0).into()
}

pub fn to_table(v: &[u16], out: &mut [u16]) -> Answer {
    let made = vector::accepted(v).map(|()| table::rows(&building::merges(v)));
    give(made, out)
}

pub fn from_table(leaves: u64, rows: &[u16], out: &mut [u16]) -> Answer {
    let made = table::read(leaves, rows).map(|tree| order::vector(&tree));
    give(made, out)
}

pub fn to_newick(v: &[u16], out: &mut [u8]) -> Answer {
    let made = vector::accepted(v).map(|()| newick::text(&Tree::of_vector(v)).into_bytes());
    give(made, out)
}

pub fn from_newick(text: &[u8], out: &mut [u16]) -> Answer {
    let made = newick::read(text).map(|tree| order::vector(&tree));
    give(made, out)
}

pub fn pack(v: &[u16], out: &mut [u8]) -> Answer {
    let made = vector::accepted(v).map(|()| record::record(v));
    give(made, out)
}

pub fn unpack(record: &[u8], out: &mut [u16]) -> Answer {
    give(record::read(record), out)
}

/// Refusal 3 is given when either buffer is short, and then neither is written.
pub fn shuffle(v: &[u16], new_out: &mut [u16], vector_out: &mut [u16]) -> Answer {
    shuffled(v, new_out, vector_out).into()
}

fn shuffled(v: &[u16], new_out: &mut [u16], vector_out: &mut [u16]) -> Result<usize, Refusal> {
    vector::accepted(v)?;
    let tree = Tree::of_vector(v);
    let new = shuffle::new_labels(&tree, v.len());
    let vector = order::vector(&tree.renamed(&new));
    room_for(&new, new_out)?;
    room_for(&vector, vector_out)?;
    write(&new, new_out);
    write(&vector, vector_out);
    Ok(v.len())
}

pub fn relabel(v: &[u16], p: &[u16], out: &mut [u16]) -> Answer {
    give(relabelled(v, p), out)
}

fn relabelled(v: &[u16], p: &[u16]) -> Result<Vec<u16>, Refusal> {
    vector::accepted(v)?;
    shuffle::is_permutation(p, v.len())?;
    Ok(order::vector(&Tree::of_vector(v).renamed(p)))
}

pub fn write_archive(leaves: u64, entries: &[u16], out: &mut [u8]) -> Answer {
    give(archive::write(leaves, entries), out)
}

pub fn read_tree(archive: &[u8], tree: u64, out: &mut [u16]) -> Answer {
    give(archive::read(archive, tree), out)
}

/// "the part of the lent archive that is record r, empty where the reader gives 1,
/// 2 or 12": then it starts at 0. It is lent no room and looks into no record.
pub fn view(archive: &[u8], tree: u64) -> Part {
    archive::part(archive, tree).unwrap_or_default()
}

/// "and last 15, exactly when there are more different clades than entries lent
/// (place: entries needed)": it stands where other calls have 3.
pub fn clade_table(archive: &[u8], out: &mut [Clade]) -> Answer {
    give_or(TABLE_ROOM, clades::table(archive), out)
}
