//! What the tests share: each call with ample room, and its elements; and what is
//! known of a case of a stream without making its call.
#![allow(dead_code)] // not every file of tests makes every call

use second::answer::{Answer, Refusal};
use second::archive::Part;
use second::calls;
use second::clades::Clade;
use second::run::{hash, hash_clades};
use second::stream::{Case, Lent};

const AMPLE: usize = 7000;

pub fn refused(number: u8, place: usize) -> Answer {
    Answer::Refused(Refusal { number, place })
}

/// The elements of a call that must be done.
fn made<T: Copy + Default>(call: impl FnOnce(&mut [T]) -> Answer) -> Vec<T> {
    let mut out = vec![T::default(); AMPLE];
    match call(&mut out) {
        Answer::Done(count) => out[..count].to_vec(),
        refused => panic!("{refused}"),
    }
}

pub fn table(v: &[u16]) -> Vec<u16> {
    made(|out| calls::to_table(v, out))
}

pub fn of_table(leaves: u64, rows: &[u16]) -> Vec<u16> {
    made(|out| calls::from_table(leaves, rows, out))
}

pub fn text(v: &[u16]) -> String {
    String::from_utf8(made(|out| calls::to_newick(v, out))).unwrap()
}

pub fn of_text(text: &str) -> Vec<u16> {
    made(|out| calls::from_newick(text.as_bytes(), out))
}

pub fn record(v: &[u16]) -> Vec<u8> {
    made(|out| calls::pack(v, out))
}

pub fn of_record(record: &[u8]) -> Vec<u16> {
    made(|out| calls::unpack(record, out))
}

/// The permutation new and the shuffled vector.
pub fn shuffle(v: &[u16]) -> (Vec<u16>, Vec<u16>) {
    let mut new = vec![0; v.len()];
    let vector = made(|out| calls::shuffle(v, &mut new, out));
    (new, vector)
}

pub fn relabel(v: &[u16], p: &[u16]) -> Vec<u16> {
    made(|out| calls::relabel(v, p, out))
}

pub fn archive(leaves: u64, entries: &[u16]) -> Vec<u8> {
    made(|out| calls::write_archive(leaves, entries, out))
}

pub fn tree_of(archive: &[u8], tree: u64) -> Vec<u16> {
    made(|out| calls::read_tree(archive, tree, out))
}

pub fn clades_of(archive: &[u8]) -> Vec<Clade> {
    made(|out| calls::clade_table(archive, out))
}

/// The view of a tree as start and length.
pub fn part_of(archive: &[u8], tree: u64) -> (usize, usize) {
    let Part { start, length } = calls::view(archive, tree);
    (start, length)
}

/// The answers of calls that are to be refused, with ample room.
pub fn answer_of_table(leaves: u64, rows: &[u16]) -> Answer {
    calls::from_table(leaves, rows, &mut [0; AMPLE])
}

pub fn answer_of_text(text: &[u8]) -> Answer {
    calls::from_newick(text, &mut [0; AMPLE])
}

pub fn answer_of_record(record: &[u8]) -> Answer {
    calls::unpack(record, &mut [0; AMPLE])
}

pub fn answer_of_relabel(v: &[u16], p: &[u16]) -> Answer {
    calls::relabel(v, p, &mut [0; AMPLE])
}

pub fn answer_of_archive(leaves: u64, entries: &[u16]) -> Answer {
    calls::write_archive(leaves, entries, &mut [0; AMPLE])
}

pub fn answer_of_tree(archive: &[u8], tree: u64) -> Answer {
    calls::read_tree(archive, tree, &mut [0; AMPLE])
}

pub fn answer_of_clades(archive: &[u8]) -> Answer {
    calls::clade_table(archive, &mut [Clade::default(); AMPLE])
}

/// The lengths of inputs and rooms of a case.
pub fn lengths(case: &Case) -> Vec<usize> {
    match case {
        Case::Check { v } => vec![v.len()],
        Case::ToTable { v, out } | Case::ToNewick { v, out } | Case::Pack { v, out } => {
            vec![v.len(), out.room]
        }
        Case::FromTable { rows, out, .. } => vec![rows.len(), out.room],
        Case::FromNewick { text, out } => vec![text.len(), out.room],
        Case::Unpack { record, out } => vec![record.len(), out.room],
        Case::Shuffle { v, new_out, vector_out } => vec![v.len(), new_out.room, vector_out.room],
        Case::Relabel { v, p, out } => vec![v.len(), p.len(), out.room],
        Case::WriteArchive { entries, out, .. } => vec![entries.len(), out.room],
        Case::ReadTree { archive, out, .. } => vec![archive.len(), out.room],
        Case::View { archive, .. } => vec![archive.len()],
        Case::CladeTable { archive, out } => vec![archive.len(), out.room],
    }
}

/// The hashes that a refusal leaves: of each buffer as it was lent.
pub fn hashes_before(case: &Case) -> Vec<u32> {
    let words = |lent: &Lent| {
        let bytes: Vec<u8> = lent.words().iter().flat_map(|word| word.to_le_bytes()).collect();
        hash(&bytes)
    };
    match case {
        Case::Check { .. } | Case::View { .. } => Vec::new(),
        Case::ToNewick { out, .. } | Case::Pack { out, .. } | Case::WriteArchive { out, .. } => {
            vec![hash(&out.bytes())]
        }
        Case::Shuffle { new_out, vector_out, .. } => vec![words(new_out), words(vector_out)],
        Case::CladeTable { out, .. } => vec![hash_clades(&out.clades())],
        Case::ToTable { out, .. }
        | Case::FromTable { out, .. }
        | Case::FromNewick { out, .. }
        | Case::Unpack { out, .. }
        | Case::Relabel { out, .. }
        | Case::ReadTree { out, .. } => vec![words(out)],
    }
}
