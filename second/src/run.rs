//! Makes the calls of a stream, and writes the lines that the program which reads
//! it must write. The format is told in README.md.
//!
//! 01: "For each public call the statement settles number, place, count and each
//! element of each lent buffer after it, for all inputs, refused ones too." So a
//! line has the answer and a hash of each whole buffer. The view gives a part and
//! no answer; its line has a hash of the bytes there.

use crate::answer::Answer;
use crate::archive::Part;
use crate::calls;
use crate::clades::Clade;
use crate::stream::{number, read, Case, Lent};
use std::fmt;

/// An odd number, so that no two of 2^32 marks in a row have the same lowest 32 bits.
const STEP_OF_MARKS: u64 = 0x9E37_79B9_7F4A_7C15;

/// What comes back from a call: an answer, or the part that the view gives.
#[derive(Clone, Copy, Debug, PartialEq, Eq)]
pub enum Given {
    Answer(Answer),
    Part(Part),
}

impl fmt::Display for Given {
    fn fmt(&self, f: &mut fmt::Formatter) -> fmt::Result {
        match self {
            Given::Answer(answer) => answer.fmt(f),
            Given::Part(part) => part.fmt(f),
        }
    }
}

impl Lent {
    /// "prior element k": the seed and 31 for each element before it.
    pub fn words(&self) -> Vec<u16> {
        let steps = (0..self.room).map(|k| (31 * k) as u16);
        steps.map(|step| self.seed.wrapping_add(step)).collect()
    }

    pub fn bytes(&self) -> Vec<u8> {
        self.words().iter().map(|word| (word % 256) as u8).collect()
    }

    /// Entry k has the marks 3k, 3k+1 and 3k+2, and mark j is seed + j times the step:
    /// every field of every entry is another number.
    pub fn clades(&self) -> Vec<Clade> {
        let seed = u64::from(self.seed);
        let mark = |j: usize| (seed + j as u64).wrapping_mul(STEP_OF_MARKS);
        let entry = |k: usize| Clade {
            leaves: mark(3 * k),
            size: mark(3 * k + 1) as u32,
            count: mark(3 * k + 2) as u32,
        };
        (0..self.room).map(entry).collect()
    }
}

/// A line of the expected output without its index.
pub fn line(case: &Case) -> String {
    let (given, hashes) = run(case);
    let mut line = format!("{} {given}", number(case));
    for hash in hashes {
        line += &format!(" {hash:08x}");
    }
    line
}

/// Makes the call: what it gives, and a hash of each lent buffer after it, or of
/// the part's bytes.
pub fn run(case: &Case) -> (Given, Vec<u32>) {
    match case {
        Case::Check { v } => (Given::Answer(calls::check(v)), Vec::new()),
        Case::ToTable { v, out } => in_words(out, |out| calls::to_table(v, out)),
        Case::FromTable { leaves, rows, out } => {
            in_words(out, |out| calls::from_table(*leaves, rows, out))
        }
        Case::ToNewick { v, out } => in_bytes(out, |out| calls::to_newick(v, out)),
        Case::FromNewick { text, out } => in_words(out, |out| calls::from_newick(text, out)),
        Case::Pack { v, out } => in_bytes(out, |out| calls::pack(v, out)),
        Case::Unpack { record, out } => in_words(out, |out| calls::unpack(record, out)),
        Case::Shuffle { v, new_out, vector_out } => {
            let mut new = new_out.words();
            let mut vector = vector_out.words();
            let answer = calls::shuffle(v, &mut new, &mut vector);
            (Given::Answer(answer), vec![hash_words(&new), hash_words(&vector)])
        }
        Case::Relabel { v, p, out } => in_words(out, |out| calls::relabel(v, p, out)),
        Case::WriteArchive { leaves, entries, out } => {
            in_bytes(out, |out| calls::write_archive(*leaves, entries, out))
        }
        Case::ReadTree { archive, tree, out } => {
            in_words(out, |out| calls::read_tree(archive, *tree, out))
        }
        Case::View { archive, tree } => {
            let part = calls::view(archive, *tree);
            (Given::Part(part), vec![hash(part.of(archive))])
        }
        Case::CladeTable { archive, out } => {
            let mut table = out.clades();
            let answer = calls::clade_table(archive, &mut table);
            (Given::Answer(answer), vec![hash_clades(&table)])
        }
    }
}

fn in_words(lent: &Lent, call: impl FnOnce(&mut [u16]) -> Answer) -> (Given, Vec<u32>) {
    let mut out = lent.words();
    let answer = call(&mut out);
    (Given::Answer(answer), vec![hash_words(&out)])
}

fn in_bytes(lent: &Lent, call: impl FnOnce(&mut [u8]) -> Answer) -> (Given, Vec<u32>) {
    let mut out = lent.bytes();
    let answer = call(&mut out);
    (Given::Answer(answer), vec![hash(&out)])
}

fn hash_words(words: &[u16]) -> u32 {
    let bytes: Vec<u8> = words.iter().flat_map(|word| word.to_le_bytes()).collect();
    hash(&bytes)
}

/// Over the whole list, an entry as its 16 bytes: leaves, size, count.
pub fn hash_clades(table: &[Clade]) -> u32 {
    let mut bytes = Vec::new();
    for clade in table {
        bytes.extend(clade.leaves.to_le_bytes());
        bytes.extend(clade.size.to_le_bytes());
        bytes.extend(clade.count.to_le_bytes());
    }
    hash(&bytes)
}

/// FNV-1a in 32 bits.
pub fn hash(bytes: &[u8]) -> u32 {
    bytes
        .iter()
        .fold(0x811c_9dc5, |hash: u32, &byte| (hash ^ u32::from(byte)).wrapping_mul(0x0100_0193))
}

/// The expected output for a stream, a line for each case.
pub fn answers(stream: &[u8]) -> Vec<u8> {
    let mut lines = String::new();
    for (index, case) in read(stream).iter().enumerate() {
        lines += &format!("{index} {}\n", line(case));
    }
    lines.into_bytes()
}
