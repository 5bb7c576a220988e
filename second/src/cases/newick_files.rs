//! The Newick files of `data/newick`: trees in the manner of programs that write Newick,
//! with our labels. Each is a case, and so is each with what editors and systems put
//! before or behind a file.
//!
//! 02, CR 3: "Newick allows blanks and line ends between its signs."

use super::chance::Chance;
use super::manners::{broken, indented, spaced};
use super::{rooms, texts};
use crate::stream::Case;
use crate::vector::{bound, element};

pub struct NewickFile {
    pub name: &'static str,
    pub contents: Vec<u8>,
}

/// The column from which on a line is broken.
const WIDTH: usize = 70;

/// README.md in the folder tells what each is like.
pub fn all() -> Vec<NewickFile> {
    let line = |leaves| [tree(leaves), b"\n".to_vec()].concat();
    let file = |name, contents| NewickFile { name, contents };
    vec![
        file("one-leaf.nwk", line(1)),
        file("one-line.nwk", line(150)),
        file("spaced.nwk", [spaced(&tree(333), " "), b"\n".to_vec()].concat()),
        file("lines.nwk", broken(&tree(1024), WIDTH, "\n")),
        file("lines-crlf.nwk", broken(&tree(1024), WIDTH, "\r\n")),
        file("indented.nwk", indented(&tree(100), "  ", "\n")),
        file("tabs.nwk", indented(&tree(40), "\t", "\r\n")),
        file("by-hand.nwk", b"\n  ( (3, 1),\n    (0 ,2) ) ;\n\n".to_vec()),
    ]
}

/// The text of a tree of so many leaves, the same at every run. Each leaf stands beside
/// an earlier one, v(i) < i, as where lineages split: such trees are not deep.
fn tree(leaves: usize) -> Vec<u8> {
    let mut chance = Chance::from_seed(leaves as u64);
    let entry = |i: usize| element(chance.between(0, bound(i) / 2));
    let v: Vec<u16> = (0..leaves).map(entry).collect();
    texts::turned_text(&mut chance, &v)
}

pub fn add(cases: &mut Vec<Case>, chance: &mut Chance) {
    for NewickFile { contents, .. } in all() {
        let n = contents.iter().filter(|&&byte| byte == b',').count() + 1;
        let out = rooms::enough(chance, n);
        cases.push(Case::FromNewick { text: contents.clone(), out });
        for text in found(&contents) {
            cases.push(texts::case(text, chance));
        }
    }
}

/// How a file may be found: as it is, without its last byte, behind a mark of its
/// encoding, with the sign that ends files on some systems, and with its tree again.
fn found(contents: &[u8]) -> [Vec<u8>; 5] {
    let cut = &contents[..contents.len() - 1];
    [
        contents.to_vec(),
        cut.to_vec(),
        [b"\xEF\xBB\xBF", contents].concat(),
        [contents, b"\x1A"].concat(),
        [contents, contents].concat(),
    ]
}
