//! How lists, texts, records, archives and answers stand in the lines of `samples`
//! and `every`. The format is told in README.md.

use crate::answer::Answer;
use crate::calls;
use crate::newick::MOST_SIGNS;
use crate::vector::MOST_LEAVES;
use std::fmt::Display;

/// Numbers with commas; a list longer than any vector by its length alone.
pub fn list(numbers: &[u16]) -> String {
    if numbers.is_empty() {
        return "-".to_string();
    }
    if numbers.len() > MOST_LEAVES {
        return format!("#{}", numbers.len());
    }
    let numbers: Vec<String> = numbers.iter().map(u16::to_string).collect();
    numbers.join(",")
}

pub fn text(bytes: &[u8]) -> String {
    if bytes.is_empty() {
        return "-".to_string();
    }
    String::from_utf8_lossy(bytes).into_owned()
}

/// A record, an archive or a part of one: two upper-case digits a byte, nothing
/// between them.
pub fn record(bytes: &[u8]) -> String {
    if bytes.is_empty() {
        return "-".to_string();
    }
    bytes.iter().map(|byte| format!("{byte:02X}")).collect()
}

/// Room for every result of a sample: a table of 1,024 leaves, the longest text.
const AMPLE_WORDS: usize = 3 * (MOST_LEAVES - 1);
const AMPLE_BYTES: usize = MOST_SIGNS;

/// The lines of calls that are made one after another.
#[derive(Default)]
pub struct Lines {
    text: String,
}

impl Lines {
    pub fn into_bytes(self) -> Vec<u8> {
        self.text.into_bytes()
    }

    /// One line: call, inputs, answer, what was written.
    fn add(&mut self, call: &str, inputs: &str, answer: Answer, written: &str) {
        let written = match answer {
            Answer::Done(_) => written,
            Answer::Refused(_) => "-",
        };
        self.line(call, inputs, answer, written);
    }

    fn line(&mut self, call: &str, inputs: &str, given: impl Display, written: &str) {
        self.text += &format!("{call} {inputs} : {given} : {written}\n");
    }

    pub fn check(&mut self, v: &[u16]) {
        self.add("check", &list(v), calls::check(v), "-");
    }

    pub fn to_table(&mut self, v: &[u16]) -> Vec<u16> {
        let (answer, rows) = words(|out| calls::to_table(v, out));
        self.add("to_table", &list(v), answer, &list(&rows));
        rows
    }

    pub fn from_table(&mut self, leaves: u64, rows: &[u16]) {
        let (answer, v) = words(|out| calls::from_table(leaves, rows, out));
        let inputs = format!("{leaves} {}", list(rows));
        self.add("from_table", &inputs, answer, &list(&v));
    }

    pub fn to_newick(&mut self, v: &[u16]) -> Vec<u8> {
        let (answer, bytes) = bytes(|out| calls::to_newick(v, out));
        self.add("to_newick", &list(v), answer, &text(&bytes));
        bytes
    }

    pub fn from_newick(&mut self, bytes: &[u8]) {
        let (answer, v) = words(|out| calls::from_newick(bytes, out));
        self.add("from_newick", &text(bytes), answer, &list(&v));
    }

    pub fn pack(&mut self, v: &[u16]) -> Vec<u8> {
        let (answer, bytes) = bytes(|out| calls::pack(v, out));
        self.add("pack", &list(v), answer, &record(&bytes));
        bytes
    }

    pub fn unpack(&mut self, bytes: &[u8]) {
        let (answer, v) = words(|out| calls::unpack(bytes, out));
        self.add("unpack", &record(bytes), answer, &list(&v));
    }

    pub fn shuffle(&mut self, v: &[u16]) {
        let mut new = [0; AMPLE_WORDS];
        let (answer, vector) = words(|out| calls::shuffle(v, &mut new, out));
        let written = format!("{} {}", list(&new[..vector.len()]), list(&vector));
        self.add("shuffle", &list(v), answer, &written);
    }

    pub fn relabel(&mut self, v: &[u16], p: &[u16]) {
        let (answer, vector) = words(|out| calls::relabel(v, p, out));
        let inputs = format!("{} {}", list(v), list(p));
        self.add("relabel", &inputs, answer, &list(&vector));
    }

    pub fn write_archive(&mut self, leaves: u64, entries: &[u16]) -> Vec<u8> {
        let (answer, bytes) = bytes(|out| calls::write_archive(leaves, entries, out));
        let inputs = format!("{leaves} {}", list(entries));
        self.add("write_archive", &inputs, answer, &record(&bytes));
        bytes
    }

    pub fn read_tree(&mut self, archive: &[u8], tree: u64) {
        let (answer, v) = words(|out| calls::read_tree(archive, tree, out));
        let inputs = format!("{} {tree}", record(archive));
        self.add("read_tree", &inputs, answer, &list(&v));
    }

    pub fn view(&mut self, archive: &[u8], tree: u64) {
        let part = calls::view(archive, tree);
        let inputs = format!("{} {tree}", record(archive));
        self.line("view", &inputs, part, &record(part.of(archive)));
    }
}

/// The answer of a call with an ample buffer, and the elements it wrote.
fn words(call: impl FnOnce(&mut [u16]) -> Answer) -> (Answer, Vec<u16>) {
    let mut out = [0; AMPLE_WORDS];
    let answer = call(&mut out);
    (answer, written(answer, &out))
}

fn bytes(call: impl FnOnce(&mut [u8]) -> Answer) -> (Answer, Vec<u8>) {
    let mut out = [0; AMPLE_BYTES];
    let answer = call(&mut out);
    (answer, written(answer, &out))
}

fn written<T: Copy>(answer: Answer, out: &[T]) -> Vec<T> {
    match answer {
        Answer::Done(count) => out[..count].to_vec(),
        Answer::Refused(_) => Vec::new(),
    }
}
