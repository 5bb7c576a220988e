//! The streams of cases that the programs `calls`, `archive_cases`, `text_cases` and
//! `clades` read. The format is told in README.md.
//!
//! 01: the nine calls, to which 02 adds the archive's three and the clade table; and
//! "vector and table numbers are 16 bits wide"; so a list is a length and its elements,
//! of two bytes or one. A leaf count and a tree's number may be any number of 64 bits.

/// No list of a stream has more elements, and no buffer; `clades`, which is read by a
/// program in C, has no such end.
pub const LONGEST: usize = 8192;

/// But a text of `text_cases` may have so many: more than are read.
pub const LONGEST_TEXT: usize = 65600;

/// A buffer to lend: its room, and the seed of what it holds before the call.
#[derive(Clone, Copy, Debug, PartialEq, Eq)]
pub struct Lent {
    pub room: usize,
    pub seed: u16,
}

/// One call with its inputs and the buffers it is lent.
#[derive(Clone, Debug, PartialEq, Eq)]
pub enum Case {
    Check { v: Vec<u16> },
    ToTable { v: Vec<u16>, out: Lent },
    FromTable { leaves: u64, rows: Vec<u16>, out: Lent },
    ToNewick { v: Vec<u16>, out: Lent },
    FromNewick { text: Vec<u8>, out: Lent },
    Pack { v: Vec<u16>, out: Lent },
    Unpack { record: Vec<u8>, out: Lent },
    Shuffle { v: Vec<u16>, new_out: Lent, vector_out: Lent },
    Relabel { v: Vec<u16>, p: Vec<u16>, out: Lent },
    WriteArchive { leaves: u64, entries: Vec<u16>, out: Lent },
    ReadTree { archive: Vec<u8>, tree: u64, out: Lent },
    View { archive: Vec<u8>, tree: u64 },
    CladeTable { archive: Vec<u8>, out: Lent },
}

/// The call's number, by the order of the calls in 01 and then in 02.
pub fn number(case: &Case) -> u8 {
    match case {
        Case::Check { .. } => 1,
        Case::ToTable { .. } => 2,
        Case::FromTable { .. } => 3,
        Case::ToNewick { .. } => 4,
        Case::FromNewick { .. } => 5,
        Case::Pack { .. } => 6,
        Case::Unpack { .. } => 7,
        Case::Shuffle { .. } => 8,
        Case::Relabel { .. } => 9,
        Case::WriteArchive { .. } => 10,
        Case::ReadTree { .. } => 11,
        Case::View { .. } => 12,
        Case::CladeTable { .. } => 13,
    }
}

/// The whole stream: the cases, and a byte 0 that ends it.
pub fn write(cases: &[Case]) -> Vec<u8> {
    let mut stream = Writer::default();
    for case in cases {
        stream.case(case);
    }
    stream.bytes.push(0);
    stream.bytes
}

#[derive(Default)]
struct Writer {
    bytes: Vec<u8>,
}

impl Writer {
    fn case(&mut self, case: &Case) {
        match case {
            Case::Check { v } => self.call(number(case)).words(v),
            Case::ToTable { v, out } => self.call(number(case)).words(v).lent(out),
            Case::FromTable { leaves, rows, out } => {
                self.call(number(case)).wide(*leaves).words(rows).lent(out)
            }
            Case::ToNewick { v, out } => self.call(number(case)).words(v).lent(out),
            Case::FromNewick { text, out } => self.call(number(case)).text(text).lent(out),
            Case::Pack { v, out } => self.call(number(case)).words(v).lent(out),
            Case::Unpack { record, out } => self.call(number(case)).text(record).lent(out),
            Case::Shuffle { v, new_out, vector_out } => {
                self.call(number(case)).words(v).lent(new_out).lent(vector_out)
            }
            Case::Relabel { v, p, out } => self.call(number(case)).words(v).words(p).lent(out),
            Case::WriteArchive { leaves, entries, out } => {
                self.call(number(case)).wide(*leaves).words(entries).lent(out)
            }
            Case::ReadTree { archive, tree, out } => {
                self.call(number(case)).text(archive).wide(*tree).lent(out)
            }
            Case::View { archive, tree } => self.call(number(case)).text(archive).wide(*tree),
            Case::CladeTable { archive, out } => self.call(number(case)).text(archive).lent(out),
        };
    }

    fn call(&mut self, number: u8) -> &mut Writer {
        self.bytes.push(number);
        self
    }

    fn length(&mut self, length: usize) -> &mut Writer {
        let length = u32::try_from(length).expect("a length has 32 bits");
        self.bytes.extend(length.to_le_bytes());
        self
    }

    /// A number of 64 bits.
    fn wide(&mut self, number: u64) -> &mut Writer {
        self.bytes.extend(number.to_le_bytes());
        self
    }

    fn words(&mut self, words: &[u16]) -> &mut Writer {
        self.length(words.len());
        self.bytes.extend(words.iter().flat_map(|word| word.to_le_bytes()));
        self
    }

    fn text(&mut self, text: &[u8]) -> &mut Writer {
        self.length(text.len());
        self.bytes.extend(text);
        self
    }

    fn lent(&mut self, lent: &Lent) -> &mut Writer {
        self.length(lent.room);
        self.bytes.extend(lent.seed.to_le_bytes());
        self
    }
}

/// The cases of a stream.
pub fn read(bytes: &[u8]) -> Vec<Case> {
    let mut stream = Reader { bytes };
    let mut cases = Vec::new();
    while let Some(case) = stream.case() {
        cases.push(case);
    }
    assert!(stream.bytes.is_empty(), "nothing follows the byte that ends a stream");
    cases
}

struct Reader<'a> {
    bytes: &'a [u8],
}

impl Reader<'_> {
    /// Fields of a Rust value are worked out in the order they are written, so
    /// each arm reads the stream from front to back.
    fn case(&mut self) -> Option<Case> {
        let case = match self.take(1)[0] {
            0 => return None,
            1 => Case::Check { v: self.words() },
            2 => Case::ToTable { v: self.words(), out: self.lent() },
            3 => Case::FromTable { leaves: self.wide(), rows: self.words(), out: self.lent() },
            4 => Case::ToNewick { v: self.words(), out: self.lent() },
            5 => Case::FromNewick { text: self.text(), out: self.lent() },
            6 => Case::Pack { v: self.words(), out: self.lent() },
            7 => Case::Unpack { record: self.text(), out: self.lent() },
            8 => Case::Shuffle { v: self.words(), new_out: self.lent(), vector_out: self.lent() },
            9 => Case::Relabel { v: self.words(), p: self.words(), out: self.lent() },
            10 => {
                Case::WriteArchive { leaves: self.wide(), entries: self.words(), out: self.lent() }
            }
            11 => Case::ReadTree { archive: self.text(), tree: self.wide(), out: self.lent() },
            12 => Case::View { archive: self.text(), tree: self.wide() },
            13 => Case::CladeTable { archive: self.text(), out: self.lent() },
            other => panic!("there is no call {other}"),
        };
        Some(case)
    }

    fn take(&mut self, count: usize) -> Vec<u8> {
        let (front, rest) = self.bytes.split_at(count);
        self.bytes = rest;
        front.to_vec()
    }

    /// A number of so many bytes, the least significant first.
    fn number(&mut self, bytes: usize) -> u64 {
        self.take(bytes).iter().rev().fold(0, |number, &byte| number << 8 | u64::from(byte))
    }

    fn wide(&mut self) -> u64 {
        self.number(8)
    }

    fn words(&mut self) -> Vec<u16> {
        let length = self.number(4);
        (0..length).map(|_| self.number(2) as u16).collect()
    }

    fn text(&mut self) -> Vec<u8> {
        let length = self.number(4) as usize;
        self.take(length)
    }

    fn lent(&mut self) -> Lent {
        Lent { room: self.number(4) as usize, seed: self.number(2) as u16 }
    }
}
