//! The listing program.
//!
//! 01: "It reads packed records back to back from standard input and holds one at
//! a time, up to 4,294,967,295 of them; it looks no further. Per record it writes
//! one line: n, a space, the vector with commas, a space, the text. It takes each
//! answer apart, and the first refusal ends the run with the line `refused`,
//! number, place. Places are places within the record being read. Input that ends
//! inside a record is 2, with the length wanted: 2 where a single byte is left,
//! else the record's length, after 1 for its n. Empty input prints nothing."

use crate::answer::{Answer, Refusal};
use crate::newick;
use crate::record;
use crate::tree::Tree;
use std::io::{self, Read, Write};

pub const MOST_RECORDS: u32 = 4_294_967_295;

pub fn list(input: &mut impl Read, output: &mut impl Write) -> io::Result<()> {
    list_up_to(MOST_RECORDS, input, output)
}

/// The listing of the first records, at most so many.
pub fn list_up_to(most: u32, input: &mut impl Read, output: &mut impl Write) -> io::Result<()> {
    for _ in 0..most {
        let record = next_record(input)?;
        if record.is_empty() {
            return Ok(());
        }
        match line(&record) {
            Ok(line) => writeln!(output, "{line}")?,
            Err(refusal) => return writeln!(output, "{}", Answer::Refused(refusal)),
        }
    }
    Ok(())
}

/// The bytes of the next record, as far as the input goes. Unpacking them gives
/// the refusals that are wanted where they are too few, in the order wanted.
fn next_record(input: &mut impl Read) -> io::Result<Vec<u8>> {
    let mut record = Vec::new();
    input.by_ref().take(2).read_to_end(&mut record)?;
    if let Ok(n) = record::leaves(&record) {
        let more = record::length_in_bytes(n) - record.len();
        input.by_ref().take(more as u64).read_to_end(&mut record)?;
    }
    Ok(record)
}

fn line(record: &[u8]) -> Result<String, Refusal> {
    let v = record::read(record)?;
    let entries: Vec<String> = v.iter().map(u16::to_string).collect();
    let text = newick::text(&Tree::of_vector(&v));
    Ok(format!("{} {} {}", v.len(), entries.join(","), text))
}
