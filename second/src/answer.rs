//! What comes back.
//!
//! 01: "Every answer is one record: done with the number of elements written (0
//! for check, n per buffer for shuffle), or refused with a kind and a place.
//! Elements past those written keep their old values. A refusal writes nothing."

use std::fmt;

/// The numbers of 01's table of refusals, and of those that 02 adds.
pub const LEAF_COUNT: u8 = 1;
pub const LENGTH: u8 = 2;
pub const ROOM: u8 = 3;
pub const ENTRY: u8 = 4;
pub const PARENT: u8 = 5;
pub const CHILD: u8 = 6;
pub const CHILD_AGAIN: u8 = 7;
pub const GRAMMAR: u8 = 8;
pub const STRAY_LABEL: u8 = 9;
pub const PADDING: u8 = 10;
pub const PERMUTATION: u8 = 11;
pub const TREE: u8 = 12;
pub const DOUBLE_LABEL: u8 = 13;
pub const TABLE_LEAVES: u8 = 14;
pub const TABLE_ROOM: u8 = 15;
pub const TREES: u8 = 21;

#[derive(Clone, Copy, Debug, PartialEq, Eq)]
pub struct Refusal {
    pub number: u8,
    pub place: usize,
}

#[derive(Clone, Copy, Debug, PartialEq, Eq)]
pub enum Answer {
    Done(usize),
    Refused(Refusal),
}

impl fmt::Display for Answer {
    fn fmt(&self, f: &mut fmt::Formatter) -> fmt::Result {
        match self {
            Answer::Done(written) => write!(f, "done {written}"),
            Answer::Refused(r) => write!(f, "refused {} {}", r.number, r.place),
        }
    }
}

impl From<Result<usize, Refusal>> for Answer {
    fn from(result: Result<usize, Refusal>) -> Answer {
        match result {
            Ok(written) => Answer::Done(written),
            Err(refusal) => Answer::Refused(refusal),
        }
    }
}

pub fn refuse<T>(number: u8, place: usize) -> Result<T, Refusal> {
    Err(Refusal { number, place })
}

/// Refusal 3: "an output has too few elements", place "elements needed".
pub fn room_for<T>(elements: &[T], out: &[T]) -> Result<(), Refusal> {
    room_or(ROOM, elements, out)
}

/// The refusal of that number where the room is short.
fn room_or<T>(short: u8, elements: &[T], out: &[T]) -> Result<(), Refusal> {
    if out.len() < elements.len() {
        return refuse(short, elements.len());
    }
    Ok(())
}

/// Writes the elements at the front of the buffer and leaves its tail alone.
pub fn write<T: Copy>(elements: &[T], out: &mut [T]) {
    out[..elements.len()].copy_from_slice(elements);
}

/// The answer of a call that lends one buffer. 3 is the last refusal of every
/// call, so it is looked for when all else is known to be right.
pub fn give<T: Copy>(made: Result<Vec<T>, Refusal>, out: &mut [T]) -> Answer {
    give_or(ROOM, made, out)
}

/// The same for a call whose last refusal has another number.
pub fn give_or<T: Copy>(short: u8, made: Result<Vec<T>, Refusal>, out: &mut [T]) -> Answer {
    let elements = match made {
        Ok(elements) => elements,
        Err(refusal) => return Answer::Refused(refusal),
    };
    if let Err(refusal) = room_or(short, &elements, out) {
        return Answer::Refused(refusal);
    }
    write(&elements, out);
    Answer::Done(elements.len())
}
