//! The buffers that a case lends: "room exact, ample and short", and what they
//! hold before the call.
//!
//! 01: refusal 3, "an output has too few elements", place "elements needed".

use super::chance::Chance;
use crate::stream::Lent;

/// A buffer for a result of so many elements. A refused input has no result, and
/// its room is chosen as if it had one: 3 must not be given before its fault.
pub fn lent(chance: &mut Chance, needed: usize) -> Lent {
    let room = match chance.below(8) {
        0..=2 => needed,
        3..=4 => needed + chance.between(1, 20),
        5 => needed.saturating_sub(1),
        6 => chance.below(needed + 1),
        _ => 0,
    };
    of_room(chance, room)
}

/// A buffer that is surely large enough.
pub fn enough(chance: &mut Chance, needed: usize) -> Lent {
    let room = needed + chance.one_of(&[0, 0, 1, 7]);
    of_room(chance, room)
}

/// A buffer that is surely short, where anything is needed.
pub fn short(chance: &mut Chance, needed: usize) -> Lent {
    let room = match chance.below(3) {
        0 => 0,
        1 => chance.below(needed.max(1)),
        _ => needed.saturating_sub(1),
    };
    of_room(chance, room)
}

/// A buffer cut down to what a stream can have.
pub fn at_most(most: usize, lent: Lent) -> Lent {
    Lent { room: lent.room.min(most), ..lent }
}

pub fn of_room(chance: &mut Chance, room: usize) -> Lent {
    Lent { room, seed: chance.word() }
}

pub fn table(n: usize) -> usize {
    3 * n.saturating_sub(1)
}

/// A label for each leaf, three signs for each pair, and the semicolon.
pub fn text(n: usize) -> usize {
    let labels: usize = (0..n).map(|leaf| leaf.to_string().len()).sum();
    labels + 3 * n.saturating_sub(1) + 1
}
