//! The grammar of the text, and the place where a text breaks it.
//!
//! 01: "A text is a node and then ";", and nothing else. A node is a label, or
//! "(" node "," node ")". A label is "0", or one to four digits of which the
//! first is not 0. The nesting may go down 1,023 levels [..] A bracket that would
//! be the 1,024th open at once breaks the grammar at its byte."
//!
//! 02, CR 3: "Accept spaces, tabs, carriage returns and line feeds anywhere except
//! inside a label, also before the first sign and after the semicolon. Places of 8, 9
//! and 13 are in the bytes as sent."
//!
//! Refusal 8 has its place at the "first byte such that no text begins with the
//! bytes up to and including it; the length if it ends early". So this file
//! keeps what may still come: after some bytes, `rest` is the row of signs that
//! completes them to a text. A byte that fits no such row is the place. From
//! every row a text can be completed, so no later byte is at fault before it.
//! A blank is never at fault: it ends the label that is being read, so that no more
//! digits may come of it, and takes nothing else off the row.

use crate::answer::{refuse, Refusal, GRAMMAR};

pub const MOST_OPEN: usize = 1023;

/// "spaces, tabs, carriage returns and line feeds", and no other byte.
pub const BLANKS: [u8; 4] = *b" \t\r\n";

pub fn is_blank(byte: u8) -> bool {
    BLANKS.contains(&byte)
}

/// A sign that is still to come.
#[derive(Clone, Copy, PartialEq, Eq)]
enum Sign {
    Node,
    /// Up to so many more digits of a label.
    Digits(usize),
    Byte(u8),
}

/// Refuses a text that breaks the grammar.
pub fn follows(text: &[u8]) -> Result<(), Refusal> {
    // The next sign is the last of the row.
    let mut rest = vec![Sign::Byte(b';'), Sign::Node];
    for (place, &byte) in text.iter().enumerate() {
        if !read_byte(&mut rest, byte) {
            return refuse(GRAMMAR, place);
        }
    }
    if !rest.is_empty() {
        return refuse(GRAMMAR, text.len());
    }
    Ok(())
}

/// Takes one byte off what may still come; false where the byte cannot be next.
fn read_byte(rest: &mut Vec<Sign>, byte: u8) -> bool {
    if is_blank(byte) {
        end_label(rest);
        return true;
    }
    match (rest.pop(), byte) {
        (Some(Sign::Node), b'(') => open(rest),
        (Some(Sign::Node), b'0') => true,
        (Some(Sign::Node), b'1'..=b'9') => {
            rest.push(Sign::Digits(3));
            true
        }
        (Some(Sign::Digits(more)), b'0'..=b'9') if more > 0 => {
            rest.push(Sign::Digits(more - 1));
            true
        }
        // The label has ended before this byte.
        (Some(Sign::Digits(_)), _) => read_byte(rest, byte),
        (Some(Sign::Byte(wanted)), _) => byte == wanted,
        (Some(Sign::Node), _) | (None, _) => false,
    }
}

/// A label that is being read has no digits behind a blank.
fn end_label(rest: &mut Vec<Sign>) {
    if let Some(Sign::Digits(_)) = rest.last() {
        rest.pop();
    }
}

/// An opening bracket in the place of a node. Each bracket that is open has its
/// closing one still to come.
fn open(rest: &mut Vec<Sign>) -> bool {
    let already_open = rest.iter().filter(|&&sign| sign == Sign::Byte(b')')).count();
    if already_open == MOST_OPEN {
        return false;
    }
    rest.extend([Sign::Byte(b')'), Sign::Node, Sign::Byte(b','), Sign::Node]);
    true
}
