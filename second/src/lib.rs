//! The independent second program: it says what to expect of the library.
//!
//! 01: "The rest, and every vector for n up to 6, are run and compared with an
//! independent second program."
//!
//! It follows the sentences of 01 and 02 one by one, with sets of leaves, tables of
//! labels, strings of bits and strings of text, and shares nothing with the library.
//! Where the two ways are open, the plainer one is taken, not the faster one.

// The rules, a file for each part of 01 and for the archive and the clade table of 02.
pub mod answer;
pub mod archive;
pub mod building;
pub mod clades;
pub mod grammar;
pub mod newick;
pub mod order;
pub mod record;
pub mod shuffle;
pub mod table;
pub mod tree;
pub mod vector;

// The calls and the listing program.
pub mod calls;
pub mod listing;

// What is written for the tests of the library.
pub mod cases;
pub mod every;
pub mod files;
pub mod notation;
pub mod run;
pub mod samples;
pub mod stream;
