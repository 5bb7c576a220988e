//! The seeded cases of the program `calls`: all nine calls of 01, with right inputs
//! and with every kind of damage that its table of refusals tells of. And those of
//! the program `archive_cases`: the three calls of 02's archive, in the same way. And
//! those of the program `text_cases`: texts with 02's blanks. And those of tests/clades.c:
//! 02's clade table.
//!
//! A kind is a function that makes one input of its sort by chance. Each kind is
//! used so many times with each call that takes it.

pub mod archive_ends;
pub mod archive_records;
pub mod archives;
pub mod blank_ends;
pub mod blanks;
pub mod chance;
pub mod clade_archives;
pub mod clade_ends;
pub mod clade_faults;
pub mod drafts;
pub mod ends;
pub mod labels;
pub mod listings;
pub mod lists;
pub mod manners;
pub mod newick_files;
pub mod permutations;
pub mod records;
pub mod rooms;
pub mod runs;
pub mod tables;
pub mod texts;
pub mod vectors;

use crate::stream::Case;
use chance::Chance;

const SEED: u64 = 20_240_229;
const SEED_OF_ARCHIVES: u64 = 20_240_301;
const SEED_OF_TEXTS: u64 = 20_240_302;
const SEED_OF_CLADES: u64 = 20_240_303;

/// The cases of `calls`, the same at every run.
pub fn all() -> Vec<Case> {
    let mut chance = Chance::from_seed(SEED);
    let mut cases = Vec::new();
    vectors::add(&mut cases, &mut chance);
    tables::add(&mut cases, &mut chance);
    texts::add(&mut cases, &mut chance);
    records::add(&mut cases, &mut chance);
    permutations::add(&mut cases, &mut chance);
    ends::add(&mut cases, &mut chance);
    labels::add(&mut cases, &mut chance);
    cases
}

/// The cases of `archive_cases`, the same at every run.
pub fn of_archives() -> Vec<Case> {
    let mut chance = Chance::from_seed(SEED_OF_ARCHIVES);
    let mut cases = Vec::new();
    lists::add(&mut cases, &mut chance);
    archives::add(&mut cases, &mut chance);
    archive_records::add(&mut cases, &mut chance);
    archive_ends::add(&mut cases, &mut chance);
    cases
}

/// The cases of `text_cases`, the same at every run.
pub fn of_texts() -> Vec<Case> {
    let mut chance = Chance::from_seed(SEED_OF_TEXTS);
    let mut cases = Vec::new();
    blanks::add(&mut cases, &mut chance);
    blank_ends::add(&mut cases, &mut chance);
    newick_files::add(&mut cases, &mut chance);
    cases
}

/// The cases of tests/clades.c, the same at every run.
pub fn of_clades() -> Vec<Case> {
    let mut chance = Chance::from_seed(SEED_OF_CLADES);
    let mut cases = Vec::new();
    clade_archives::add(&mut cases, &mut chance);
    clade_faults::add(&mut cases, &mut chance);
    clade_ends::add(&mut cases, &mut chance);
    cases
}
