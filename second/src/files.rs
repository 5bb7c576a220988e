//! The inputs and expected outputs of the programs that are run and compared, and the
//! Newick files that are among these inputs.
//!
//! 01: "run and compared with an independent second program."

use crate::cases::newick_files;
use crate::{cases, every, listing, run, samples, stream};
use std::fs;
use std::io;
use std::path::Path;

/// The names whose files are stored. The listing program gets every name that begins
/// with `listing`; the other names are programs of their own.
pub const NAMES: [&str; 10] = [
    "samples",
    "every",
    "calls",
    "archive_cases",
    "text_cases",
    "listing",
    "listing-sample",
    "listing-cut",
    "listing-leaves",
    "listing-entry",
];

/// The name of tests/clades.c. Its stream is large, so it is made anew for each run
/// and stands nowhere.
pub const CLADES: &str = "clades";

/// What the program gets on standard input.
pub fn input(name: &str) -> Option<Vec<u8>> {
    let input = match name {
        "samples" | "every" => Vec::new(),
        "calls" => stream::write(&cases::all()),
        "archive_cases" => stream::write(&cases::of_archives()),
        "text_cases" => stream::write(&cases::of_texts()),
        CLADES => stream::write(&cases::of_clades()),
        "listing" => cases::listings::long(),
        "listing-sample" => samples::LISTING.to_vec(),
        "listing-cut" => cases::listings::cut(),
        "listing-leaves" => cases::listings::leaves(),
        "listing-entry" => cases::listings::entry(),
        _ => return None,
    };
    Some(input)
}

/// What the program must write.
pub fn expected(name: &str) -> Option<Vec<u8>> {
    input(name).map(|input| output(name, &input))
}

/// The output is worked out from the very bytes of the input, where there are
/// any, so that the two cannot differ.
fn output(name: &str, input: &[u8]) -> Vec<u8> {
    match name {
        "samples" => samples::lines(),
        "every" => every::lines(),
        "calls" | "archive_cases" | "text_cases" | CLADES => run::answers(input),
        _ => listed(input),
    }
}

fn listed(input: &[u8]) -> Vec<u8> {
    let mut output = Vec::new();
    listing::list(&mut &input[..], &mut output).expect("memory is read and written");
    output
}

/// A file of the repository, by its path from the root.
pub struct File {
    pub path: String,
    pub contents: Vec<u8>,
}

/// Where a name's input and output stand. What the gate runs a program on stands
/// beside that program; what else the listing is tried on stands in `expected/`.
fn paths(name: &str) -> [String; 2] {
    let program = match name {
        "samples" | "every" | "calls" | "archive_cases" | "text_cases" => name,
        "listing-sample" => "listing",
        _ => return ["in", "out"].map(|end| format!("second/expected/{name}.{end}")),
    };
    ["stdin", "stdout"].map(|file| format!("crates/{program}/{file}"))
}

/// The files of every name, of which an empty input has none, and the Newick files.
pub fn all() -> Vec<File> {
    let newick = newick_files::all().into_iter();
    let mut files: Vec<File> = newick
        .map(|file| File { path: format!("data/newick/{}", file.name), contents: file.contents })
        .collect();
    for name in NAMES {
        let input = input(name).expect("every name has an input");
        let output = output(name, &input);
        let [input_path, output_path] = paths(name);
        if !input.is_empty() {
            files.push(File { path: input_path, contents: input });
        }
        files.push(File { path: output_path, contents: output });
    }
    files
}

pub fn write(root: &Path, files: &[File]) -> io::Result<()> {
    for file in files {
        let path = root.join(&file.path);
        if let Some(folder) = path.parent() {
            fs::create_dir_all(folder)?;
        }
        fs::write(path, &file.contents)?;
        println!("written {} {}", file.path, file.contents.len());
    }
    Ok(())
}

/// Prints a line for each file; false where one differs or is missing.
pub fn verify(root: &Path, files: &[File]) -> bool {
    let mut all_same = true;
    for file in files {
        let word = match fs::read(root.join(&file.path)) {
            Ok(found) if found == file.contents => "same",
            Ok(_) => "differs",
            Err(_) => "missing",
        };
        all_same &= word == "same";
        println!("{word} {}", file.path);
    }
    all_same
}
