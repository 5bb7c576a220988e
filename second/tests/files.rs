//! The files of expected results, and the comparison of `second verify`.

use second::cases::newick_files;
use second::files::{self, expected, input, verify, write, File};
use std::fs;
use std::io::BufRead;
use std::path::Path;
use std::sync::{Arc, Mutex};

/// All the files, made once for all the tests.
fn all() -> Arc<Vec<File>> {
    static ALL: Mutex<Option<Arc<Vec<File>>>> = Mutex::new(None);
    let mut all = ALL.lock().unwrap();
    Arc::clone(all.get_or_insert_with(|| Arc::new(files::all())))
}

#[test]
fn the_repository_holds_what_would_be_written_now() {
    let root = Path::new(env!("CARGO_MANIFEST_DIR")).join("..");
    let files = all();
    assert!(verify(&root, &files));
    assert!(files.iter().all(|file| !file.contents.is_empty()));
    // Beside the Newick files stands a page about them.
    for (folder, others) in [("second/expected", 0), ("data/newick", 1)] {
        let written = files.iter().filter(|file| file.path.starts_with(folder)).count();
        let found = fs::read_dir(root.join(folder)).unwrap().count();
        assert_eq!(found, written + others, "no other file stands in {folder}");
    }
}

/// The page about the Newick files has a row for each, with the leaves that it has.
#[test]
fn every_newick_file_has_its_row() {
    let root = Path::new(env!("CARGO_MANIFEST_DIR")).join("..");
    let page = fs::read_to_string(root.join("data/newick/README.md")).unwrap();
    let page = page.replace("1,024", "1024");
    for file in newick_files::all() {
        let leaves = file.contents.iter().filter(|&&byte| byte == b',').count() + 1;
        let front = format!("| {} | {leaves} |", file.name);
        assert!(page.lines().any(|line| line.starts_with(&front)), "{front}");
    }
    let rows = page.lines().filter(|line| line.contains(".nwk |")).count();
    assert_eq!(rows, newick_files::all().len());
}

#[test]
fn what_the_gate_runs_stands_beside_its_program() {
    let paths: Vec<String> = all().iter().map(|file| file.path.clone()).collect();
    for program in ["calls", "archive_cases", "text_cases", "listing"] {
        for file in ["stdin", "stdout"] {
            let path = format!("crates/{program}/{file}");
            assert!(paths.contains(&path), "{path}");
        }
    }
    assert!(paths.contains(&"crates/samples/stdout".to_string()));
    assert!(paths.contains(&"crates/every/stdout".to_string()));
}

#[test]
fn verify_finds_a_difference_and_a_missing_file() {
    let root = Path::new(env!("CARGO_TARGET_TMPDIR")).join("verify");
    let file = |path: &str| File { path: path.to_string(), contents: b"some bytes".to_vec() };
    let files = [file("one/a.in"), file("other/a.out")];
    write(&root, &files).unwrap();
    assert!(verify(&root, &files));
    fs::write(root.join("one/a.in"), b"some bytez").unwrap();
    assert!(!verify(&root, &files));
    write(&root, &files).unwrap();
    assert!(verify(&root, &files));
    fs::remove_file(root.join("other/a.out")).unwrap();
    assert!(!verify(&root, &files));
}

#[test]
fn only_the_names_have_inputs_and_outputs() {
    assert_eq!(input("samples"), Some(Vec::new()));
    assert_eq!(expected("listing-entry").unwrap().lines().count(), 4);
    assert!(!files::NAMES.contains(&files::CLADES), "its stream is not stored");
    assert_eq!(input("other"), None);
    assert_eq!(expected("other"), None);
}
