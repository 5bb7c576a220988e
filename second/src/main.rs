//! The commands of the second program. README.md tells them.

use second::{files, listing};
use std::io::{self, Write};
use std::path::Path;
use std::process::ExitCode;

const USAGE: &str = "second list | names | input NAME | expected NAME | write ROOT | verify ROOT";

fn main() -> ExitCode {
    let words: Vec<String> = std::env::args().skip(1).collect();
    let words: Vec<&str> = words.iter().map(String::as_str).collect();
    let result = match words[..] {
        ["list"] => list(),
        ["names"] => put(format!("{}\n{}\n", files::NAMES.join("\n"), files::CLADES).as_bytes()),
        ["input", name] => put_named(files::input(name), name),
        ["expected", name] => put_named(files::expected(name), name),
        ["write", root] => files::write(Path::new(root), &files::all()),
        ["verify", root] if files::verify(Path::new(root), &files::all()) => Ok(()),
        ["verify", _] => return ExitCode::from(1),
        _ => Err(io::Error::new(io::ErrorKind::InvalidInput, USAGE)),
    };
    match result {
        Ok(()) => ExitCode::SUCCESS,
        Err(error) => {
            eprintln!("{error}");
            ExitCode::from(2)
        }
    }
}

/// Output is gathered in larger pieces; input is locked and read as it comes.
fn list() -> io::Result<()> {
    let mut output = io::BufWriter::new(io::stdout().lock());
    listing::list(&mut io::stdin().lock(), &mut output)?;
    output.flush()
}

fn put(bytes: &[u8]) -> io::Result<()> {
    io::stdout().lock().write_all(bytes)
}

fn put_named(bytes: Option<Vec<u8>>, name: &str) -> io::Result<()> {
    match bytes {
        Some(bytes) => put(&bytes),
        None => {
            let message = format!("there is no {name}; second names lists what there is");
            Err(io::Error::new(io::ErrorKind::InvalidInput, message))
        }
    }
}
