//! `book write FILE` prints the bytes of the book whose text is in the file; a file of bytes it prints as it is. `book
//! read FILE` prints the text of the book in the file. `book summary FILE` prints in short what the file, a listing of
//! the program `list`, says. In case of an error it prints only a message on standard error, and exits with status 1 for
//! a bad file, 2 for a wrong command line.

use std::ffi::OsString;
use std::io::Write;
use std::path::Path;
use std::process::ExitCode;

const USAGE: &str = "usage: book write FILE.txt > book.bin
       book read book.bin > FILE.txt
       book summary LISTING";

fn main() -> ExitCode {
    let arguments: Vec<OsString> = std::env::args_os().skip(1).collect();
    let turn = match &arguments[..] {
        [verb, _] if verb == "write" => write,
        [verb, _] if verb == "read" => read,
        [verb, _] if verb == "summary" => summary,
        _ => {
            eprintln!("{USAGE}");
            return ExitCode::from(2);
        }
    };
    match turned(Path::new(&arguments[1]), turn) {
        Ok(()) => ExitCode::SUCCESS,
        Err(what) => {
            eprintln!("book: {what}");
            ExitCode::FAILURE
        }
    }
}

/// Converts the contents of the file and prints the result, or returns what is wrong.
fn turned(file: &Path, turn: fn(Vec<u8>) -> Result<Vec<u8>, String>) -> Result<(), String> {
    let name = file.display();
    let held = std::fs::read(file).map_err(|error| format!("{name}: {error}"))?;
    let printed = turn(held).map_err(|what| format!("{name}: {what}"))?;
    let mut out = std::io::stdout().lock();
    out.write_all(&printed).and_then(|()| out.flush()).map_err(|error| format!("standard output: {error}"))
}

/// From a text to the bytes of a book. Bytes stay as they are, even if they do not load.
fn write(held: Vec<u8>) -> Result<Vec<u8>, String> {
    if book::is_bytes(&held) {
        return Ok(held);
    }
    let text = String::from_utf8(held).map_err(|error| not_utf8(error.as_bytes(), error.utf8_error().valid_up_to()))?;
    book::to_bytes(&text).map_err(|fault| fault.to_string())
}

/// What is wrong with bytes that are no UTF-8 from this one on: the line, and the word with that byte.
fn not_utf8(held: &[u8], at: usize) -> String {
    let ends = |byte: &u8| byte.is_ascii_whitespace();
    let line = 1 + held[..at].iter().filter(|byte| **byte == b'\n').count();
    let from = held[..at].iter().rposition(ends).map_or(0, |before| before + 1);
    let to = held[at..].iter().position(ends).map_or(held.len(), |after| at + after);
    format!("line {line}: `{}`: not UTF-8", held[from..to].escape_ascii())
}

/// From the bytes of a book to a text.
fn read(held: Vec<u8>) -> Result<Vec<u8>, String> {
    book::to_text(&held).map(String::into_bytes).map_err(|refusal| refusal.to_string())
}

/// From a listing to its summary.
fn summary(held: Vec<u8>) -> Result<Vec<u8>, String> {
    let said = |line: usize| format!("line {line}: not a line of a listing");
    book::summary(&String::from_utf8_lossy(&held)).map(String::into_bytes).map_err(said)
}
