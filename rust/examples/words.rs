//! Prints a listing with the text of each reading below its line: `words BOOK PLATE YEAR LISTING`, where the first two are files of bytes,
//! and the last one has what the listing program printed for them. Other lines of the listing stay as they are. `tools/list --words` runs
//! it. In case of an error it prints a message on standard error, and exits with status 1.
use filbozseg::{load, words, Grammar, CELLS, TEXT};
use std::io::Write;
use std::path::Path;
use std::process::ExitCode;

/// The numbers of the reading in a line like `1: 1.0 0.1 1.2 = 462`; none if it is another line.
fn numbers(line: &str) -> Option<Vec<u16>> {
    let (parts, _) = line.split_once(": ")?.1.split_once(" = ")?;
    let part =
        |part: &str| part.split_once('.').and_then(|(cover, rule)| Some([cover.parse().ok()?, rule.parse().ok()?]));
    parts.split(' ').map(part).collect::<Option<Vec<[u16; 2]>>>().map(|parts| parts.concat())
}

/// The listing with its texts, or what is wrong.
pub fn with_texts(book: &[u8], plate: &[u8], year: u16, listing: &str) -> Result<String, String> {
    let (mut chart, mut buffer, mut printed) = (vec![0; CELLS], vec![0; TEXT], String::new());
    let grammar: Result<Grammar, _> = load(book);
    for line in listing.lines() {
        printed += &format!("{line}\n");
        let Some(numbers) = numbers(line) else {
            continue;
        };
        let grammar = grammar.as_ref().map_err(|fault| fault.to_string())?;
        let text = words(grammar, plate, year, &numbers, &mut chart, &mut buffer);
        let text = text.map_err(|refusal| format!("{line}: {refusal}"))?;
        printed += &format!("   {}\n", text.escape_ascii());
    }
    Ok(printed)
}

/// Reads the files and prints the result.
fn print(book: &Path, plate: &Path, year: &str, listing: &Path) -> Result<(), String> {
    let held = |file: &Path| std::fs::read(file).map_err(|error| format!("{}: {error}", file.display()));
    let year = year.parse().map_err(|_| format!("{year}: not a year, which is a number from 0 to 65535"))?;
    let listing = String::from_utf8_lossy(&held(listing)?).into_owned();
    let printed = with_texts(&held(book)?, &held(plate)?, year, &listing)?;
    let mut out = std::io::stdout().lock();
    out.write_all(printed.as_bytes()).and_then(|()| out.flush()).map_err(|error| format!("standard output: {error}"))
}

#[allow(dead_code)] // a test includes this file and does not call `main`
fn main() -> ExitCode {
    let arguments: Vec<String> = std::env::args().skip(1).collect();
    let [book, plate, year, listing] = &arguments[..] else {
        eprintln!("usage: words BOOK PLATE YEAR LISTING");
        return ExitCode::from(2);
    };
    match print(Path::new(book), Path::new(plate), year, Path::new(listing)) {
        Ok(()) => ExitCode::SUCCESS,
        Err(what) => {
            eprintln!("words: {what}");
            ExitCode::FAILURE
        }
    }
}
