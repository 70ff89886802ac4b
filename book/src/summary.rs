//! A listing in short: the lengths of its readings, with how many readings and builds each has, or a refusal's reason.

use crate::fault::meaning;
use std::collections::{BTreeMap, BTreeSet};

/// How many readings a listing has at most, as it is printed.
const MOST: &str = "4,096";

/// The rules of the parts that cover something, in preorder. Two readings are the same build if these agree.
type Build = Vec<u16>;

/// The readings of one length: how many there are, and their builds.
#[derive(Default)]
struct Readings {
    count: usize,
    builds: BTreeSet<Build>,
}

/// The summary of a listing, or the first line, from 1, that is none of a listing.
pub fn summary(listing: &str) -> Result<String, usize> {
    let lines: Vec<&str> = listing.lines().collect();
    let (last, lines) = lines.split_last().ok_or(1_usize)?;
    let (mut all, mut lengths) = (BTreeSet::new(), BTreeMap::<i32, Readings>::new());
    for (at, line) in lines.iter().enumerate() {
        let (build, tenths) = reading(line).ok_or(at + 1)?;
        let readings = lengths.entry(tenths).or_default();
        readings.count += 1;
        readings.builds.insert(build.clone());
        all.insert(build);
    }
    let first = verdict(last, lines.len(), all.len()).ok_or(lines.len() + 1)?;
    Ok([format!("summary: {first}\n"), table(&lengths)].concat())
}

/// The build and the length, in tenths, of a line like `1: 1.0 0.1 1.2 = 462`.
fn reading(line: &str) -> Option<(Build, i32)> {
    let (parts, tenths) = line.split_once(": ")?.1.split_once(" = ")?;
    let mut build = Build::new();
    for part in parts.split(' ') {
        let (cover, rule) = part.split_once('.')?;
        let (cover, rule): (u16, u16) = (cover.parse().ok()?, rule.parse().ok()?);
        if cover > 0 {
            build.push(rule);
        }
    }
    Some((build, tenths.parse().ok()?))
}

/// What the last line says, after this many readings of this many builds.
fn verdict(last: &str, readings: usize, builds: usize) -> Option<String> {
    let builds = counted(builds, "build");
    match last.split_once(' ')? {
        ("NO", "READING") if readings == 0 => Some("no reading: nothing in the book builds this plate".to_string()),
        ("REFUSED", number) if readings == 0 => {
            let number = number.parse().ok()?;
            let what = meaning(number).unwrap_or("docs/REFERENCE.md says what it means");
            Some(format!("refusal {number}: {what}"))
        }
        ("READINGS", "more") if readings > 0 => Some(format!(
            "more than {MOST} readings; the lengths beyond the {MOST}th are not known, up to there {builds}"
        )),
        ("READINGS", number) if readings > 0 && number.parse() == Ok(readings) => {
            Some(format!("{}, {builds}", counted(readings, "reading")))
        }
        _ => None,
    }
}

/// A line for each length in millimetres, in rising order.
fn table(lengths: &BTreeMap<i32, Readings>) -> String {
    let words: Vec<String> = lengths.keys().map(|tenths| millimetres(*tenths)).collect();
    let width = words.iter().map(String::len).max().unwrap_or(0);
    let line = |(word, readings): (&String, &Readings)| {
        let (count, builds) = (counted(readings.count, "reading"), counted(readings.builds.len(), "build"));
        format!("{word:>width$} mm: {count}, {builds}\n")
    };
    words.iter().zip(lengths.values()).map(line).collect()
}

/// A length in millimetres with one decimal.
fn millimetres(tenths: i32) -> String {
    let sign = if tenths < 0 { "-" } else { "" };
    format!("{sign}{}.{}", tenths.unsigned_abs() / 10, tenths.unsigned_abs() % 10)
}

/// So many of these, `1 build` or `2 builds`.
fn counted(count: usize, what: &str) -> String {
    format!("{count} {what}{}", if count == 1 { "" } else { "s" })
}
