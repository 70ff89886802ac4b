//! The summary of a listing: lengths with their readings and builds, and the reason of a refusal.

use book::summary;

/// The summary of these lines.
fn of(lines: &[&str]) -> Result<String, usize> {
    summary(&lines.iter().map(|line| format!("{line}\n")).collect::<String>())
}

#[track_caller]
fn gives(lines: &[&str], due: &[&str]) {
    let due: String = due.iter().map(|line| format!("{line}\n")).collect();
    assert_eq!(of(lines), Ok(due));
}

/// Parts that cover nothing make no other build, and their order does not matter.
#[test]
fn the_readings_of_t() {
    let lines = ["1: 1.0 0.1 1.2 = 462", "2: 1.0 1.2 0.1 = 462", "READINGS 2"];
    gives(&lines, &["summary: 2 readings, 1 build", "46.2 mm: 2 readings, 1 build"]);
    let lines = ["1: 0.0 0.1 0.1 = 460", "READINGS 1"];
    gives(&lines, &["summary: 1 reading, 1 build", "46.0 mm: 1 reading, 1 build"]);
}

/// The order of parts that cover something makes another build: 0 -> 1 1, 1 -> A, 1 -> 2, 2 -> A with the plate AA.
#[test]
fn another_order_is_another_build() {
    let lines =
        ["1: 2.0 1.1 1.1 = 9", "2: 2.0 1.1 1.2 1.3 = 9", "3: 2.0 1.2 1.3 1.1 = 9", "4: 2.0 1.2 1.3 1.2 1.3 = 9"];
    gives(&[&lines[..], &["READINGS 4"]].concat(), &["summary: 4 readings, 4 builds", "0.9 mm: 4 readings, 4 builds"]);
}

/// Lengths rise, as numbers. A build with two lengths, by parts that cover nothing, counts for each of them.
#[test]
fn lengths_rise() {
    gives(
        &[
            "1: 1.0 = 1000",
            "2: 1.1 = -2",
            "3: 1.1 0.2 = 462",
            "4: 1.1 0.3 = 0",
            "5: 1.4 = -260",
            "6: 1.5 = 462",
            "READINGS 6",
        ],
        &[
            "summary: 6 readings, 4 builds",
            "-26.0 mm: 1 reading, 1 build",
            " -0.2 mm: 1 reading, 1 build",
            "  0.0 mm: 1 reading, 1 build",
            " 46.2 mm: 2 readings, 2 builds",
            "100.0 mm: 1 reading, 1 build",
        ],
    );
}

#[test]
fn more_than_4096() {
    let lines: Vec<String> = (0..4096).map(|at| format!("{}: 1.{} = {}", at + 1, at % 128, at / 2048)).collect();
    let mut lines: Vec<&str> = lines.iter().map(String::as_str).collect();
    lines.push("READINGS more");
    let first =
        "summary: more than 4,096 readings; the lengths beyond the 4,096th are not known, up to there 128 builds";
    gives(&lines, &[first, "0.0 mm: 2048 readings, 128 builds", "0.1 mm: 2048 readings, 128 builds"]);
}

#[test]
fn refusals_in_words() {
    gives(&["NO READING"], &["summary: no reading: nothing in the book builds this plate"]);
    for (number, due) in [
        (1, "the book ends inside a command, or where one is due"),
        (2, "an unknown command"),
        (3, "a command out of turn, or a second name of a rule"),
        (4, "a kind over 31"),
        (5, "the 129th rule"),
        (6, "a ninth place"),
        (7, "a byte after the end of the book"),
        (9, "the plate has more than 64 marks"),
        (13, "the plate can be built, but only with more than 512 parts"),
        (16, "a reversed range"),
        (21, "reversed years"),
        (255, "docs/REFERENCE.md says what it means"),
    ] {
        gives(&[&format!("REFUSED {number}")], &[&format!("summary: refusal {number}: {due}")]);
    }
}

/// What is no listing has no summary: the first line that is none is named.
#[test]
fn other_lines_are_named() {
    let line = "1: 1.0 = 0";
    for (lines, due) in [
        (&[][..], 1),
        (&[""], 1),
        (&["READINGS 0"], 1),
        (&["READINGS more"], 1),
        (&["REFUSED x"], 1),
        (&[line], 2 - 1),
        (&[line, "READINGS 2"], 2),
        (&[line, "NO READING"], 2),
        (&[line, "REFUSED 9"], 2),
        (&[line, "2: 1.0 0 = 0", "READINGS 2"], 2),
        (&[line, "2: 1.0 = 0.5", "READINGS 2"], 2),
        (&["1 1.0 = 0", "READINGS 1"], 1),
    ] {
        assert_eq!(of(lines), Err(due), "{lines:?}");
    }
}

/// Of each sample all readings are counted.
#[test]
fn the_samples_add_up() {
    let folder = concat!(env!("CARGO_MANIFEST_DIR"), "/../samples");
    let mut samples = 0;
    for entry in std::fs::read_dir(folder).expect("samples") {
        let path = entry.expect("an entry").path();
        if path.extension().is_some_and(|kind| kind == "listing") {
            let listing = std::fs::read_to_string(&path).expect("ASCII");
            let summary = summary(&listing).expect("a listing");
            let counts = |line: &str| line.split(": ").nth(1)?.split(' ').next()?.parse::<usize>().ok();
            let counts: Option<Vec<usize>> = summary.lines().map(counts).collect();
            let counts = counts.expect("a number in each line");
            assert_eq!(counts[0], counts[1..].iter().sum::<usize>(), "{}", path.display());
            assert_eq!(counts[0], listing.lines().count() - 1, "{}", path.display());
            samples += 1;
        }
    }
    assert!(samples >= 7);
}
