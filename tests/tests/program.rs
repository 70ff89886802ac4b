//! Compares the built listing program with the lister's text, byte for byte, on random books, the plates from the
//! drawer and the named cases. It prints nothing on standard error, and exits with status 0.
#![cfg(feature = "library")]

#[allow(dead_code)] // not all of it is called from here
mod calls;
#[allow(dead_code)] // not all of it is called from here
mod process;

use calls::{book, deepest, deepest_row, of_length, SUMS, T};
use outside_tests::books::{self, boundary, full_book, Book, Draft, Sym};
use outside_tests::compare::Counts;
use outside_tests::lister::grammar::Grammar;
use outside_tests::lister::listing::TooLarge;
use outside_tests::lister::{has_tree, trees};
use outside_tests::text::{judged, line, text, MOST};
use process::{prints, Folder};
use std::time::Instant;

/// Books compared in a run.
const BOOKS: u64 = 1300;
/// Plates of each, beside the one of no marks and, for one book in eight, one of more than 64.
const PLATES: usize = 3;

/// How often each outcome must come up at least.
const DUE: &[(&str, u64)] = &[
    ("book", 1000),
    ("REFUSED 1", 15),
    ("REFUSED 2", 30),
    ("REFUSED 3", 20),
    ("REFUSED 4", 12),
    ("REFUSED 5", 10),
    ("REFUSED 6", 15),
    ("REFUSED 7", 14),
    ("REFUSED 9", 80),
    ("REFUSED 13", 30),
    ("REFUSED 16", 3),
    ("REFUSED 17", 20),
    ("REFUSED 21", 3),
    ("NO READING", 500),
    ("one reading", 500),
    ("two or more", 500),
    ("more than 4,096", 30),
    ("a negative length", 500),
    ("a file for the year", 3000),
    ("no file for the year", 300),
    ("no marks: NO READING", 400),
    ("no marks: REFUSED 13", 12),
    ("no marks: one reading", 120),
    ("no marks: two or more", 80),
];

/// Full books compared in a run.
const FULL_BOOKS: u64 = 6;

/// The rows of the printed lines, if there are this many lines and a last one.
fn rows(printed: &[u8]) -> Option<(Vec<Vec<u16>>, String)> {
    let text = std::str::from_utf8(printed).ok()?.strip_suffix('\n')?;
    let mut lines: Vec<&str> = text.split('\n').collect();
    let last = lines.pop()?.to_string();
    let number = |text: &str| text.parse::<u16>().ok();
    let row = |line: &str| {
        let parts = line.split_once(": ")?.1.split_once(" = ")?.0;
        let pairs: Option<Vec<[u16; 2]>> = parts
            .split(' ')
            .map(|part| part.split_once('.').and_then(|(cover, rule)| Some([number(cover)?, number(rule)?])))
            .collect();
        Some(pairs?.concat())
    };
    let rows: Option<Vec<Vec<u16>>> = lines.into_iter().map(row).collect();
    Some((rows?, last))
}

/// Where even the front of the list is too large: by the lister, what is printed must be readings, in rising order,
/// each on its line, and as many as the last line says.
fn judge(grammar: &Grammar, plate: &[u8], printed: &[u8]) -> Result<(), String> {
    if printed == b"REFUSED 13\n" && has_tree(grammar, plate) {
        return Ok(());
    }
    let (rows, last) = rows(printed).ok_or("these are no lines of readings")?;
    if let Some(row) = rows.iter().find(|row| !trees::is_derivation(grammar, plate, row)) {
        return Err(format!("{row:?} is no reading"));
    }
    if rows.is_empty() || !rows.windows(2).all(|two| two[0] < two[1]) {
        return Err("no readings, or not in rising order".to_string());
    }
    let lines: String = (1..).zip(&rows).map(|(place, row)| line(grammar, place, row)).collect();
    let due = match last.as_str() {
        "READINGS more" => MOST,
        _ => rows.len().min(MOST),
    };
    if rows.len() == due && (last == "READINGS more" || last == format!("READINGS {due}")) {
        let whole = format!("{lines}{last}\n");
        return if whole.as_bytes() == printed { Ok(()) } else { Err("the lines are not written so".to_string()) };
    }
    Err(format!("{} lines, then {last:?}", rows.len()))
}

/// The sort of a text, to be counted.
fn outcome(text: &[u8]) -> String {
    let text = String::from_utf8_lossy(text);
    match text.lines().last().unwrap_or_default() {
        "READINGS 1" => "one reading".to_string(),
        "READINGS more" => "more than 4,096".to_string(),
        last if last.starts_with("READINGS ") => "two or more".to_string(),
        last => last.to_string(),
    }
}

/// Three of the book's plates, the one of no marks and, for one book in eight, one of more than 64.
fn plates(book: &Book, seed: u64) -> Vec<Vec<u8>> {
    let marked: Vec<&Vec<u8>> = book.inputs.iter().filter(|plate| !plate.is_empty()).collect();
    let drawn = marked.iter().cycle().skip(seed as usize % marked.len());
    let mut plates: Vec<Vec<u8>> = drawn.take(marked.len().min(PLATES)).map(|plate| plate.to_vec()).collect();
    plates.push(Vec::new());
    if seed % 8 == 3 {
        plates.push(vec![b'A'; [65, 66, 1000][seed as usize / 8 % 3]]);
    }
    plates
}

/// Writes one of the book's years to its file; one year 0 in two is told by no file. Returns the year.
fn year(folder: &Folder, book: &Book, number: usize, counts: &mut Counts) -> u16 {
    let year = book.years[number % book.years.len()];
    let file = (year > 0 || number % 2 == 0).then_some(year.to_le_bytes());
    folder.put_year(file.as_ref().map(|bytes| &bytes[..]));
    counts.add(if file.is_some() { "a file for the year" } else { "no file for the year" });
    year
}

/// Compares the program with the lister on a book and its plates; a refused book gets one plate.
fn compare(folder: &Folder, book: &Book, seed: u64, counts: &mut Counts) -> Result<(), String> {
    folder.put(&book.bytes);
    counts.add("book");
    for (number, plate) in plates(book, seed).iter().enumerate() {
        let year = year(folder, book, seed as usize + number, counts);
        let said =
            |what: String| format!("({}), book {:02X?}, plate {plate:?}, year {year}: {what}", book.style, book.bytes);
        match text(&book.bytes, plate, year) {
            Ok(due) => {
                folder.prints(plate, &due).map_err(said)?;
                counts.add(&outcome(&due));
                if plate.is_empty() {
                    counts.add(&format!("no marks: {}", outcome(&due)));
                }
                if due.windows(3).any(|three| three == b"= -") {
                    counts.add("a negative length");
                }
            }
            Err(TooLarge) => {
                let grammar = judged(&book.bytes, plate, year).expect("it is not refused");
                let (printed, ..) = folder.ran(plate);
                judge(&grammar, plate, &printed).map_err(said)?;
                folder.prints(plate, &printed).map_err(said)?; // the same again, and no error
                counts.add("too large, judged");
            }
        }
        if judged(&book.bytes, b"A", year).is_err() {
            break;
        }
    }
    Ok(())
}

#[test]
fn random_books() {
    let began = Instant::now();
    let half = |parity: u64| {
        let (folder, mut counts) = (Folder::new(), Counts::default());
        for seed in (0..BOOKS).filter(|seed| seed % 2 == parity) {
            if let Err(difference) = compare(&folder, &books::book(seed), seed, &mut counts) {
                panic!("seed {seed} {difference}");
            }
        }
        counts
    };
    let mut counts = Counts::default();
    std::thread::scope(|scope| {
        let other = scope.spawn(|| half(1));
        counts.merge(&half(0));
        counts.merge(&other.join().expect("no difference in the other half"));
    });
    println!("{BOOKS} books in {:.1} s", began.elapsed().as_secs_f32());
    for (name, count) in &counts.0 {
        println!("{count:8}  {name}");
    }
    for (name, due) in DUE {
        assert!(counts.get(name) >= *due, "{name}: came up {} times, due {due}", counts.get(name));
    }
}

/// The program prints what the lister does: this many readings, and this last line.
fn prints_so_many(book: &[u8], plate: &[u8], readings: usize, last: &str) {
    let due = text(book, plate, 0).expect("small enough");
    let lines: Vec<&str> = std::str::from_utf8(&due).expect("ASCII").lines().collect();
    assert_eq!((lines.len() - 1, lines[readings]), (readings, last));
    Folder::with(book).prints(plate, &due).expect("no difference");
}

#[test]
fn plates_from_the_drawer() {
    prints(&T, b"A", "1: 1.0 0.1 1.2 = 462\n2: 1.0 1.2 0.1 = 462\nREADINGS 2\n");
    prints(&T, b"AA", "1: 2.0 1.2 1.2 = 465\nREADINGS 1\n");
    prints(&T, b"AAA", "NO READING\n");
    prints(&T, b"B", "NO READING\n");
    prints(&book(0, &["0: 0", "0: A"]), b"A", "1: 1.1 = 0\nREADINGS 1\n");
    prints(&book(0, &["0: 0 A", "0: A"]), b"AAA", "1: 3.0 2.0 1.1 = 0\nREADINGS 1\n");
    let pairs = book(0, &["0: 0 0", "0: A"]);
    prints(&pairs, b"AAA", "1: 3.0 1.1 2.0 1.1 1.1 = 0\n2: 3.0 2.0 1.1 1.1 1.1 = 0\nREADINGS 2\n");
    prints(&book(0, &["0: 0 0", "0: A", "0:"]), b"A", "1: 1.1 = 0\nREADINGS 1\n");
    prints(&book(1, &["1: 0 A", "0: 0", "0:"]), b"A", "1: 1.0 0.2 = 0\nREADINGS 1\n");
    prints(&[], b"A", "REFUSED 1\n");
    prints(&[0x10, 0x00, 0x50], b"A", "NO READING\n");
    for (sum, tenths) in SUMS {
        prints(&of_length(sum), b"A", &format!("1: 1.0 = {tenths}\nREADINGS 1\n"));
    }
}

#[test]
fn nine_marks_and_ten() {
    let pairs = book(0, &["0: 0 0", "0: A"]);
    prints_so_many(&pairs, &[b'A'; 9], 1430, "READINGS 1430");
    prints_so_many(&pairs, &[b'A'; 10], 4096, "READINGS more");
    prints_so_many(&pairs, &[b'A'; 64], 4096, "READINGS more");
}

#[test]
fn exactly_4096_and_one_more() {
    prints_so_many(&boundary(false).bytes, &[b'A'; 12], 4096, "READINGS 4096");
    prints_so_many(&boundary(true).bytes, &[b'A'; 12], 4096, "READINGS more");
    let first = "1: 12.0 6.1 1.2 1.2 1.2 1.2 1.2 1.2 6.1 1.2 1.2 1.2 1.2 1.2 1.2 = 0\n";
    assert!(text(&boundary(true).bytes, &[b'A'; 12], 0).expect("small enough").starts_with(first.as_bytes()));
}

/// Texts from less than a page (64 KiB, of which the last 8 KiB may stay free) to two pages: with t twin rules for
/// each of two marks there are t * t readings.
#[test]
fn texts_of_about_one_page() {
    let (mut shortest, mut longest) = (usize::MAX, 0);
    for twins in 45..=64 {
        let mut draft = Draft::new(0);
        draft.rule(0, &[Sym::N(1), Sym::N(1)]);
        for _ in 0..twins {
            draft.rule(1, &[Sym::T(b'A')]);
        }
        let size = text(&draft.bytes(), b"AA", 0).expect("small enough").len();
        (shortest, longest) = (shortest.min(size), longest.max(size));
        prints_so_many(&draft.bytes(), b"AA", twins * twins, &format!("READINGS {}", twins * twins));
    }
    assert!(shortest < 57_344 && 65_536 < longest, "from {shortest} to {longest} bytes");
}

/// 512 parts, also with the longest line; and 513 parts.
#[test]
fn the_limit_of_512() {
    for each in [0, i16::MIN, i16::MAX] {
        let mut draft = Draft::new(0);
        draft.rules.push((0, each, [&[Sym::T(b'A')][..], &[Sym::N(1); 7]].concat()));
        draft.rules.push((1, each, vec![Sym::N(2); 8]));
        draft.rules.push((2, each, vec![Sym::N(3); 8]));
        draft.rules.push((3, each, vec![]));
        let parts = ["1.0", &format!(" 0.1{}", format!(" 0.2{}", " 0.3".repeat(8)).repeat(8)).repeat(7)].concat();
        let tenths = [0, -1_677_722, 1_677_670][usize::from(each != 0) + usize::from(each > 0)];
        prints(&draft.bytes(), b"A", &format!("1: {parts} = {tenths}\nREADINGS 1\n"));
        (draft.start, draft.rules) = (4, [draft.rules, vec![(4, each, vec![Sym::N(0)])]].concat());
        prints(&draft.bytes(), b"A", "REFUSED 13\n");
    }
}

/// 512 parts nested 512 deep, with 16 marks and with 64: the most that the program's stack must hold.
#[test]
fn the_deepest_reading() {
    for turn in [1, 4] {
        let mut rules: Vec<String> = (0..31).map(|k| format!("{k}: {}", k + 1)).collect();
        let marks = " A".repeat(turn);
        rules.extend([format!("31:{marks} 0"), format!("31:{marks}")]);
        let rules: Vec<&str> = rules.iter().map(String::as_str).collect();
        let deep = book(0, &rules);
        assert!(turn > 1 || deep == deepest());
        let parts: Vec<String> =
            deepest_row(16).chunks(2).map(|part| format!("{}.{}", part[0] * turn as u16, part[1])).collect();
        prints(&deep, &vec![b'A'; 16 * turn], &format!("1: {} = 0\nREADINGS 1\n", parts.join(" ")));
    }
    prints(&deepest(), &[b'A'; 17], "REFUSED 13\n");
}

/// Each byte is a mark, including a newline, 0 and 255.
#[test]
fn every_byte_is_a_mark() {
    let folder = Folder::new();
    for byte in 0..=255 {
        let mut draft = Draft::new(31);
        draft.rule(31, &[Sym::T(byte)]);
        folder.put(&draft.bytes());
        folder.prints(&[byte], b"1: 1.0 = 0\nREADINGS 1\n").expect("no difference");
        if byte % 16 == 10 {
            folder.prints(&[byte, b'\n'], b"NO READING\n").expect("no difference");
            folder.prints(&[byte ^ 1], b"NO READING\n").expect("no difference");
        }
    }
}

/// 128 rules, most of them of 8 places, and 64 marks: the most work.
#[test]
fn full_books() {
    let mut counts = Counts::default();
    for seed in 0..FULL_BOOKS {
        compare(&Folder::new(), &full_book(seed), 0, &mut counts).expect("no difference");
    }
    println!("{:?}", counts.0);
    assert!(counts.get("more than 4,096") >= 4, "{:?}", counts.0);
}
