//! The built listing program at its edges: books that are missing, unreadable or too long, plates of every length and
//! kind of input, and output that cannot be written.
#![cfg(feature = "library")]

#[allow(dead_code)] // not all of it is called from here
mod calls;
#[allow(dead_code)] // not all of it is called from here
mod process;

use calls::{book, T};
use outside_tests::books::{Draft, Sym};
use outside_tests::text::text;
use process::{ended, given, prints, program, Folder};
use std::fs::{self, File};
use std::io::{Read, Write};
use std::os::unix::process::ExitStatusExt;
use std::path::Path;
use std::process::{Command, Stdio};
use std::time::Duration;

/// 100,000 bytes: more than the program reads of a book or a plate, and more than a pipe holds.
const MANY: usize = 100_000;
/// The signal that ends a program when it writes to a pipe that nobody reads. The listing program is not ended by it: it ends by itself, with
/// the status that a shell has for a program that the signal ends.
const SIGPIPE: i32 = 13;

fn pairs() -> Vec<u8> {
    book(0, &["0: 0 0", "0: A"])
}

#[test]
fn a_book_that_is_not_there_is_empty() {
    let (missing, empty, folder, dangling) = (Folder::new(), Folder::with(&[]), Folder::new(), Folder::new());
    fs::create_dir(folder.book()).expect("a folder instead of a book");
    std::os::unix::fs::symlink("nowhere", dangling.book()).expect("a link to nothing");
    for place in [missing, empty, folder, dangling] {
        for plate in [&b""[..], b"A", &[b'A'; 65]] {
            place.prints(plate, b"REFUSED 1\n").expect("no difference");
        }
    }
}

/// A book with as many bytes as the longest that loads, 4,099: 128 rules with their years, of 8 ranges.
fn longest() -> Vec<u8> {
    let mut draft = Draft::new(0);
    draft.rules.push((0, -15, vec![Sym::R(b'A', b'C'); 8]));
    (1..128).for_each(|rule| draft.rules.push((rule % 32, 7, vec![Sym::R(rule, rule); 8])));
    draft.years = (0..128).map(|rule| (rule, (0, 500 + rule as u16))).collect();
    draft.bytes()
}

#[test]
fn books_of_every_length() {
    let longest = longest();
    assert_eq!(longest.len(), 4099);
    prints(&longest, b"ABCABCAC", "1: 8.0 = -2\nREADINGS 1\n");
    prints(&longest, &[64; 8], "1: 8.64 = 1\nREADINGS 1\n");
    prints(&longest[..4098], b"A", "REFUSED 1\n");
    let with = |more: &[u8]| [&longest[..4098], more, &[0x50]].concat();
    prints(&with(&[0x20, 0, 0, 0]), b"A", "REFUSED 5\n");
    prints(&with(&[0x21, 0, 0, 0, 0, 0, 0, 0]), b"A", "REFUSED 5\n");
    prints(&with(&[0x21, 0, 0, 0, 1, 0, 0, 0]), b"A", "REFUSED 21\n");
    prints(&with(&[0x21, 32, 0, 0, 1, 0, 0, 0]), b"A", "REFUSED 4\n");
    prints(&with(&[0x40, 0]), b"A", "REFUSED 6\n");
    prints(&with(&[0x41, 0, 1]), b"A", "REFUSED 6\n");
    prints(&with(&[0x41, 1, 0]), b"A", "REFUSED 16\n");
    // Followed by junk: up to the sizes of buffers, one byte less and one more, and much longer.
    for length in [4100, 4351, 4352, 4353, 8191, 8192, 8193, 65_536, MANY] {
        for (junk, filler) in [(0x50, 0x30), (0x00, 0xFF), (0x20, 0x00)] {
            for book in [&pairs(), &longest] {
                let mut long = [&book[..], &[junk]].concat();
                long.resize(length, filler);
                prints(&long, b"A", "REFUSED 7\n");
            }
        }
    }
}

#[test]
fn books_of_100_000_bytes() {
    let long = |front: &[u8], rest: &[u8]| {
        let mut book = [front, &rest.repeat(MANY / rest.len())].concat();
        book.truncate(MANY);
        assert_eq!(book.len(), MANY);
        book
    };
    prints(&long(&[], &[0x30]), b"A", "REFUSED 3\n");
    prints(&long(&[], &[0x00]), b"A", "REFUSED 2\n");
    prints(&long(&[], &[0x10]), b"A", "REFUSED 3\n");
    prints(&long(&[0x10, 0x20], &[0x20]), b"A", "REFUSED 4\n");
    prints(&long(&[0x10, 0x00], &[0x20, 0x00, 0x00, 0x00]), b"A", "REFUSED 5\n");
    prints(&long(&[0x10, 0x00], &[0x20, 0x1F, 0x50, 0x50]), &[b'A'; 65], "REFUSED 5\n");
    prints(&long(&[0x10, 0x00, 0x20, 0x00, 0x00, 0x00], &[0x40, 0x41]), b"A", "REFUSED 6\n");
    prints(&long(&[0x10, 0x00, 0x20, 0x00, 0x00, 0x00], &[0x41]), b"A", "REFUSED 6\n");
    prints(&long(&[0x10, 0x00, 0x20, 0x00, 0x00, 0x00, 0x41, 0x01], &[0x00]), b"A", "REFUSED 16\n");
    prints(&long(&[0x10, 0x00], &[0x50]), b"", "REFUSED 7\n");
    prints(&long(&longest(), &[0x50]), &[b'A'; MANY], "REFUSED 7\n");
}

#[test]
fn plates_of_every_length() {
    for (last, least, end) in [("0: A", 1, " 1.1 = 0\nREADINGS 1\n"), ("0:", 0, " 0.1 = 0\nREADINGS 1\n")] {
        let line = book(0, &["0: A 0", last]);
        let folder = Folder::with(&line);
        for length in 0..=70 {
            let plate = vec![b'A'; length];
            let due = text(&line, &plate, 0).expect("small enough");
            assert_eq!(due == b"NO READING\n", length < least);
            assert_eq!(due.ends_with(end.as_bytes()), (least..=64).contains(&length));
            assert_eq!(due == b"REFUSED 9\n", length > 64);
            folder.prints(&plate, &due).expect("no difference");
        }
        for length in [4096, 8192, 65_536, MANY] {
            folder.prints(&vec![b'A'; length], b"REFUSED 9\n").expect("no difference");
        }
    }
}

/// A plate from a file, a plate in pieces through a pipe, and no plate.
#[test]
fn plates_from_everywhere() {
    let line = book(0, &["0: A 0", "0: A"]);
    let folder = Folder::with(&line);
    for length in [0, 1, 64, 65, MANY] {
        let (plate, path) = (vec![b'A'; length], folder.run().join("plate"));
        fs::write(&path, &plate).expect("a plate");
        let mut command = folder.command(&program());
        command.stdin(File::open(&path).expect("a plate"));
        assert_eq!(ended(&mut command.spawn().expect("the program starts")).code(), Some(0));
        assert_eq!(
            folder.written("stdout"),
            text(&line, &plate, 0).expect("small enough"),
            "{length} marks from a file"
        );
        assert_eq!(folder.written("stderr"), b"");
        fs::remove_file(&path).expect("a plate");
    }
    for pieces in [&[1, 1][..], &[63, 1], &[64, 1], &[1, 63, 1], &[20, 20, 24], &[65, 1]] {
        let mut child = folder.command(&program()).spawn().expect("the program starts");
        let mut pipe = child.stdin.take().expect("a pipe");
        for piece in pieces {
            let _ = pipe.write_all(&vec![b'A'; *piece]); // after 65 marks nobody needs to read on
            std::thread::sleep(Duration::from_millis(20));
        }
        drop(pipe);
        assert_eq!(ended(&mut child).code(), Some(0));
        let due = text(&line, &vec![b'A'; pieces.iter().sum()], 0).expect("small enough");
        assert_eq!(folder.written("stdout"), due, "marks in pieces of {pieces:?}");
    }
    for none in ["</dev/null", "<&-"] {
        assert_eq!(shell(&folder, none, b"").1, b"NO READING\n", "{none}");
        assert_eq!(shell(&Folder::with(&T), none, b"").1, b"1: 0.0 0.1 0.1 = 460\nREADINGS 1\n", "{none}");
    }
}

/// Runs the program in a shell that first redirects: returns how it ends, what it prints, and its errors.
fn shell(folder: &Folder, redirection: &str, plate: &[u8]) -> (Option<i32>, Vec<u8>, String) {
    let mut command = folder.command(Path::new("sh"));
    command.args(["-c", &format!("exec \"$0\" {redirection}")]).arg(program());
    let status = given(&mut command.spawn().expect("a shell"), plate);
    let said = String::from_utf8(folder.written("stderr")).expect("a text");
    (status.code(), folder.written("stdout"), said)
}

/// The program leaves its folder as found.
#[test]
fn nothing_but_the_output_is_written() {
    for (book, plate) in [(pairs(), 9), (pairs(), 0), (longest(), 8), (vec![0x50; MANY], 1)] {
        let folder = Folder::with(&book);
        folder.ran(&vec![b'A'; plate]);
        folder.ran(&vec![b'A'; plate]);
        let names: Vec<_> =
            fs::read_dir(folder.run()).expect("a folder").map(|entry| entry.unwrap().file_name()).collect();
        assert_eq!(names, ["book.bin"]);
        assert!(fs::read(folder.book()).expect("the book") == book);
    }
    let bare = Folder::new();
    bare.ran(b"A");
    assert_eq!(fs::read_dir(bare.run()).expect("a folder").count(), 0);
}

/// Short and long texts: a line that is written at the end, and many lines that are written in pieces.
const SHORT_AND_LONG: [usize; 3] = [1, 9, 10];

#[test]
fn a_full_device_is_named() {
    let folder = Folder::with(&pairs());
    for marks in SHORT_AND_LONG.into_iter().chain([0, 65]) {
        let full = File::options().write(true).open("/dev/full").expect("the full device");
        let mut command = folder.command(&program());
        let status = given(&mut command.stdout(full).spawn().expect("the program starts"), &vec![b'A'; marks]);
        let said = String::from_utf8(folder.written("stderr")).expect("a text");
        assert_eq!(status.code(), Some(0), "{marks} marks: {status}");
        assert!(said.contains("No space left on device"), "{marks} marks: {said:?}");
        assert!(said.ends_with('\n') && said.lines().count() == 1, "{marks} marks, said once: {said:?}");
    }
}

#[test]
fn a_closed_output_is_named() {
    let folder = Folder::with(&pairs());
    for marks in SHORT_AND_LONG.into_iter().chain([0, 65]) {
        let (code, stdout, said) = shell(&folder, ">&-", &vec![b'A'; marks]);
        assert_eq!((code, stdout), (Some(0), vec![]), "{marks} marks");
        assert!(said.contains("Bad file descriptor"), "{marks} marks: {said:?}");
        assert!(said.ends_with('\n') && said.lines().count() == 1, "{marks} marks, said once: {said:?}");
        assert!(fs::read(folder.book()).expect("the book") == pairs(), "the text went into the book");
    }
    let (code, stdout, _) = shell(&folder, ">&- 2>&-", b"A");
    assert_eq!((code, stdout), (Some(0), vec![]));
}

/// A text through a pipe that is read slowly: it is longer than a pipe holds.
#[test]
fn a_slow_reader_gets_all() {
    let due = text(&pairs(), &[b'A'; 10], 0).expect("small enough");
    assert!(due.len() > 3 * 65_536);
    let folder = Folder::with(&pairs());
    let mut child = folder.command(&program()).stdout(Stdio::piped()).spawn().expect("the program starts");
    let mut pipe = child.stdout.take().expect("a pipe");
    let reader = std::thread::spawn(move || {
        let (mut all, mut piece) = (Vec::new(), [0; 10_000]);
        loop {
            match pipe.read(&mut piece).expect("it is read") {
                0 => return all,
                n => all.extend_from_slice(&piece[..n]),
            }
            std::thread::sleep(Duration::from_millis(2));
        }
    });
    assert_eq!(given(&mut child, &[b'A'; 10]).code(), Some(0));
    assert!(reader.join().expect("it is read") == due);
    assert_eq!(folder.written("stderr"), b"");
}

/// Where nobody reads the pipe, from the start or after some bytes, the program ends without a message.
#[test]
fn a_closed_pipe_ends_the_program() {
    let folder = Folder::with(&pairs());
    for (marks, bytes) in [(1, 0), (9, 0), (10, 0), (10, 10), (10, 70_000)] {
        let mut child = folder.command(&program()).stdout(Stdio::piped()).spawn().expect("the program starts");
        let mut pipe = child.stdout.take().expect("a pipe");
        let reader = std::thread::spawn(move || pipe.read_exact(&mut vec![0; bytes]).expect("so many bytes"));
        if bytes == 0 {
            while !reader.is_finished() {
                std::thread::yield_now(); // the pipe is closed before the plate is there
            }
        }
        let status = given(&mut child, &vec![b'A'; marks]);
        reader.join().expect("it is read");
        assert_eq!(status.code(), Some(128 + SIGPIPE), "{marks} marks, {bytes} bytes read: {status}");
        assert_eq!(folder.written("stderr"), b"");
    }
    // The signal ends other programs here: the test does not pass on that it ignores the signal.
    let mut yes = Command::new("yes").stdout(Stdio::piped()).spawn().expect("yes");
    drop(yes.stdout.take());
    assert_eq!(ended(&mut yes).signal(), Some(SIGPIPE));
}
