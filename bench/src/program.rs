//! The listing programs as processes: the proved one and the one in plain Rust, in the same folder.

use crate::timing::{of_children, shown, time_of, Time};
use crate::{books, heading, line};
use std::fs::{self, File};
use std::io::Read;
use std::path::{Path, PathBuf};
use std::process::{Command, Stdio};
use std::time::Instant;

/// Where the toolchain puts the proved program, and cargo the plain one.
fn programs() -> [PathBuf; 2] {
    let here = Path::new(env!("CARGO_MANIFEST_DIR"));
    let plain = std::env::current_exe().expect("this program's own path").with_file_name("list");
    [here.join("../target/bin/list"), plain]
}

/// A folder with a book and a plate, removed at the end.
struct Folder(PathBuf);

impl Folder {
    fn with(book: Option<&[u8]>, plate: &[u8]) -> Folder {
        let path = std::env::temp_dir().join(format!("filbozseg-bench-{}", std::process::id()));
        fs::create_dir(&path).expect("a fresh folder");
        if let Some(book) = book {
            fs::write(path.join("book.bin"), book).expect("a book");
        }
        fs::write(path.join("plate"), plate).expect("a plate");
        Folder(path)
    }

    /// Runs a program on the plate, reads all that it prints, and waits for it. Returns the wall-clock time and the
    /// processor time, in the program and in starting it.
    fn run(&self, program: &Path, text: &mut Vec<u8>) -> [f64; 2] {
        text.clear();
        let plate = File::open(self.0.join("plate")).expect("a plate");
        let (began, used) = (Instant::now(), of_children());
        let mut command = Command::new(program);
        let mut child = command.current_dir(&self.0).stdin(plate).stdout(Stdio::piped()).spawn().expect("it starts");
        child.stdout.take().expect("a pipe").read_to_end(text).expect("it is read");
        let status = child.wait().expect("it ends");
        assert_eq!(status.code(), Some(0), "{}", program.display());
        [began.elapsed().as_secs_f64(), of_children() - used]
    }
}

impl Drop for Folder {
    fn drop(&mut self) {
        let _ = fs::remove_dir_all(&self.0); // a folder left over spoils no measurement
    }
}

/// Runs both programs in turn, this many times each. Returns the wall-clock times and the processor times.
fn times(folder: &Folder, both: &[PathBuf; 2], rounds: usize) -> [(Time, Time); 2] {
    let (mut found, mut text): ([[Vec<f64>; 2]; 2], _) = Default::default();
    for round in 0..2 * rounds {
        let side = (round + round / 2) % 2; // one, other, other, one, ..
        let taken = folder.run(&both[side], &mut text);
        (0..2).for_each(|clock| found[clock][side].push(taken[clock]));
    }
    found.map(|[proved, plain]| (time_of(proved), time_of(plain)))
}

/// Checks that both print the same, then times them.
fn time_program(name: &str, book: Option<&[u8]>, marks: usize, rounds: usize, both: &[PathBuf; 2]) {
    let folder = Folder::with(book, &vec![b'A'; marks]);
    let (mut proved, mut plain) = (Vec::new(), Vec::new());
    folder.run(&both[0], &mut proved);
    folder.run(&both[1], &mut plain);
    assert!(proved == plain, "the programs print different texts");
    let last = String::from_utf8(proved).expect("ASCII").lines().last().expect("a line").to_string();
    let [wall, processor] = times(&folder, both, rounds);
    line(&format!("{name}: {last}"), wall);
    line("  processor time", processor);
}

pub fn program() {
    let both = programs();
    if let Some(missing) = both.iter().find(|path| !path.is_file()) {
        println!(
            "\nPROGRAM: {} is not there: `tools/make program`, and `cargo build --release --offline` here",
            missing.display()
        );
        return;
    }
    heading(
        "PROGRAM: the listing programs as processes",
        &[
            "Wall clock from starting the process to its end, the output read to the end through a pipe, the plate from a",
            "file; then the processor's time of the process. Both in turn. The first lines are what starting one costs.",
        ],
    );
    time_empty(401);
    time_program("no book", None, 1, 401, &both);
    let pairs = books::pairs();
    time_program("0 -> 0 0 | A, 9 marks", Some(&pairs), 9, 401, &both);
    time_program("0 -> 0 0 | A, 10 marks", Some(&pairs), 10, 201, &both);
    time_program("0 -> 0 0 | A, 64 marks", Some(&pairs), 64, 101, &both);
}

/// A process that does nothing.
fn time_empty(rounds: usize) {
    let (folder, mut text) = (Folder::with(None, &[]), Vec::new());
    let wall = time_of((0..rounds).map(|_| folder.run(Path::new("true"), &mut text)[0]).collect());
    println!("  an empty process (true): {}, the least {}", shown(wall.median), shown(wall.least));
}
