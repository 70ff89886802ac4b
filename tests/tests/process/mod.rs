//! The built listing program, run as a process in a folder of its own.

use outside_tests::text::text;
use std::fs::{self, File};
use std::io::{self, Write};
use std::path::{Path, PathBuf};
use std::process::{Child, Command, ExitStatus, Stdio};
use std::sync::atomic::{AtomicUsize, Ordering};
use std::time::{Duration, Instant};

/// The longest time that a run may take: a program that hangs fails, and the test does not hang with it.
const CAP: Duration = Duration::from_secs(60);

/// The program that `tools/make program` proves, compiles and links.
pub fn program() -> PathBuf {
    let path = Path::new(env!("CARGO_MANIFEST_DIR")).join("../target/bin/list");
    assert!(path.is_file(), "{} is not there: build it with `tools/make program`", path.display());
    path
}

/// A fresh folder, removed at the end. The program runs in its subfolder `run`.
pub struct Folder(PathBuf);

impl Folder {
    /// A folder without a book.
    pub fn new() -> Folder {
        static NUMBER: AtomicUsize = AtomicUsize::new(0);
        loop {
            let number = NUMBER.fetch_add(1, Ordering::Relaxed);
            let path = std::env::temp_dir().join(format!("filbozseg-list-{}-{number}", std::process::id()));
            match fs::create_dir(&path) {
                Err(error) if error.kind() == io::ErrorKind::AlreadyExists => continue, // left over from an aborted run
                made => made.and_then(|()| fs::create_dir(path.join("run"))).expect("a fresh folder"),
            }
            return Folder(path);
        }
    }

    /// A folder with this book.
    pub fn with(book: &[u8]) -> Folder {
        let folder = Folder::new();
        folder.put(book);
        folder
    }

    pub fn put(&self, book: &[u8]) {
        fs::write(self.book(), book).expect("the book is written");
    }

    /// Writes the file for the year, or removes it.
    pub fn put_year(&self, file: Option<&[u8]>) {
        match (file, fs::remove_file(self.year())) {
            (Some(bytes), _) => fs::write(self.year(), bytes).expect("the year is written"),
            (None, Err(error)) if error.kind() != io::ErrorKind::NotFound => panic!("the year is not removed: {error}"),
            _ => (),
        }
    }

    /// Where the program runs and looks for its book.
    pub fn run(&self) -> PathBuf {
        self.0.join("run")
    }

    pub fn book(&self) -> PathBuf {
        self.run().join("book.bin")
    }

    pub fn year(&self) -> PathBuf {
        self.run().join("year.bin")
    }

    /// A file for the program to write to, outside the folder where it runs.
    fn file(&self, name: &str) -> File {
        File::create(self.0.join(name)).expect("a file")
    }

    /// What was written to that file.
    pub fn written(&self, name: &str) -> Vec<u8> {
        fs::read(self.0.join(name)).expect("a file")
    }

    /// The program, or a command that runs it, in this folder. The plate comes through a pipe, and all output goes to
    /// files.
    pub fn command(&self, program: &Path) -> Command {
        let mut command = Command::new(program);
        command.current_dir(self.run()).stdin(Stdio::piped());
        command.stdout(self.file("stdout")).stderr(self.file("stderr"));
        command
    }

    /// Runs the program on a plate: returns what it prints, its errors, and how it ends.
    pub fn ran(&self, plate: &[u8]) -> (Vec<u8>, Vec<u8>, ExitStatus) {
        let mut child = self.command(&program()).spawn().expect("the program starts");
        let status = given(&mut child, plate);
        (self.written("stdout"), self.written("stderr"), status)
    }

    /// The program prints exactly this for a plate, reports no error, and ends with status 0.
    pub fn prints(&self, plate: &[u8], due: &[u8]) -> Result<(), String> {
        let (stdout, stderr, status) = self.ran(plate);
        if stdout != due {
            let at = stdout.iter().zip(due).take_while(|(got, due)| got == due).count();
            let shown = |text: &[u8]| {
                let (from, to) = (at.saturating_sub(60), text.len().min(at + 60));
                String::from_utf8_lossy(&text[from.min(to)..to]).into_owned()
            };
            let lengths = (stdout.len(), due.len());
            return Err(format!(
                "byte {at}: got ..{:?}.., due ..{:?}.., lengths {lengths:?}",
                shown(&stdout),
                shown(due)
            ));
        }
        match (stderr.is_empty(), status.code()) {
            (true, Some(0)) => Ok(()),
            _ => Err(format!("stderr {:?}, {status}", String::from_utf8_lossy(&stderr))),
        }
    }
}

impl Drop for Folder {
    fn drop(&mut self) {
        let _ = fs::remove_dir_all(&self.0); // a folder left over is no fault of the program
    }
}

/// The program prints exactly this for a book and a plate without a file for the year, and so does the lister in year 0.
pub fn prints(book: &[u8], plate: &[u8], due: &str) {
    assert_eq!(String::from_utf8(text(book, plate, 0).expect("small enough")).expect("ASCII"), due);
    Folder::with(book).prints(plate, due.as_bytes()).expect("no difference");
}

/// Gives a child its plate, closes the pipe and waits for its end. The child need not read all of the plate.
pub fn given(child: &mut Child, plate: &[u8]) -> ExitStatus {
    let mut pipe = child.stdin.take().expect("a pipe");
    std::thread::scope(|scope| {
        let writing = move || match pipe.write_all(plate) {
            Err(error) if error.kind() != io::ErrorKind::BrokenPipe => panic!("the plate is not written: {error}"),
            _ => drop(pipe),
        };
        match plate.len() {
            0..=4096 => writing(), // the pipe has room for it
            _ => drop(scope.spawn(writing)),
        }
        ended(child)
    })
}

/// Waits for a child's end.
pub fn ended(child: &mut Child) -> ExitStatus {
    let (began, mut pause) = (Instant::now(), Duration::from_micros(100));
    loop {
        if let Some(status) = child.try_wait().expect("a child") {
            return status;
        }
        if began.elapsed() > CAP {
            child.kill().and_then(|()| child.wait()).expect("it is ended");
            panic!("the program has not ended after {CAP:?}");
        }
        std::thread::sleep(pause);
        pause = (pause * 2).min(Duration::from_millis(2));
    }
}
