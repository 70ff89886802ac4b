//! A checkout of its own for the command `tools/list`, with stand-ins for rt, cargo and the proved program.

use std::fs;
use std::path::{Path, PathBuf};
use std::process::{Command, Output, Stdio};
use std::sync::atomic::{AtomicUsize, Ordering};

/// rt and cargo: each call is a line in the file `calls`. As the true ones, they build a program, and as the true rt
/// they fail if another one is at work. Where there is a file `hold`, they work until it is gone.
const BUILDER: &str = r#"#!/bin/sh
cd "$CHECKOUT" && echo "${0##*/} $1" >>calls
mkdir busy 2>/dev/null || { echo "rt: sizes NOT PROVED"; exit 1; }
while [ -e hold ]; do sleep 0.01; done
case $0 in
*/rt) mkdir -p crates/list/out crates/filbozseg/out && cp lister crates/list/out/list && cp lister crates/filbozseg/out/libfilbozseg.a && echo "logic=proved functions=1" ;;
*/cargo) mkdir -p cargo/target/debug/examples && cp "$BOOK" cargo/target/debug/book && cp writer cargo/target/debug/examples/words ;;
esac
status=$?
rmdir busy
exit $status
"#;

/// The proved program: it prints what it is given.
const LISTER: &str = r#"#!/bin/sh
shown() { od -An -v -tx1 | tr -d ' \n'; }
echo "book $(shown <book.bin)"
echo "plate $(shown)"
[ ! -e year.bin ] || echo "year $(shown <year.bin)"
"#;

/// The program of the option --words: it prints what it is given.
const WRITER: &str = r#"#!/bin/sh
shown() { od -An -v -tx1 | tr -d ' \n'; }
cat "$4"
echo "words of $(shown <"$1") $(shown <"$2") $3"
"#;

/// A fresh checkout, removed at the end.
pub struct Checkout(PathBuf);

impl Checkout {
    /// A checkout of these sources, in which nothing is built.
    pub fn new() -> Checkout {
        static NUMBER: AtomicUsize = AtomicUsize::new(0);
        let number = NUMBER.fetch_add(1, Ordering::Relaxed);
        // not below the repository, where `rt ci` stops at another crates.txt
        let path = std::env::temp_dir().join(format!("filbozseg-checkout-{}-{number}", std::process::id()));
        let checkout = Checkout(path);
        checkout
            .put("crates.txt", "sizes:\nother:\nlist: sizes io # a comment\nonly:\nfilbozseg staticlib: sizes only\n");
        for name in ["sizes", "other", "list", "only", "filbozseg"] {
            checkout.put(&format!("crates/{name}/src/lib.rt"), name);
        }
        for name in [".ci/toolchain", "book/src/lib.rs", "book/Cargo.toml", "cargo/Cargo.toml", "cargo/Cargo.lock"] {
            checkout.put(name, name);
        }
        for name in ["src/lib.rs", "build.rs", "Cargo.toml", "examples/words.rs"] {
            checkout.put(&format!("rust/{name}"), name);
        }
        for (name, held) in [("bin/rt", BUILDER), ("bin/cargo", BUILDER), ("lister", LISTER), ("writer", WRITER)] {
            checkout.script(name, held);
        }
        for name in ["tools/list", "tools/make", "tools/sources.sh"] {
            let file = Path::new(env!("CARGO_MANIFEST_DIR")).join("..").join(name);
            checkout.script(name, &fs::read_to_string(file).expect(name));
        }
        checkout
    }

    pub fn path(&self, name: &str) -> PathBuf {
        self.0.join(name)
    }

    /// Writes a file, and makes its folder.
    pub fn put(&self, name: &str, held: impl AsRef<[u8]>) {
        let path = self.path(name);
        fs::create_dir_all(path.parent().expect("a folder")).and_then(|()| fs::write(&path, held)).expect("a file");
    }

    /// Writes a file that can be run. A shell writes it, for a process that another test starts must not inherit it open for writing.
    pub fn script(&self, name: &str, held: &str) {
        self.put(&format!("{name}.text"), held);
        let path = self.path(name);
        let done = Command::new("sh")
            .args(["-c", r#"cp "$0.text" "$0" && chmod +x "$0" && rm "$0.text""#])
            .arg(&path)
            .status();
        assert!(done.expect("a shell").success());
    }

    /// A file's contents, or nothing if it is not there.
    pub fn held(&self, name: &str) -> String {
        fs::read_to_string(self.path(name)).unwrap_or_default()
    }

    /// The command in this checkout, run in it, or another one with the same environment.
    pub fn command(&self, name: &str) -> Command {
        let mut command = Command::new(self.path(name));
        let path = format!("{}:{}", self.path("bin").display(), std::env::var("PATH").expect("a path"));
        command
            .env("LC_ALL", "C")
            .env_remove("PROVED_SINCE")
            .env("PATH", path)
            .env("CHECKOUT", &self.0)
            .env("BOOK", env!("CARGO_BIN_EXE_book"));
        command.current_dir(&self.0).stdin(Stdio::null()).stdout(Stdio::piped()).stderr(Stdio::piped());
        command
    }

    /// Runs `tools/list` with these arguments.
    pub fn list(&self, arguments: &[&str]) -> Output {
        self.command("tools/list").args(arguments).output().expect("tools/list runs")
    }
}

impl Drop for Checkout {
    fn drop(&mut self) {
        let _ = fs::remove_dir_all(&self.0); // a folder left over is no fault of the command
    }
}
