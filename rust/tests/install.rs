//! `tools/install` into a temporary folder, with the proved archive and a stand-in for tools/make: what is installed, and the examples over
//! it.
use filbozseg::{CELLS, OUTPUT, ROW};
use std::fs;
use std::io::ErrorKind;
use std::path::{Path, PathBuf};
use std::process::{Command, Output};

/// tools/make: each call is a line in the file `calls`. It hands out the archive and a program, or proves nothing if there is a file
/// `unproved`.
const MAKE: &str = r#"#!/bin/sh
cd "$CHECKOUT" && echo "make $*" >>calls
[ ! -e unproved ] || { echo "rt: sizes NOT PROVED"; exit 1; }
case $1 in
library) mkdir -p target/staticlib && cp "$ARCHIVE" target/staticlib ;;
program) mkdir -p target/bin && printf '#!/bin/sh\necho listed\n' >target/bin/list ;;
esac
"#;

/// The top of the repository.
fn top() -> PathBuf {
    Path::new(env!("CARGO_MANIFEST_DIR")).join("..")
}

/// The standard output of a program that has to succeed.
#[track_caller]
fn said(command: &mut Command) -> String {
    let output = command.output().expect("it runs");
    assert!(output.status.success(), "{command:?}: {}", String::from_utf8_lossy(&output.stderr));
    String::from_utf8(output.stdout).expect("UTF-8")
}

/// A fresh checkout with the command, removed at the end.
struct Checkout(PathBuf);

impl Checkout {
    fn new(name: &str) -> Checkout {
        let folder = PathBuf::from(env!("CARGO_TARGET_TMPDIR")).join(format!("install-{}-{name}", std::process::id()));
        fs::create_dir_all(&folder).expect("a folder");
        let make = folder.join("make.text");
        fs::write(&make, MAKE).expect("a file");
        // another program writes what is run, for a process that another test starts must not inherit it open for writing
        for (from, to) in [
            (make, "tools/make"),
            (top().join("tools/install"), "tools/install"),
            (top().join("include/filbozseg.h"), "include/filbozseg.h"),
        ] {
            said(Command::new("install").arg("-D").arg(from).arg(folder.join(to)));
        }
        Checkout(folder)
    }

    fn path(&self, name: &str) -> PathBuf {
        self.0.join(name)
    }

    /// Runs the command with these words in the checkout.
    fn install(&self, words: &[&str]) -> Output {
        let archives = std::env::var_os("FILBOZSEG_LIB_DIR").map_or(top().join("target/staticlib"), PathBuf::from);
        let mut command = Command::new(self.path("tools/install"));
        command.env("CHECKOUT", &self.0).env("ARCHIVE", archives.join("libfilbozseg.a"));
        command.args(words).current_dir(&self.0).output().expect("tools/install runs")
    }

    /// What pkg-config says of the library that is installed in `here`; where it is not there, what its file has in this field.
    fn pkg_config(&self, option: &str, field: &str) -> Vec<String> {
        let folder = self.path("here/lib/pkgconfig");
        let mut command = Command::new("pkg-config");
        command.env("PKG_CONFIG_PATH", &folder).args([option, "filbozseg"]);
        let said = match command.output() {
            Err(error) if error.kind() == ErrorKind::NotFound => field_of(&folder.join("filbozseg.pc"), field),
            _ => said(&mut command),
        };
        said.split_whitespace().map(String::from).collect()
    }

    /// Builds `examples/hello.c` with these flags after the source.
    fn hello(&self, name: &str, flags: &[&Vec<String>]) -> PathBuf {
        let program = self.path(name);
        let mut command = Command::new("gcc");
        command.args(["-std=c11", "-Wall", "-Wextra", "-Werror", "-O2"]).arg(top().join("examples/hello.c"));
        said(command.args(flags.iter().copied().flatten()).arg("-o").arg(&program));
        program
    }
}

impl Drop for Checkout {
    fn drop(&mut self) {
        let _ = fs::remove_dir_all(&self.0); // a folder left over is no fault of the command
    }
}

/// A field (`Cflags: ..`) or a variable (`archive=..`) of a file for pkg-config. Each variable is defined before it is used.
fn field_of(file: &Path, field: &str) -> String {
    let mut variables = Vec::new();
    for line in fs::read_to_string(file).expect("a file").lines() {
        let put = |text: String, (name, value): &(String, String)| text.replace(&format!("${{{name}}}"), value);
        let line = variables.iter().fold(line.to_string(), put);
        match line.split_once(['=', ':']) {
            Some((name, value)) if name == field => return value.to_string(),
            Some((name, value)) => variables.push((name.to_string(), value.to_string())),
            None => (),
        }
    }
    panic!("there is no {field}")
}

/// The files and links below a folder, sorted.
fn files(folder: &Path) -> Vec<String> {
    let found = said(Command::new("find").arg(folder).args(["!", "-type", "d", "-printf", "%P %m %l\n"]));
    let mut found: Vec<_> = found.lines().map(|line| line.trim_end().to_string()).collect();
    found.sort();
    found
}

/// A checkout whose library is installed in its folder `here`.
fn installed(name: &str) -> Checkout {
    let checkout = Checkout::new(name);
    let output = checkout.install(&["here"]);
    assert!(output.status.success(), "{}", String::from_utf8_lossy(&output.stderr));
    checkout
}

#[test]
fn it_is_proved_first_and_then_all_is_there() {
    let checkout = installed("all");
    assert_eq!(fs::read_to_string(checkout.path("calls")).unwrap(), "make library\nmake program\n");
    let version = env!("CARGO_PKG_VERSION");
    let compatible = version.rsplit_once('.').unwrap().0;
    let due = [
        "bin/filbozseg-list 755".to_string(),
        "include/filbozseg.h 644".to_string(),
        "lib/libfilbozseg.a 644".to_string(),
        format!("lib/libfilbozseg.so 777 libfilbozseg.so.{compatible}"),
        format!("lib/libfilbozseg.so.{compatible} 777 libfilbozseg.so.{version}"),
        format!("lib/libfilbozseg.so.{version} 755"),
        "lib/pkgconfig/filbozseg.pc 644".to_string(),
    ];
    assert_eq!(files(&checkout.path("here")), due);
    assert_eq!(said(&mut Command::new(checkout.path("here/bin/filbozseg-list"))), "listed\n");
    assert_eq!(checkout.pkg_config("--modversion", "Version"), [version]);
    for (option, field) in [("--cflags", "Cflags"), ("--libs", "Libs"), ("--variable=archive", "archive")] {
        let file = field_of(&checkout.path("here/lib/pkgconfig/filbozseg.pc"), field);
        assert_eq!(checkout.pkg_config(option, field), file.split_whitespace().collect::<Vec<_>>());
    }
    let shown =
        said(Command::new("nm").args(["-D", "--defined-only", "-j"]).arg(checkout.path("here/lib/libfilbozseg.so")));
    let mut shown: Vec<_> = shown.lines().collect();
    shown.sort();
    let calls = "check count first learn length load name next open return_to same_build set_point take words";
    assert_eq!(shown, calls.split(' ').map(|call| format!("filbozseg_{call}")).collect::<Vec<_>>());
}

/// The program over the shared library needs it where it runs, the one over the archive does not.
#[test]
fn hello_in_c_is_built_by_pkg_config() {
    let checkout = installed("c");
    let due = fs::read_to_string(top().join("examples/hello-c.stdout")).expect("a file");
    let header = checkout.pkg_config("--cflags", "Cflags");
    let archive = checkout.pkg_config("--variable=archive", "archive");
    let alone = checkout.hello("static", &[&header, &archive]);
    assert_eq!(said(Command::new(alone).env_remove("LD_LIBRARY_PATH")), due);
    let shared = checkout.hello("shared", &[&header, &checkout.pkg_config("--libs", "Libs")]);
    assert_eq!(said(Command::new(&shared).env("LD_LIBRARY_PATH", checkout.path("here/lib"))), due);
    let without = Command::new(&shared).env_remove("LD_LIBRARY_PATH").output().expect("it starts");
    let compatible = env!("CARGO_PKG_VERSION").rsplit_once('.').unwrap().0;
    let missing = format!(" libfilbozseg.so.{compatible}: ");
    assert!(!without.status.success() && String::from_utf8_lossy(&without.stderr).contains(&missing), "{without:?}");
}

#[test]
fn hello_in_python_runs_over_the_shared_library() {
    let checkout = installed("python");
    let example = top().join("examples/hello.py");
    let sizes = format!("ROW, CELLS, OUTPUT = {ROW}, {CELLS}, {OUTPUT}\n");
    assert!(fs::read_to_string(&example).expect("a file").contains(&sizes));
    let printed = said(Command::new("python3").arg(example).arg(checkout.path("here/lib/libfilbozseg.so")));
    assert_eq!(printed, fs::read_to_string(top().join("examples/hello-python.stdout")).expect("a file"));
}

#[test]
fn what_is_not_proved_is_not_installed() {
    let checkout = Checkout::new("unproved");
    fs::write(checkout.path("unproved"), "").expect("a file");
    let output = checkout.install(&["here"]);
    assert_eq!(String::from_utf8_lossy(&output.stderr), "rt: sizes NOT PROVED\n");
    assert_eq!((output.status.code(), output.stdout.len(), checkout.path("here").exists()), (Some(1), 0, false));
}

#[test]
fn a_wrong_call_is_named() {
    let checkout = Checkout::new("words");
    let one = "PREFIX, the folder to install into, is due, and no other word";
    for (words, due) in [
        (&[][..], one.to_string()),
        (&[""], one.to_string()),
        (&["a", "b"], one.to_string()),
        (&["--help"], "--help: no option; for a folder of this name write ./--help".to_string()),
        (&["/a b"], "/a b: blanks, quotes, \\, $ and # cannot be in PREFIX".to_string()),
        (&["/a$b"], "/a$b: blanks, quotes, \\, $ and # cannot be in PREFIX".to_string()),
    ] {
        let output = checkout.install(words);
        let due = format!("install: {due}\nusage: tools/install PREFIX\n");
        assert_eq!((output.status.code(), &*String::from_utf8_lossy(&output.stderr)), (Some(2), &due[..]), "{words:?}");
    }
    assert!(!checkout.path("calls").exists(), "nothing is proved for it");
}
