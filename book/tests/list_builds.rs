//! What `tools/list` builds, and when: two at once do not disturb each other, and nothing is built twice.

mod checkout;

use checkout::Checkout;
use std::fs::File;
use std::process::{Output, Stdio};
use std::time::{Duration, Instant};

/// The longest time to wait for anything here.
const CAP: Duration = Duration::from_secs(300);

/// What the stand-in prints for the book `start 0` and the plate `A`.
const LISTED: &str = "book 100050\nplate 41\n";

fn checkout() -> Checkout {
    let checkout = Checkout::new();
    checkout.put("b.txt", "start 0\n");
    checkout
}

/// The command has listed, and ended with status 0.
fn lists(output: &Output) {
    let said = String::from_utf8_lossy(&output.stderr);
    assert_eq!((output.status.code(), &*String::from_utf8_lossy(&output.stdout)), (Some(0), LISTED), "{said}");
}

/// Waits until this is so.
fn until(mut so: impl FnMut() -> bool) {
    let began = Instant::now();
    while !so() {
        assert!(began.elapsed() < CAP, "it is not so after {CAP:?}");
        std::thread::sleep(Duration::from_millis(5));
    }
}

/// Two at once of what builds without a lock: the second fails. So the tests below would find a missing lock.
#[test]
fn two_at_once_without_a_lock_fail() {
    let checkout = checkout();
    checkout.put("hold", "");
    let first = checkout.command("bin/rt").spawn().expect("rt");
    until(|| checkout.path("busy").exists());
    assert_eq!(checkout.command("bin/rt").status().expect("rt").code(), Some(1));
    std::fs::remove_file(checkout.path("hold")).expect("it is held");
    assert!(first.wait_with_output().expect("rt").status.success());
}

/// The second command starts while the first one proves. It waits and says so, and then has nothing to prove.
#[test]
fn two_at_once_prove_once() {
    let checkout = checkout();
    lists(&checkout.list(&["b.txt", "A"])); // `book` is built, so that only `list` is left
    checkout.put("crates/sizes/src/lib.rt", "changed");
    checkout.put("calls", "");
    checkout.put("hold", "");
    let first = checkout.command("tools/list").args(["b.txt", "A"]).spawn().expect("tools/list");
    until(|| checkout.path("busy").exists());
    let said = File::create(checkout.path("said")).expect("a file");
    let mut second = checkout.command("tools/list");
    let mut second = second.args(["b.txt", "A"]).stderr(Stdio::from(said)).spawn().expect("tools/list");
    let waits = "list: waiting for another command that proves or builds here\n";
    until(|| checkout.held("said") == waits || second.try_wait().expect("a child").is_some());
    std::fs::remove_file(checkout.path("hold")).expect("it is held");
    lists(&first.wait_with_output().expect("the first ends"));
    lists(&second.wait_with_output().expect("the second ends"));
    assert_eq!((&*checkout.held("said"), &*checkout.held("calls")), (waits, "rt run\n"));
}

/// Two that start together in a checkout where nothing is built.
#[test]
fn two_from_nothing_build_once() {
    let checkout = checkout();
    let start = || checkout.command("tools/list").args(["b.txt", "A"]).spawn().expect("tools/list");
    let (one, other) = (start(), start());
    lists(&one.wait_with_output().expect("the one ends"));
    lists(&other.wait_with_output().expect("the other ends"));
    assert_eq!(checkout.held("calls"), "cargo build\nrt run\n");
}

/// Where programs and sources are of one state, neither rt nor cargo is called.
#[test]
fn nothing_is_built_again() {
    let checkout = checkout();
    lists(&checkout.list(&["b.txt", "A"]));
    let again = checkout.list(&["b.txt", "A"]);
    lists(&again);
    assert_eq!((&again.stderr[..], &*checkout.held("calls")), (&b""[..], "cargo build\nrt run\n"));
    for name in ["crates/other/src/lib.rt", "crates/list/must-fail/a.edit", "README.md"] {
        checkout.put(name, "no source of the programs");
        lists(&checkout.list(&["b.txt", "A"]));
        assert_eq!(checkout.held("calls"), "cargo build\nrt run\n", "{name}");
    }
}

/// A source that changes, comes or goes has its program built again, and no other.
#[test]
fn other_sources_are_built() {
    let checkout = checkout();
    lists(&checkout.list(&["b.txt", "A"]));
    for (name, call) in [
        ("crates/sizes/src/lib.rt", "rt run\n"),
        ("crates/list/proofs/New.antt", "rt run\n"),
        (".ci/toolchain", "rt run\n"),
        ("book/src/lib.rs", "cargo build\n"),
        ("cargo/Cargo.lock", "cargo build\n"),
    ] {
        checkout.put("calls", "");
        checkout.put(name, "changed");
        lists(&checkout.list(&["b.txt", "A"]));
        assert_eq!(checkout.held("calls"), call, "{name}");
    }
    checkout.put("calls", "");
    std::fs::remove_file(checkout.path("crates/list/proofs/New.antt")).expect("it is there");
    lists(&checkout.list(&["b.txt", "A"]));
    assert_eq!(checkout.held("calls"), "rt run\n");
}

/// What cannot be built is not kept: the command fails, and builds again when it is called again.
#[test]
fn what_fails_is_not_kept() {
    let checkout = checkout();
    checkout.put("busy/file", "as if another one, without the lock, were at work");
    for _ in 0..2 {
        checkout.put("calls", "");
        let output = checkout.list(&["b.txt", "A"]);
        assert_eq!((output.status.code(), &output.stdout[..]), (Some(1), &b""[..]));
        assert_eq!(checkout.held("calls"), "cargo build\n");
    }
    std::fs::remove_dir_all(checkout.path("busy")).expect("it is there");
    lists(&checkout.list(&["b.txt", "A"]));
}
