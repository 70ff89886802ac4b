//! Outside evidence: compares the code under test with a simple lister. The lister was written from the customer's
//! documents alone and shares nothing with the code under test. Document 01 is the customer's scope, and document 02 has
//! his requests after it; docs/REFERENCE.md says in our own words what they require.
//!
//! The code under test is the lister itself, or the proved library with `--features library`; then the built listing
//! program is compared with the lister's text too. tests/faults.rs runs the lister with deliberate faults, one by one.
//! `cargo test -- --nocapture` also prints what came up in the random books and which book caught which fault.

pub mod books;
pub mod compare;
#[cfg(feature = "library")]
pub mod library;
pub mod lister;
pub mod reader;
pub mod switches;
pub mod text;

/// The code under test: the lister itself. With the feature `library` it is the proved library.
#[cfg(not(feature = "library"))]
pub fn reader_under_test() -> lister::Lister {
    lister::Lister
}

/// The code under test: the proved library.
#[cfg(feature = "library")]
pub fn reader_under_test() -> library::Library {
    library::Library
}
