//! What both programs of this folder share: the algorithms in plain Rust, and books to run them on.

pub mod books;
pub mod plain;
pub mod random;
