//! The switches of the lister as tests/faults.rs compiles it: each thread has one fault switched on, or none.

pub use outside_tests::switches::Fault;
use std::cell::Cell;

std::thread_local! {
    static ON: Cell<Option<Fault>> = const { Cell::new(None) };
}

/// Switches this fault on in this thread, and no other.
pub fn switch_on(fault: Option<Fault>) {
    ON.with(|on| on.set(fault));
}

/// Whether a fault is switched on.
pub fn fault(which: Fault) -> bool {
    ON.with(|on| on.get() == Some(which))
}

/// The number; with that fault only its low byte.
pub fn low_byte(number: u16, which: Fault) -> u16 {
    if fault(which) {
        number % 256
    } else {
        number
    }
}
