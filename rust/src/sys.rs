//! The functions of the static library, as `include/filbozseg.h` declares them: a slice is a pointer and a length, an array a pointer.
//!
//! The header says what each code means, what is written and when, and how much stack a call needs.
//! [`Refusal::of_code`](crate::Refusal::of_code) is the refusal with a code.
//!
//! Obligations of the caller: each pointer points to as many live values as its length or its array type says. No pointer is null, even if
//! the length is 0. What is lent for writing overlaps nothing else that is lent.

use crate::{HAND, ROW};

extern "C" {
    /// Loads a book: see [`crate::load`].
    pub fn filbozseg_load(book: *const u8, book_length: usize, grammar: *mut [u16; ROW], offset: *mut usize) -> u32;

    /// Where the name of a rule is in the bytes of its book: see [`crate::name`].
    pub fn filbozseg_name(
        book: *const u8,
        book_length: usize,
        rule: usize,
        offset: *mut usize,
        length: *mut usize,
    ) -> u32;

    /// Opens the recognizer: see [`crate::open`].
    pub fn filbozseg_open(
        grammar: *const [u16; ROW],
        year: u16,
        hand: *mut [u16; HAND],
        chart: *mut u32,
        chart_length: usize,
    ) -> u32;

    /// Takes a byte into the hand: see [`crate::Recognizer::take`].
    pub fn filbozseg_take(
        grammar: *const [u16; ROW],
        hand: *mut [u16; HAND],
        byte: u8,
        chart: *mut u32,
        chart_length: usize,
    ) -> u32;

    /// Sets a point of the hand: see [`crate::Recognizer::set_point`].
    pub fn filbozseg_set_point(
        grammar: *const [u16; ROW],
        hand: *mut [u16; HAND],
        name: usize,
        chart: *const u32,
        chart_length: usize,
    ) -> u32;

    /// Returns to a point of the hand: see [`crate::Recognizer::return_to`].
    pub fn filbozseg_return_to(
        grammar: *const [u16; ROW],
        hand: *mut [u16; HAND],
        name: usize,
        chart: *mut u32,
        chart_length: usize,
    ) -> u32;

    /// Learns a rule: see [`crate::Recognizer::learn`].
    pub fn filbozseg_learn(
        grammar: *mut [u16; ROW],
        hand: *mut [u16; HAND],
        bytes: *const u8,
        bytes_length: usize,
        chart: *mut u32,
        chart_length: usize,
        offset: *mut usize,
    ) -> u32;

    /// Whether the offered row is a derivation of the input: see [`crate::check`].
    pub fn filbozseg_check(
        grammar: *const [u16; ROW],
        input: *const u8,
        input_length: usize,
        year: u16,
        offered: *const u16,
        offered_length: usize,
        chart: *mut u32,
        chart_length: usize,
    ) -> u32;

    /// The length of an offered derivation: see [`crate::length`].
    pub fn filbozseg_length(
        grammar: *const [u16; ROW],
        input: *const u8,
        input_length: usize,
        year: u16,
        offered: *const u16,
        offered_length: usize,
        chart: *mut u32,
        chart_length: usize,
        tenths: *mut i32,
    ) -> u32;

    /// The text of an offered derivation: see [`crate::words`].
    pub fn filbozseg_words(
        grammar: *const [u16; ROW],
        input: *const u8,
        input_length: usize,
        year: u16,
        offered: *const u16,
        offered_length: usize,
        chart: *mut u32,
        chart_length: usize,
        buffer: *mut u8,
        buffer_length: usize,
        bytes: *mut usize,
    ) -> u32;

    /// Whether two offered derivations are the same build: see [`crate::same_build`].
    pub fn filbozseg_same_build(
        grammar: *const [u16; ROW],
        input: *const u8,
        input_length: usize,
        year: u16,
        a: *const u16,
        a_length: usize,
        b: *const u16,
        b_length: usize,
        chart: *mut u32,
        chart_length: usize,
    ) -> u32;

    /// The first derivation of an input: see [`crate::first`].
    pub fn filbozseg_first(
        grammar: *const [u16; ROW],
        input: *const u8,
        input_length: usize,
        year: u16,
        chart: *mut u32,
        chart_length: usize,
        output: *mut u16,
        output_length: usize,
        nodes: *mut usize,
    ) -> u32;

    /// The derivation after the offered one: see [`crate::next`].
    pub fn filbozseg_next(
        grammar: *const [u16; ROW],
        input: *const u8,
        input_length: usize,
        year: u16,
        offered: *const u16,
        offered_length: usize,
        chart: *mut u32,
        chart_length: usize,
        output: *mut u16,
        output_length: usize,
        nodes: *mut usize,
    ) -> u32;

    /// How many derivations an input has: see [`crate::count`].
    pub fn filbozseg_count(
        grammar: *const [u16; ROW],
        input: *const u8,
        input_length: usize,
        year: u16,
        chart: *mut u32,
        chart_length: usize,
        count: *mut usize,
    ) -> u32;
}
