//! Declarations of `libbaggage`, the library of baggage contexts: one for each of `include/baggage.h`. What each call does and what its
//! caller owes stands there. The crate `terncommode` is safe Rust over these.
//!
//! A pointer and the length after it are those of an array; it may be null or dangling where the length is 0. No call keeps a pointer.

#![no_std]
#![allow(missing_docs)]

/// The version of the interface that is declared here: major * 10000 + minor * 100 + patch.
pub const VERSION: u32 = 20000;

/// What a call came to. A status that you don't know is a refusal: the room is as it was.
pub mod status {
    pub const OK: u32 = 0;
    pub const FAULT: u32 = 1;
    pub const ROOM: u32 = 2;
    pub const MEMORY: u32 = 3;
    pub const FORM: u32 = 4;
    pub const BUDGET: u32 = 5;
    pub const TABLE: u32 = 6;
    pub const FIELD: u32 = 7;
    pub const WRITE: u32 = 8;
    pub const TYPE: u32 = 9;
    pub const CHOICE: u32 = 10;
    pub const WIDTH: u32 = 11;
    pub const LONG: u32 = 12;
    pub const PIECES: u32 = 13;
}

pub const FORM_ONE: u32 = 1;
pub const FORM_TWO: u32 = 2;
pub const EXACT: u32 = 1;
pub const PARTIAL: u32 = 2;
pub const ILL_TYPED: u32 = 3;
pub const CUT: u32 = 1;
pub const UNSAID: u32 = 2;
pub const TEXT: u32 = 1;
pub const JSON: u32 = 2;
pub const NO_BUDGET: u64 = u64::MAX;

/// The context that stands for one that was promised and can't be read.
pub const LOST: [u8; 1] = [0];

/// The answer of a call. A number that its status doesn't speak of is 0.
#[repr(C)]
#[derive(Clone, Copy, Debug, PartialEq, Eq)]
pub struct Answer {
    pub status: u32,
    pub code: u32,
    pub context: usize,
    pub offset: usize,
    pub size: usize,
}

/// One of several inputs.
#[repr(C)]
#[derive(Clone, Copy, Debug)]
pub struct Span {
    pub bytes: *const u8,
    pub length: usize,
}

/// Where a slot's atoms stand in the caller's own bytes.
#[repr(C)]
#[derive(Clone, Copy, Debug, Default, PartialEq, Eq)]
pub struct Place {
    pub offset: usize,
    pub length: usize,
    pub state: u32,
    pub zero: u32,
}

extern "C" {
    pub fn baggage_version() -> u32;

    pub fn baggage_check(context: *const u8, context_len: usize) -> Answer;

    pub fn baggage_join(form: u32, inputs: *const Span, inputs_len: usize, budget: u64, room: *mut u8, room_len: usize) -> Answer;

    pub fn baggage_update(
        form: u32,
        table: *const u8,
        table_len: usize,
        inputs: *const Span,
        inputs_len: usize,
        writes: *const u8,
        writes_len: usize,
        budget: u64,
        room: *mut u8,
        room_len: usize,
    ) -> Answer;

    pub fn baggage_keep(
        form: u32,
        others: u32,
        table: *const u8,
        table_len: usize,
        inputs: *const Span,
        inputs_len: usize,
        budget: u64,
        room: *mut u8,
        room_len: usize,
    ) -> Answer;

    pub fn baggage_places(
        table: *const u8,
        table_len: usize,
        context: *const u8,
        context_len: usize,
        places: *mut Place,
        places_len: usize,
    ) -> Answer;

    pub fn baggage_chosen_places(
        table: *const u8,
        table_len: usize,
        chosen: *const usize,
        chosen_len: usize,
        context: *const u8,
        context_len: usize,
        places: *mut Place,
        places_len: usize,
    ) -> Answer;

    pub fn baggage_report(
        as_: u32,
        table: *const u8,
        table_len: usize,
        context: *const u8,
        context_len: usize,
        room: *mut u8,
        room_len: usize,
    ) -> Answer;

    pub fn baggage_read_field(
        table: *const u8,
        table_len: usize,
        context: *const u8,
        context_len: usize,
        name: *const u8,
        name_len: usize,
        room: *mut u8,
        room_len: usize,
    ) -> Answer;

    pub fn baggage_write_field(
        form: u32,
        table: *const u8,
        table_len: usize,
        name: *const u8,
        name_len: usize,
        text: *const u8,
        text_len: usize,
        room: *mut u8,
        room_len: usize,
    ) -> Answer;

    pub fn baggage_check_table(table: *const u8, table_len: usize) -> Answer;

    pub fn baggage_evolve(
        old_table: *const u8,
        old_len: usize,
        next_table: *const u8,
        next_len: usize,
        room: *mut u8,
        room_len: usize,
    ) -> Answer;

    pub fn baggage_carry(context: *const u8, context_len: usize, width: usize, room: *mut u8, room_len: usize) -> Answer;

    pub fn baggage_collect(lines: *const u8, lines_len: usize, room: *mut u8, room_len: usize) -> Answer;

    pub fn baggage_quote(literal: u32, text: *const u8, text_len: usize, room: *mut u8, room_len: usize) -> Answer;
}

#[cfg(test)]
mod tests {
    use super::*;

    #[test]
    fn the_library_is_that_of_the_declarations() {
        // SAFETY: it takes no pointer.
        assert_eq!(unsafe { baggage_version() }, VERSION);
    }

    #[test]
    fn structs_have_the_layout_of_c() {
        assert_eq!(core::mem::size_of::<Answer>(), 8 + 3 * core::mem::size_of::<usize>());
        assert_eq!(core::mem::size_of::<Span>(), 2 * core::mem::size_of::<usize>());
        assert_eq!(core::mem::size_of::<Place>(), 8 + 2 * core::mem::size_of::<usize>());
    }
}
