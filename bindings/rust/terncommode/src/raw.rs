//! All that is unsafe: the calls, over slices.

use crate::{Budget, Form};
use terncommode_sys::{self as sys, status, Answer, Span};

// SAFETY, of each call below: each pointer and the length after it are those of one slice, which lives for the call, and the room is
// borrowed alone. A slice without elements hands in a dangling pointer and the length 0. No call keeps a pointer, unwinds, or has a state.

/// Whether the bytes are a context's.
pub fn check(bytes: &[u8]) -> Answer {
    // SAFETY: see above.
    unsafe { sys::baggage_check(bytes.as_ptr(), bytes.len()) }
}

/// Whether the text is a table's.
pub fn check_table(table: &str) -> Answer {
    // SAFETY: see above.
    unsafe { sys::baggage_check_table(table.as_ptr(), table.len()) }
}

/// The merge of inputs that are contexts, cut to a budget.
pub fn join(inputs: &[&[u8]], budget: Budget) -> Vec<u8> {
    try_join(inputs, budget).unwrap_or_else(|answer| mismatch(answer))
}

/// The merge of inputs, cut to a budget, or the answer that says which of them is no context.
pub fn try_join(inputs: &[&[u8]], budget: Budget) -> Result<Vec<u8>, Answer> {
    let spans = spans_of(inputs);
    let made = fill(room_for(inputs), usize::MAX, |room| {
        // SAFETY: see above; the spans are those of slices that live as long.
        unsafe { sys::baggage_join(budget.form().number(), spans.as_ptr(), spans.len(), budget.bytes(), room.as_mut_ptr(), room.len()) }
    });
    made.map(|(bytes, _)| bytes)
}

/// One step of a service: what stands at `baggage_update`.
pub fn update(table: &str, inputs: &[&[u8]], writes: &str, budget: Budget) -> Result<Vec<u8>, Answer> {
    let spans = spans_of(inputs);
    let made = fill(room_for(inputs) + 2 * writes.len(), usize::MAX, |room| {
        // SAFETY: see above; the spans are those of slices that live as long.
        unsafe {
            sys::baggage_update(
                budget.form().number(),
                table.as_ptr(),
                table.len(),
                spans.as_ptr(),
                spans.len(),
                writes.as_ptr(),
                writes.len(),
                budget.bytes(),
                room.as_mut_ptr(),
                room.len(),
            )
        }
    });
    made.map(|(bytes, _)| bytes)
}

/// What may leave of inputs that are contexts.
pub fn keep(table: &str, others: u32, inputs: &[&[u8]], budget: Budget) -> Vec<u8> {
    let spans = spans_of(inputs);
    let made = fill(room_for(inputs), usize::MAX, |room| {
        // SAFETY: see above; the spans are those of slices that live as long.
        unsafe {
            sys::baggage_keep(
                budget.form().number(),
                others,
                table.as_ptr(),
                table.len(),
                spans.as_ptr(),
                spans.len(),
                budget.bytes(),
                room.as_mut_ptr(),
                room.len(),
            )
        }
    });
    made.unwrap_or_else(|answer| mismatch(answer)).0
}

/// The text of a field, of at most so many bytes, and whether it is exact.
pub fn read_field(table: &str, context: &[u8], path: &str, limit: usize) -> Result<(String, bool), Answer> {
    let made = fill(64, limit, |room| {
        // SAFETY: see above.
        unsafe {
            sys::baggage_read_field(
                table.as_ptr(),
                table.len(),
                context.as_ptr(),
                context.len(),
                path.as_ptr(),
                path.len(),
                room.as_mut_ptr(),
                room.len(),
            )
        }
    });
    made.map(|(text, code)| (utf8(text), code == sys::EXACT))
}

/// The block of a context, of at most so many bytes.
pub fn report(table: &str, context: &[u8], limit: usize) -> Result<String, Answer> {
    let made = fill(256, limit, |room| {
        // SAFETY: see above.
        unsafe {
            sys::baggage_report(sys::TEXT, table.as_ptr(), table.len(), context.as_ptr(), context.len(), room.as_mut_ptr(), room.len())
        }
    });
    made.map(|(text, _)| utf8(text))
}

fn spans_of(inputs: &[&[u8]]) -> Vec<Span> {
    inputs.iter().map(|input| Span { bytes: input.as_ptr(), length: input.len() }).collect()
}

/// A room that is long enough for a join.
fn room_for(inputs: &[&[u8]]) -> usize {
    inputs.iter().map(|input| input.len()).sum::<usize>() + 12
}

/// Where the slots of a table stand in a context, and the form of its bytes.
pub fn places(table: &str, slots: usize, context: &[u8]) -> (Vec<sys::Place>, u32) {
    let mut places = vec![sys::Place::default(); slots];
    // SAFETY: see above; the places are borrowed alone.
    let answer =
        unsafe { sys::baggage_places(table.as_ptr(), table.len(), context.as_ptr(), context.len(), places.as_mut_ptr(), places.len()) };
    match answer.status {
        status::OK => (places, answer.code),
        status::MEMORY => out_of_memory(),
        _ => mismatch(answer),
    }
}

/// What a call writes into room that grows until it is long enough, with its code, or the answer that says why there is nothing. A room of more bytes than
/// the limit isn't made: the answer says how many it would have.
fn fill(first: usize, limit: usize, mut call: impl FnMut(&mut [u8]) -> Answer) -> Result<(Vec<u8>, u32), Answer> {
    let mut room = vec![0; first.min(limit)];
    loop {
        let answer = call(&mut room);
        match answer.status {
            status::OK => {
                room.truncate(answer.size);
                return Ok((room, answer.code));
            }
            status::ROOM if answer.size <= limit => room = vec![0; answer.size],
            status::MEMORY => out_of_memory(),
            _ => return Err(answer),
        }
    }
}

/// Ends the program as Rust does where it is out of memory.
pub fn out_of_memory() -> ! {
    std::alloc::handle_alloc_error(std::alloc::Layout::new::<u8>())
}

/// An answer that a library of the right version doesn't give.
pub fn mismatch(answer: Answer) -> ! {
    panic!("libbaggage isn't of version {}: {answer:?}", sys::VERSION)
}

fn utf8(text: Vec<u8>) -> String {
    String::from_utf8(text).expect("libbaggage writes texts in UTF-8")
}

impl Form {
    fn number(self) -> u32 {
        match self {
            Form::One => sys::FORM_ONE,
            Form::Two => sys::FORM_TWO,
        }
    }
}
