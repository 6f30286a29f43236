//! How a context travels. On a carrier of text it is `DATA.CHECK`: base64url without padding of its bytes, a dot, and six letters, which are
//! base64url of the CRC-32 of the bytes. A text that was cut or damaged reads as lost, and never as a shorter context. A carrier of bytes takes
//! form two, which says how long it is.

use crate::context::{Budget, Context, Form};
use crate::raw;
use std::collections::HashSet;
use terncommode_sys::{status, LOST};

/// The name of the header of HTTP.
pub const HEADER: &str = "terncommode";

/// The header of a reply that says which request it answers: see [`check_of`].
pub const FOR_HEADER: &str = "terncommode-for";

/// The key of gRPC's metadata, whose values are bytes.
pub const GRPC_KEY: &str = "terncommode-bin";

/// How many bytes a context may have in a request's header. Whoever sends cuts to it.
pub const REQUEST_BUDGET: u64 = 3_000;

/// How many bytes a context may have in a reply's header.
pub const REPLY_BUDGET: u64 = 2_000;

/// How many bytes a context may have in gRPC's metadata.
pub const GRPC_BUDGET: u64 = 4_000;

const LETTERS: &[u8; 64] = b"ABCDEFGHIJKLMNOPQRSTUVWXYZabcdefghijklmnopqrstuvwxyz0123456789-_";
const CHECK_LETTERS: usize = 6;
const NO_CACHE: &str = "no-cache=\"terncommode\"";

/// The value of a header that carries the context.
#[must_use]
pub fn to_header(context: &Context) -> String {
    let bytes = context.as_bytes();
    let mut text = Vec::with_capacity(bytes.len() / 3 * 4 + 11);
    put_letters(&mut text, bytes);
    text.push(b'.');
    put_letters(&mut text, &crc32(bytes).to_be_bytes());
    String::from_utf8(text).expect("letters are ASCII")
}

/// The context that one value of a header carries: several with commas between them are merged, and what can't be read is lost.
pub fn from_header(value: &[u8]) -> Context {
    extract([value], Context::lost())
}

/// The context that all values of a header carry, one for each line that came. `absent` stands for no value at all: `Context::default()`
/// at an edge, where a request begins, and `Context::lost()` inside, where a context was promised. Equal parts are read once.
pub fn extract<'a>(values: impl IntoIterator<Item = &'a [u8]>, absent: Context) -> Context {
    let mut parts = Parts::new(usize::MAX);
    let mut is_there = false;
    for value in values {
        is_there = true;
        parts.add(value);
    }
    if is_there {
        parts.joined()
    } else {
        absent
    }
}

/// The check of the first part of a header's value, which a reply to it has in its header [`FOR_HEADER`]; nothing where the part has none.
#[must_use]
pub fn check_of(value: &[u8]) -> Option<&str> {
    let part = trimmed(value.split(|byte| *byte == b',').next()?);
    let check = part.get(part.len().checked_sub(CHECK_LETTERS)?..)?;
    let dot = part.len().checked_sub(CHECK_LETTERS + 1)?;
    (part[dot] == b'.' && get_letters(check).is_some()).then(|| std::str::from_utf8(check).ok())?
}

/// The context of a reply with these values of the header and this one of [`FOR_HEADER`], to the request that was sent with the value `sent`. A reply to
/// another request, as a shared cache gives it, is lost, and so is one that doesn't say which.
pub fn extract_reply<'a>(values: impl IntoIterator<Item = &'a [u8]>, answers: Option<&[u8]>, sent: &str) -> Context {
    match check_of(sent.as_bytes()) {
        Some(check) if answers == Some(check.as_bytes()) => extract(values, Context::lost()),
        _ => Context::lost(),
    }
}

/// The value of Cache-Control of a reply that carries a context, of which `value` was the value so far: no shared cache answers another request
/// with it.
#[must_use]
pub fn no_cache(value: &str) -> String {
    if value.trim().is_empty() {
        return NO_CACHE.to_string();
    }
    if value.contains(NO_CACHE) {
        return value.to_string();
    }
    format!("{value}, {NO_CACHE}")
}

/// What is sent over a carrier of bytes: form two, of which no part is taken for the whole.
#[must_use]
pub fn to_binary(context: &Context) -> Vec<u8> {
    context.to_bytes(Form::Two)
}

/// The context that came over a carrier of bytes, in form two, or in form one from older senders. It is lost where there is no byte, or the bytes are
/// no context's.
#[must_use]
pub fn from_binary(bytes: &[u8]) -> Context {
    if bytes.is_empty() {
        return Context::lost();
    }
    raw::try_join(&[bytes], Budget::NONE).map_or_else(|_| Context::lost(), |bytes| Context::made(Form::One, bytes))
}

/// The parts of a header's values, as they are read.
pub(crate) struct Parts<'a> {
    left: usize,
    seen: HashSet<&'a [u8]>,
    carried: Vec<Vec<u8>>,
    pub(crate) is_lost: bool,
}

impl<'a> Parts<'a> {
    /// Parts, of which so many are read at most: those after them are lost.
    pub(crate) fn new(most: usize) -> Parts<'a> {
        Parts { left: most, seen: HashSet::new(), carried: Vec::new(), is_lost: false }
    }

    /// Adds those of one value.
    pub(crate) fn add(&mut self, value: &'a [u8]) {
        for part in value.split(|byte| *byte == b',').map(trimmed) {
            if self.left == 0 {
                self.is_lost = true;
                return;
            }
            self.left -= 1;
            self.add_part(part);
        }
    }

    fn add_part(&mut self, part: &'a [u8]) {
        if !self.seen.insert(part) {
            return;
        }
        match checked_bytes(part) {
            Some(bytes) => self.carried.push(bytes),
            None => self.is_lost = true,
        }
    }

    /// The merge of all of them, by one call where all are contexts.
    pub(crate) fn joined(&mut self) -> Context {
        let mut inputs: Vec<&[u8]> = self.carried.iter().map(Vec::as_slice).collect();
        if self.is_lost {
            inputs.push(&LOST);
        }
        let bytes = raw::try_join(&inputs, Budget::NONE).unwrap_or_else(|_| {
            self.is_lost = true;
            inputs.retain(|bytes| raw::check(bytes).status == status::OK);
            inputs.push(&LOST);
            raw::join(&inputs, Budget::NONE)
        });
        Context::made(Form::One, bytes)
    }
}

/// A part without the blanks at both ends.
fn trimmed(part: &[u8]) -> &[u8] {
    let is_blank = |byte: &u8| matches!(byte, b' ' | b'\t');
    let first = part.iter().position(|byte| !is_blank(byte)).unwrap_or(part.len());
    let last = part.iter().rposition(|byte| !is_blank(byte)).map_or(first, |place| place + 1);
    &part[first..last]
}

/// The bytes of `DATA.CHECK`, where the check is theirs.
fn checked_bytes(text: &[u8]) -> Option<Vec<u8>> {
    let dot = text.len().checked_sub(CHECK_LETTERS + 1)?;
    if text[dot] != b'.' {
        return None;
    }
    let bytes = get_letters(&text[..dot])?;
    let check = get_letters(&text[dot + 1..])?;
    (check == crc32(&bytes).to_be_bytes()).then_some(bytes)
}

fn put_letters(text: &mut Vec<u8>, bytes: &[u8]) {
    let letter = |bits: u32| LETTERS[(bits & 63) as usize];
    let groups = bytes.chunks_exact(3);
    let rest = groups.remainder();
    for group in groups {
        let bits = u32::from_be_bytes([0, group[0], group[1], group[2]]);
        text.extend([letter(bits >> 18), letter(bits >> 12), letter(bits >> 6), letter(bits)]);
    }
    match *rest {
        [one] => text.extend([letter(u32::from(one) >> 2), letter(u32::from(one) << 4)]),
        [one, two] => {
            let bits = u32::from_be_bytes([0, one, two, 0]);
            text.extend([letter(bits >> 18), letter(bits >> 12), letter(bits >> 6)]);
        }
        _ => {}
    }
}

/// What each letter stands for, or 64.
const VALUES: [u8; 256] = {
    let mut values = [64; 256];
    let mut value = 0;
    while value < 64 {
        values[LETTERS[value] as usize] = value as u8;
        value += 1;
    }
    values
};

/// The bytes of base64url without padding, where unused bits are zero.
fn get_letters(text: &[u8]) -> Option<Vec<u8>> {
    let value = |letter: u8| u32::from(VALUES[usize::from(letter)]);
    let mut bytes = Vec::with_capacity(text.len() / 4 * 3 + 2);
    let groups = text.chunks_exact(4);
    let rest = groups.remainder();
    for group in groups {
        let values = [value(group[0]), value(group[1]), value(group[2]), value(group[3])];
        if (values[0] | values[1] | values[2] | values[3]) > 63 {
            return None;
        }
        bytes.extend_from_slice(&(values[0] << 18 | values[1] << 12 | values[2] << 6 | values[3]).to_be_bytes()[1..]);
    }
    let (values, count) = match *rest {
        [] => return Some(bytes),
        [one, two] => ([value(one), value(two), 0], 1),
        [one, two, three] => ([value(one), value(two), value(three)], 2),
        _ => return None,
    };
    let group = (values[0] << 18 | values[1] << 12 | values[2] << 6).to_be_bytes();
    let (whole, unused) = group[1..].split_at(count);
    if (values[0] | values[1] | values[2]) > 63 || unused.iter().any(|byte| *byte != 0) {
        return None;
    }
    bytes.extend_from_slice(whole);
    Some(bytes)
}

/// The check of Ethernet and of zlib.
fn crc32(bytes: &[u8]) -> u32 {
    const TABLE: [u32; 256] = {
        let mut table = [0; 256];
        let mut byte: u32 = 0;
        while byte < 256 {
            let mut crc = byte;
            let mut bit = 0;
            while bit < 8 {
                crc = if crc & 1 == 1 { crc >> 1 ^ 0xedb8_8320 } else { crc >> 1 };
                bit += 1;
            }
            table[byte as usize] = crc;
            byte += 1;
        }
        table
    };
    !bytes.iter().fold(!0, |crc: u32, byte| crc >> 8 ^ TABLE[((crc ^ u32::from(*byte)) & 255) as usize])
}

#[cfg(test)]
mod tests {
    use super::*;

    #[test]
    fn the_check_is_the_known_one() {
        assert_eq!(crc32(b"123456789"), 0xcbf4_3926);
        assert_eq!(crc32(b""), 0);
    }

    #[test]
    fn letters_come_back() {
        for length in 0..50_u8 {
            let bytes: Vec<u8> = (0..length).map(|byte| byte.wrapping_mul(83)).collect();
            let mut text = Vec::new();
            put_letters(&mut text, &bytes);
            assert_eq!(get_letters(&text), Some(bytes));
        }
        for wrong in ["A", "AAAAA", "AB", "AAB", "A=", "AA==", "A+", "A/", "A A", "\u{e9}", "AA\u{e9}", "AAA\n"] {
            assert_eq!(get_letters(wrong.as_bytes()), None, "{wrong}");
        }
    }
}
