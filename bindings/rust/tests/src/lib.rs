//! Digits of bytes, for the programs of this crate.

#![forbid(unsafe_code)]

use std::fmt::Write as _;

/// The digits of bytes, `-` for none.
#[must_use]
pub fn digits_of(bytes: &[u8]) -> String {
    if bytes.is_empty() {
        return "-".to_string();
    }
    bytes.iter().fold(String::with_capacity(2 * bytes.len()), |mut digits, byte| {
        let _ = write!(digits, "{byte:02x}");
        digits
    })
}

/// The bytes that `-` or pairs of digits say.
#[must_use]
pub fn bytes_of(digits: &str) -> Option<Vec<u8>> {
    if digits == "-" {
        return Some(Vec::new());
    }
    if digits.is_empty() || digits.len() % 2 != 0 {
        return None;
    }
    let value = |digit: u8| char::from(digit).to_digit(16);
    digits.as_bytes().chunks(2).map(|pair| u8::try_from(16 * value(pair[0])? + value(pair[1])?).ok()).collect()
}
