//! What a service writes.

use std::collections::BTreeMap;
use std::fmt::Write as _;

/// Paths, each with a text as in a `set` of a graph.
#[derive(Clone, Debug, Default, PartialEq, Eq)]
pub struct Writes {
    lines: String,
    /// The paths that can't stand in a line, by the number of the line, from 1 on.
    no_paths: BTreeMap<usize, Box<str>>,
}

impl Writes {
    /// No write.
    #[must_use]
    pub fn new() -> Writes {
        Writes::default()
    }

    /// A write by its text: `set("id", "4711")`, `set("debug", "on")`, `set("hops", quote("cart") + ":3")`.
    ///
    /// A path with a blank or a line feed is that of no slot, and a text with a line feed no write, so that one write never becomes two.
    #[must_use]
    pub fn set(mut self, path: &str, text: impl AsRef<str>) -> Writes {
        let text = text.as_ref();
        // No slot has the empty path, and no write the empty text.
        let is_path = !path.contains([' ', '\n']);
        if !is_path {
            self.no_paths.insert(self.lines.matches('\n').count() + 1, path.into());
        }
        let path = if is_path { path } else { "" };
        let text = if text.contains('\n') { "" } else { text };
        let _ = writeln!(self.lines, "{path} {text}");
        self
    }

    /// A string for a field of strings, or an element of a set of them.
    #[must_use]
    pub fn set_string(self, path: &str, value: &str) -> Writes {
        self.set(path, quote(value))
    }

    /// What a writer has counted in all for a counter: the greatest count of each writer stays. A writer is one visit of one service, whose name is eight
    /// random bytes; [`Request::count`](crate::Request::count) draws it and keeps the count.
    #[must_use]
    pub fn count(self, path: &str, writer: impl AsRef<[u8]>, count: u64) -> Writes {
        let mut text = "0x".to_string();
        for byte in writer.as_ref() {
            let _ = write!(text, "{byte:02x}");
        }
        self.set(path, format!("{text}:{count}"))
    }

    /// A taint that is on.
    #[must_use]
    pub fn mark(self, path: &str) -> Writes {
        self.set(path, "on")
    }

    pub(crate) fn lines(&self) -> &str {
        &self.lines
    }

    /// The path of the write with this number, from 1 on, as it was handed in.
    pub(crate) fn path(&self, line: usize) -> &str {
        if let Some(path) = self.no_paths.get(&line) {
            return path;
        }
        let line = line.checked_sub(1).and_then(|before| self.lines.split('\n').nth(before)).unwrap_or_default();
        line.split_once(' ').map_or(line, |(path, _)| path)
    }
}

/// A text as it may be shown to people: what a terminal or a log could obey has an escape in its place, line feeds too.
#[must_use]
pub fn visible(text: &str) -> String {
    let mut shown = String::with_capacity(text.len());
    for letter in text.chars() {
        match letter {
            '\0'..='\x1f' | '\x7f' => {
                let _ = write!(shown, "\\x{:02x}", u32::from(letter));
            }
            '\u{80}'..='\u{9f}' | '\u{2028}'..='\u{202e}' | '\u{2066}'..='\u{2069}' => {
                let _ = write!(shown, "\\u{:04x}", u32::from(letter));
            }
            _ => shown.push(letter),
        }
    }
    shown
}

/// The literal of a string, as a write has it.
#[must_use]
pub fn quote(text: &str) -> String {
    let mut literal = String::with_capacity(text.len() + 2);
    literal.push('"');
    for letter in text.chars() {
        match letter {
            '"' | '\\' => literal.extend(['\\', letter]),
            '\0'..='\x1f' | '\x7f' => {
                let _ = write!(literal, "\\x{:02x}", u32::from(letter));
            }
            _ => literal.push(letter),
        }
    }
    literal.push('"');
    literal
}
