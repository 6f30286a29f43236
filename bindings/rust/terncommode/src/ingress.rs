//! What strangers may say. A stranger can write any field, any marker, and bytes that no table names. So nothing of what came goes on as it came: each
//! field is read under its own line of the table and written anew.

use crate::bag::Limits;
use crate::carriers::Parts;
use crate::context::{Budget, Context, Form};
use crate::raw;
use crate::table;
use terncommode_sys::{ILL_TYPED, LOST};

/// The text of a field has at most so many times the letters of a header.
const TEXT_FACTOR: usize = 4;

/// The context that comes in, of which only the fields of a checked table come in.
pub(crate) fn let_in(table: &str, values: &[&[u8]], limits: &Limits) -> Context {
    let mut parts = Parts::new(limits.parts);
    if values.iter().map(|value| value.len()).sum::<usize>() > limits.letters {
        parts.is_lost = true;
    } else {
        values.iter().for_each(|value| parts.add(value));
    }
    let came = parts.joined();
    let mut inside: Vec<u8> = Vec::new();
    let mut is_whole = !parts.is_lost;
    let slots = table::alone(table);
    let (places, _) = raw::places(table, slots.len(), came.as_bytes());
    // The fields of which nothing is said aren't read one by one.
    let said = slots.iter().zip(&places).filter(|(_, place)| place.length > 0 || place.state == ILL_TYPED);
    for ((path, alone), _) in said {
        let (with_it, is_in) = with_field(&inside, came.as_bytes(), path, alone, limits);
        is_whole &= is_in;
        if !limits.drops_partial || is_in && with_it.len() as u64 <= limits.budget {
            inside = with_it;
        }
    }
    let says_all = limits.drops_partial || is_whole && is_all(table, came.as_bytes(), &inside);
    let inputs = [inside.as_slice(), &LOST];
    Context::made(Form::One, raw::join(&inputs[..2 - usize::from(says_all)], Budget::new(Form::One, limits.budget)))
}

/// Whether what is inside is all that came, as a service that knows the table takes it.
fn is_all(table: &str, came: &[u8], inside: &[u8]) -> bool {
    raw::update(table, &[came], "", Budget::none(Form::One)).is_ok_and(|normal| normal == inside)
}

/// What is inside, with one field of what came, and whether all of the field is in it.
fn with_field(inside: &[u8], came: &[u8], path: &str, alone: &str, limits: &Limits) -> (Vec<u8>, bool) {
    let mut field = Coming { limits, path, prefix: format!("{path} "), lines: String::new(), is_outside: false, stays: false };
    match raw::read_field(alone, came, path, TEXT_FACTOR * limits.letters) {
        Ok((text, exact)) if exact || !limits.drops_partial => {
            field.value(&text);
        }
        _ => field.stays = true,
    }
    match raw::update(alone, &[inside], &field.lines, Budget::none(Form::One)) {
        Ok(with_it) => (with_it, !field.stays),
        Err(_) => (inside.to_vec(), false),
    }
}

/// The lines of writes that a field's text makes.
struct Coming<'l> {
    limits: &'l Limits,
    path: &'l str,
    /// Of the next line: the path, keys and names of fields.
    prefix: String,
    lines: String,
    /// Whether what is read now stays outside.
    is_outside: bool,
    /// Whether anything stays outside.
    stays: bool,
}

impl Coming<'_> {
    fn add(&mut self, literal: &str) {
        if self.is_outside || literal.len() > self.limits.text.min(self.limits.letters) {
            self.stays = true;
            return;
        }
        self.lines.extend([&self.prefix, literal, "\n"]);
    }

    /// Writes the value with which the text begins: what is after it, and how many lines it has.
    fn value<'t>(&mut self, text: &'t str) -> (&'t str, usize) {
        if let Some(rest) = text.strip_prefix('[') {
            return self.fields(rest);
        }
        let (literal, rest) = split_literal(text);
        if let Some(rest) = rest.strip_prefix('{') {
            return self.entries(rest); // before it stood the total of a counter, or nothing
        }
        if literal == "-" || literal == "off" {
            return (rest, 0);
        }
        self.add(literal);
        (rest, 1)
    }

    /// Writes a value below a key or the name of a field, which is as long as that, with the letter after it.
    fn below<'t>(&mut self, text: &'t str, length: usize, limit: usize) -> (&'t str, usize) {
        let (name, rest) = text.split_at(length);
        let (prefix, is_outside) = (self.prefix.len(), self.is_outside);
        self.is_outside |= length > limit || self.prefix.len() + length > self.path.len() + 1 + self.limits.letters;
        self.prefix.push_str(name);
        let found = self.value(rest);
        self.prefix.truncate(prefix);
        self.is_outside = is_outside;
        found
    }

    /// Writes the entries of a set, a counter or a map.
    fn entries<'t>(&mut self, mut text: &'t str) -> (&'t str, usize) {
        let mut count = 0;
        while !text.is_empty() && !text.starts_with('}') {
            let (literal, rest) = split_literal(text);
            let written = if rest.starts_with(':') {
                let (rest, written) = self.below(text, literal.len() + 1, self.limits.text + 1);
                text = rest;
                self.stays |= written == 0; // a key without a value can't be written
                written
            } else {
                self.add(literal);
                text = rest;
                1
            };
            count += written;
            text = text.strip_prefix(',').unwrap_or(text);
        }
        (text.get(1..).unwrap_or_default(), count)
    }

    /// Writes the fields of a bag inside of a map.
    fn fields<'t>(&mut self, mut text: &'t str) -> (&'t str, usize) {
        let mut count = 0;
        self.prefix.push('.');
        while !text.starts_with(']') {
            let Some(equals) = text.find('=') else { break };
            let (rest, written) = self.below(text, equals + 1, usize::MAX);
            count += written;
            text = rest.strip_prefix(',').unwrap_or(rest);
        }
        self.prefix.pop();
        (text.get(1..).unwrap_or_default(), count)
    }
}

/// The literal with which a text begins, and what is after it: its quotes or its brackets end it, else the next letter that isn't its own.
fn split_literal(text: &str) -> (&str, &str) {
    let (mut depth, mut is_quoted, mut is_escaped) = (0_u32, false, false);
    for (place, byte) in text.bytes().enumerate() {
        if is_escaped {
            is_escaped = false;
            continue;
        }
        match byte {
            b'\\' if is_quoted => is_escaped = true,
            b'"' => is_quoted = !is_quoted,
            _ if is_quoted => {}
            b'(' => depth += 1,
            b')' if depth == 1 => return text.split_at(place + 1),
            b')' => depth = depth.saturating_sub(1),
            b',' | b':' | b'{' | b'}' | b']' if depth == 0 => return text.split_at(place),
            _ => {}
        }
    }
    (text, "")
}
