//! What the code of `tools/accessors rust` is made of: where the slots of a table stand in a context, and how their values are spelled. It is for that
//! code, and may change with it.

#![allow(missing_docs)]

use crate::{raw, Context, Error, Field};
use std::collections::{BTreeMap, BTreeSet};
use terncommode_sys as sys;

/// Where the slots of a table stand in a context.
#[derive(Clone, Debug)]
pub struct Slots<'a> {
    bytes: &'a [u8],
    is_two: bool,
    places: Vec<sys::Place>,
}

impl<'a> Slots<'a> {
    /// The places of so many slots of a table, by one pass over the context.
    pub fn of(table: &str, slots: usize, context: &'a Context) -> Slots<'a> {
        let bytes = context.as_bytes();
        let (places, form) = raw::places(table, slots, bytes);
        Slots { bytes, is_two: form == sys::FORM_TWO, places }
    }

    /// What a slot says, whose headers below have this level.
    pub fn read<T>(&self, slot: usize, level: u32, tell: impl Fn(Part<'a>) -> Option<T>) -> Result<Field<T>, Error> {
        let place = self.places[slot];
        let bytes = self.bytes.get(place.offset..place.offset + place.length).unwrap_or_default();
        let value = if place.state == sys::ILL_TYPED { None } else { tell(Part { bytes, is_two: self.is_two, level }) };
        let value = value.ok_or(Error::IllTyped { input: 0, offset: place.offset })?;
        Ok(Field { value, exact: place.state == sys::EXACT })
    }
}

enum Atom<'a> {
    Marker,
    Datum(&'a [u8]),
    Header { level: u32, is_key: bool, body: &'a [u8] },
}

/// The atoms that stand under a header, in which headers have this level and higher ones.
#[derive(Clone, Copy)]
pub struct Part<'a> {
    bytes: &'a [u8],
    is_two: bool,
    level: u32,
}

impl<'a> Part<'a> {
    fn next(&mut self) -> Option<Atom<'a>> {
        let mut rest = self.bytes;
        let length = if self.is_two { varint(&mut rest)? } else { base_128(&mut rest)? };
        let atom = take(&mut rest, usize::try_from(length).ok()?)?;
        self.bytes = rest;
        Some(match atom.split_first() {
            None => Atom::Marker,
            Some((0, payload)) => Atom::Datum(payload),
            Some((first, body)) => Atom::Header { level: u32::from(0xf8 - (first & 0xf8)) / 8, is_key: first & 1 == 1, body },
        })
    }

    /// The payloads of the data before the first header.
    pub fn data(mut self) -> impl Iterator<Item = &'a [u8]> {
        std::iter::from_fn(move || loop {
            match self.next()? {
                Atom::Marker => {}
                Atom::Datum(payload) => return Some(payload),
                Atom::Header { .. } => return None,
            }
        })
    }

    /// The headers of this part's level: whether it is one with a key, its key or number, and what stands under it.
    pub fn under(mut self) -> impl Iterator<Item = (bool, &'a [u8], Part<'a>)> {
        std::iter::from_fn(move || loop {
            if let Atom::Header { level, is_key, body } = self.next()? {
                if level == self.level {
                    return Some((is_key, body, self.until_next()));
                }
            }
        })
    }

    /// What stands before the next header of this part's level, and is passed over.
    fn until_next(&mut self) -> Part<'a> {
        let from = self.bytes;
        loop {
            let before = self.bytes;
            match self.next() {
                Some(Atom::Header { level, .. }) if level <= self.level => self.bytes = before,
                Some(_) => continue,
                None => self.bytes = &before[before.len()..],
            }
            return Part { bytes: &from[..from.len() - self.bytes.len()], level: self.level + 1, ..*self };
        }
    }

    /// What stands under the header with this number.
    pub fn field(self, number: u64) -> Part<'a> {
        let found = self.under().find(|(is_key, mut body, _)| !is_key && varint(&mut body) == Some(number));
        found.map_or(Part { bytes: &[], level: self.level + 1, ..self }, |(_, _, part)| part)
    }
}

fn take<'a>(rest: &mut &'a [u8], length: usize) -> Option<&'a [u8]> {
    let taken = rest.get(..length)?;
    *rest = &rest[length..];
    Some(taken)
}

fn byte(rest: &mut &[u8]) -> Option<u8> {
    take(rest, 1).map(|taken| taken[0])
}

fn base_128(rest: &mut &[u8]) -> Option<u64> {
    let mut length = 0;
    for place in 0..3 {
        let group = byte(rest)?;
        length |= u64::from(group & 0x7f) << (7 * place);
        if group < 0x80 {
            break;
        }
    }
    Some(length)
}

fn big_endian(first: u64, bytes: &[u8]) -> u64 {
    bytes.iter().fold(first, |number, byte| number << 8 | u64::from(*byte))
}

fn varint(rest: &mut &[u8]) -> Option<u64> {
    let first = byte(rest)?;
    let more = first.leading_ones();
    let kept = u64::from(first) & (0x7f >> more.min(7));
    take(rest, more as usize).map(|bytes| big_endian(kept, bytes))
}

fn signed(rest: &mut &[u8]) -> Option<i64> {
    let first = byte(rest)?;
    let flip = if first < 0x80 { 0xff } else { 0 };
    let turned = first ^ flip;
    let ones = turned.leading_ones();
    let more = if ones == 8 { 8 } else { ones - 1 };
    let kept = u64::from(turned) & (0x7f >> ones.min(7));
    let number = take(rest, more as usize)?.iter().fold(kept, |number, byte| number << 8 | u64::from(byte ^ flip));
    let number = i64::try_from(number).ok()?;
    Some(if flip == 0 { number } else { -1 - number })
}

/// What stands before `00 01`, in which `ff` stands after each other zero byte.
fn escaped(rest: &mut &[u8]) -> Option<Vec<u8>> {
    let mut bytes = Vec::new();
    loop {
        match (byte(rest)?, rest.first()) {
            (0, Some(1)) => return take(rest, 1).map(|_| bytes),
            (0, Some(0xff)) => {
                take(rest, 1)?;
                bytes.push(0);
            }
            (0, _) => return None,
            (other, _) => bytes.push(other),
        }
    }
}

/// How the values of a word are spelled.
pub trait Kind {
    type Value: Ord;

    /// The value that comes next inside a struct.
    fn take(rest: &mut &[u8]) -> Option<Self::Value>;

    /// The value that a whole payload or key spells.
    fn whole(payload: &[u8]) -> Option<Self::Value> {
        let mut rest = payload;
        Self::take(&mut rest).filter(|_| rest.is_empty())
    }
}

macro_rules! kinds {
    ($($name:ident, $value:ty, $rest:ident, $taken:expr;)*) => {
        $(pub struct $name;
        impl Kind for $name {
            type Value = $value;
            fn take($rest: &mut &[u8]) -> Option<$value> {
                $taken
            }
        })*
    };
}

kinds! {
    Bool, bool, rest, match byte(rest)? { 0 => Some(false), 1 => Some(true), _ => None };
    Int32, i32, rest, i32::try_from(signed(rest)?).ok();
    Int64, i64, rest, signed(rest);
    Uint32, u32, rest, u32::try_from(varint(rest)?).ok();
    Uint64, u64, rest, varint(rest);
    Fixed32, u32, rest, take(rest, 4)?.try_into().map(u32::from_be_bytes).ok();
    Fixed64, u64, rest, take(rest, 8)?.try_into().map(u64::from_be_bytes).ok();
    Sfixed32, i32, rest, take(rest, 4)?.try_into().map(|bytes| i32::from_be_bytes(bytes) ^ i32::MIN).ok();
    Sfixed64, i64, rest, take(rest, 8)?.try_into().map(|bytes| i64::from_be_bytes(bytes) ^ i64::MIN).ok();
}

pub struct Octets;
impl Kind for Octets {
    type Value = Vec<u8>;
    fn take(rest: &mut &[u8]) -> Option<Vec<u8>> {
        escaped(rest)
    }
    fn whole(payload: &[u8]) -> Option<Vec<u8>> {
        Some(payload.into())
    }
}

pub struct Text;
impl Kind for Text {
    type Value = String;
    fn take(rest: &mut &[u8]) -> Option<String> {
        String::from_utf8(escaped(rest)?).ok()
    }
    fn whole(payload: &[u8]) -> Option<String> {
        String::from_utf8(payload.into()).ok()
    }
}

macro_rules! structs {
    ($(($($kind:ident),*);)*) => {
        $(impl<$($kind: Kind),*> Kind for ($($kind,)*) {
            type Value = ($($kind::Value,)*);
            fn take(rest: &mut &[u8]) -> Option<Self::Value> {
                Some(($($kind::take(rest)?,)*))
            }
        })*
    };
}

structs! {
    (A); (A, B); (A, B, C); (A, B, C, D); (A, B, C, D, E); (A, B, C, D, E, F); (A, B, C, D, E, F, G); (A, B, C, D, E, F, G, H);
    (A, B, C, D, E, F, G, H, I); (A, B, C, D, E, F, G, H, I, J); (A, B, C, D, E, F, G, H, I, J, K); (A, B, C, D, E, F, G, H, I, J, K, L);
}

pub fn taint(part: Part) -> Option<bool> {
    Some(part.data().next().is_some())
}

pub fn least<K: Kind>(part: Part) -> Option<Option<K::Value>> {
    part.data().next().map_or(Some(None), |payload| K::whole(payload).map(Some))
}

pub fn greatest<K: Kind>(part: Part) -> Option<Option<K::Value>> {
    part.data().last().map_or(Some(None), |payload| K::whole(payload).map(Some))
}

pub fn set<K: Kind>(part: Part) -> Option<BTreeSet<K::Value>> {
    part.data().map(K::whole).collect()
}

pub fn counter(part: Part) -> Option<BTreeMap<Vec<u8>, u64>> {
    let writers = part.under().filter(|(is_key, _, _)| *is_key);
    writers.map(|(_, writer, under)| Some((writer.to_vec(), under.data().last().map_or(Some(0), Uint64::whole)?))).collect()
}

pub fn map<'a, K: Kind, V>(part: Part<'a>, tell: impl Fn(Part<'a>) -> Option<V>) -> Option<BTreeMap<K::Value, V>> {
    let entries = part.under().filter(|(is_key, _, _)| *is_key);
    entries.map(|(_, key, under)| Some((K::whole(key)?, tell(under)?))).collect()
}

/// The literal of bytes.
pub fn hex(bytes: &[u8]) -> String {
    bytes.iter().fold("0x".to_string(), |text, byte| text + &format!("{byte:02x}"))
}
