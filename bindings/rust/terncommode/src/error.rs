//! Why a call was refused.

use crate::raw;
use std::fmt;
use terncommode_sys::{status, Answer};

macro_rules! codes {
    ($(#[$about:meta])* $name:ident { $($(#[$what:meta])* $code:ident = $number:literal, $text:literal;)* }) => {
        $(#[$about])*
        #[derive(Clone, Copy, Debug, PartialEq, Eq, Hash)]
        #[non_exhaustive]
        pub enum $name {
            $($(#[$what])* $code,)*
            /// A code that this version doesn't know.
            Other(u32),
        }

        impl $name {
            pub(crate) fn of(number: u32) -> $name {
                match number {
                    $($number => $name::$code,)*
                    other => $name::Other(other),
                }
            }

            /// The name that the program prints.
            pub fn name(self) -> &'static str {
                match self {
                    $($name::$code => $text,)*
                    $name::Other(_) => "?",
                }
            }
        }

        impl fmt::Display for $name {
            fn fmt(&self, out: &mut fmt::Formatter<'_>) -> fmt::Result {
                out.write_str(self.name())
            }
        }
    };
}

codes! {
    /// What is wrong where bytes cease to be those of a context.
    Code {
        /// The input ends inside the head or a length.
        CutLength = 1, "CutLength";
        /// The number in the head isn't that of the bytes after it.
        BadCount = 2, "BadCount";
        /// A length is above the form's limit.
        AtomTooLong = 3, "AtomTooLong";
        /// A length has more bytes than it needs.
        LongForm = 4, "LongForm";
        /// Fewer bytes follow than a length says.
        CutBody = 5, "CutBody";
        /// No kind of atom begins with this byte.
        BadPrefix = 6, "BadPrefix";
        /// After the first byte of an indexed header stands anything but one varint.
        BadIndex = 7, "BadIndex";
        /// A header is more than one level below the one before it.
        LevelJump = 8, "LevelJump";
        /// An atom doesn't come after the one before it.
        OutOfOrder = 9, "OutOfOrder";
    }
}

codes! {
    /// What is wrong with a line of a table's text.
    TableCode {
        /// The first line isn't `baggage table 1`.
        Head = 1, "Head";
        /// The line hasn't the form of a field's, or its line feed is missing.
        Form = 2, "Form";
        /// The field stands deeper than the lines before it let it.
        Depth = 3, "Depth";
        /// Its number isn't greater than that of the field before it in the same bag.
        Order = 4, "Order";
        /// An earlier field of the same bag has the name.
        DuplicateField = 5, "DuplicateField";
        /// Its headers would need more levels than there are.
        TooDeep = 6, "TooDeep";
        /// As many fields as a table may have stand before it.
        TooManySlots = 7, "TooManySlots";
    }
}

/// Why a call was refused. Lines count from 1, inputs and offsets from 0.
#[derive(Clone, Debug, PartialEq, Eq)]
#[non_exhaustive]
pub enum Error {
    /// Bytes aren't a context's.
    Fault {
        /// How many bytes stand before what is wrong.
        offset: usize,
        /// What is wrong.
        code: Code,
    },
    /// A line of the writes is no write to its field, or it writes more bytes than the form of the bag allows.
    BadWrite {
        /// Which one.
        line: usize,
        /// The path of its field.
        path: String,
    },
    /// No slot has the path.
    NoField {
        /// Which line of the writes has it; 0 where it was handed in.
        line: usize,
        /// The path, as it was handed in.
        path: String,
    },
    /// A datum or a key isn't spelled as the type of its field says.
    IllTyped {
        /// Which input it is in.
        input: usize,
        /// How many bytes of that input stand before it.
        offset: usize,
    },
    /// The text isn't that of a table.
    BadTable {
        /// Its first bad line.
        line: usize,
        /// What is wrong with it.
        code: TableCode,
    },
    /// A text is longer than the caller takes.
    TooLong {
        /// How many bytes it would have.
        size: usize,
    },
    /// No request runs here.
    NoRequest,
}

/// No request runs in this thread.
#[derive(Clone, Copy, Debug, PartialEq, Eq)]
pub struct NoRequest;

impl fmt::Display for NoRequest {
    fn fmt(&self, out: &mut fmt::Formatter<'_>) -> fmt::Result {
        out.write_str("no request runs here")
    }
}

impl std::error::Error for NoRequest {}

impl From<NoRequest> for Error {
    fn from(_: NoRequest) -> Error {
        Error::NoRequest
    }
}

impl fmt::Display for Error {
    fn fmt(&self, out: &mut fmt::Formatter<'_>) -> fmt::Result {
        match self {
            Error::Fault { offset, code } => write!(out, "{code} at byte {offset}"),
            Error::BadWrite { line, path } => write!(out, "write {line}: not a write to the field {path:?}"),
            Error::NoField { line: 0, path } => write!(out, "no field {path:?}"),
            Error::NoField { line, path } => write!(out, "write {line}: no field {path:?}"),
            Error::IllTyped { input, offset } => write!(out, "input {input}: ill typed at byte {offset}"),
            Error::BadTable { line, code } => write!(out, "line {line} is not a table's: {code}"),
            Error::TooLong { size } => write!(out, "a text of {size} bytes is longer than what is taken"),
            Error::NoRequest => NoRequest.fmt(out),
        }
    }
}

impl std::error::Error for Error {}

/// The refusal of bytes.
pub(crate) fn refused_bytes(answer: Answer) -> Error {
    match answer.status {
        status::FAULT => Error::Fault { offset: answer.offset, code: Code::of(answer.code) },
        _ => raw::mismatch(answer),
    }
}

/// The refusal of a call that is about fields; `path` says that of a line of the writes, or the one that was handed in.
pub(crate) fn refused_field(answer: Answer, path: impl FnOnce(usize) -> String) -> Error {
    let line = answer.offset;
    match answer.status {
        status::FIELD => Error::NoField { line, path: path(line) },
        status::WRITE => Error::BadWrite { line, path: path(line) },
        _ => refused(answer),
    }
}

/// The refusal of a call with a table.
pub(crate) fn refused(answer: Answer) -> Error {
    match answer.status {
        status::TABLE => Error::BadTable { line: answer.offset, code: TableCode::of(answer.code) },
        status::TYPE => Error::IllTyped { input: answer.context, offset: answer.offset },
        status::ROOM => Error::TooLong { size: answer.size },
        status::MEMORY => raw::out_of_memory(),
        _ => refused_bytes(answer),
    }
}
