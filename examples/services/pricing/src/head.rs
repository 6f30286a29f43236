//! The head of a message of HTTP, with limits of length, of lines and of time: strangers may connect.

use std::io::{self, Read};
use std::net::TcpStream;
use std::time::{Duration, Instant};

const BYTES_MAX: usize = 65_536;
const LINES_MAX: usize = 100;

/// The names and values of the headers of a message.
pub struct Head(Vec<(String, Vec<u8>)>);

/// What came of a head.
pub enum Arrival {
    Came(Head),
    /// It is too long, or isn't made of headers.
    Refused,
}

impl Head {
    /// Reads the head of a message, up to its empty line, before that time.
    pub fn read(mut from: &TcpStream, until: Instant) -> io::Result<Arrival> {
        let (mut bytes, mut part) = (Vec::new(), [0; 4096]);
        while bytes.len() < BYTES_MAX {
            waits(from, until)?;
            let count = from.read(&mut part)?;
            if count == 0 {
                return Err(io::ErrorKind::UnexpectedEof.into());
            }
            let searched = bytes.len().saturating_sub(3);
            bytes.extend_from_slice(&part[..count]);
            if let Some(end) = bytes[searched..].windows(4).position(|four| four == b"\r\n\r\n") {
                return Ok(Head::of(&bytes[..searched + end]).map_or(Arrival::Refused, Arrival::Came));
            }
        }
        Ok(Arrival::Refused)
    }

    /// The headers of a head, where it has no line that is none, and not too many.
    fn of(bytes: &[u8]) -> Option<Head> {
        let text = String::from_utf8_lossy(bytes);
        let lines: Vec<&str> = text.split("\r\n").skip(1).collect();
        if lines.len() > LINES_MAX {
            return None;
        }
        lines.into_iter().map(header_of).collect::<Option<_>>().map(Head)
    }

    /// The values of a header, one for each line that has it.
    pub fn values<'a>(&'a self, name: &'a str) -> impl Iterator<Item = &'a [u8]> {
        self.0.iter().filter(move |(other, _)| other.eq_ignore_ascii_case(name)).map(|(_, value)| value.as_slice())
    }
}

/// A line's name and value. A name has no blanks, so a line that goes on with the one before it is no header.
fn header_of(line: &str) -> Option<(String, Vec<u8>)> {
    let (name, value) = line.split_once(':')?;
    let is_name = !name.is_empty() && name.bytes().all(|byte| byte.is_ascii_graphic());
    is_name.then(|| (name.to_string(), value.trim_matches([' ', '\t']).as_bytes().to_vec()))
}

/// Lets the next reading wait until that time; an error where it has come.
pub fn waits(connection: &TcpStream, until: Instant) -> io::Result<()> {
    let left = until.saturating_duration_since(Instant::now());
    if left < Duration::from_millis(1) {
        return Err(io::ErrorKind::TimedOut.into());
    }
    connection.set_read_timeout(Some(left))
}
