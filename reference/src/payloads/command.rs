//! The lines of the program `payloads`.

use crate::encapsulation::{Header, Level, Message};
use crate::language::{byte, last_pairs, last_pairs_up_to, number, room, IMAGE_LIMIT};
use crate::shared::{Source, SOURCES};

/// One line that is well formed.
#[derive(Clone, Debug, PartialEq, Eq)]
pub enum Command {
    ReadDisplay { payload: Vec<u8> },
    WriteDisplay { room: usize, node_type: u8, text: Vec<u8> },
    ReadDiagnostics { payload: Vec<u8> },
    WriteDiagnostics { room: usize, node_type: u8, major: u8, minor: u8, text: Vec<u8> },
    Unwrap { subnet: u8, frame: Vec<u8> },
    Wrap { room: usize, header: Header, levels: Vec<Level>, inside: Inside },
    Image { source: Source, bytes: Vec<u8> },
    Store { sector: u8, record: Vec<u8> },
    Fetch { sector: u8 },
    WriteAnswer { room: usize, sector: u8 },
}

/// The message inside all levels of a line that wraps.
#[derive(Clone, Debug, PartialEq, Eq)]
pub struct Inside {
    pub message_type: u8,
    pub packet: u8,
    pub payload: Vec<u8>,
}

impl Inside {
    pub fn message(&self) -> Message<'_> {
        let Inside { message_type, packet, ref payload } = *self;
        Message { message_type, packet, payload }
    }
}

/// None if the words are none of the program's lines.
pub fn parse(words: &[&str]) -> Option<Command> {
    match *words {
        ["read-display", ref rest @ ..] => {
            Some(Command::ReadDisplay { payload: last_pairs(rest)? })
        }
        ["write-display", size, node_type, ref rest @ ..] => Some(Command::WriteDisplay {
            room: room(size)?,
            node_type: byte(node_type)?,
            text: last_pairs(rest)?,
        }),
        ["read-diagnostics", ref rest @ ..] => {
            Some(Command::ReadDiagnostics { payload: last_pairs(rest)? })
        }
        ["write-diagnostics", size, node_type, major, minor, ref rest @ ..] => {
            Some(Command::WriteDiagnostics {
                room: room(size)?,
                node_type: byte(node_type)?,
                major: byte(major)?,
                minor: byte(minor)?,
                text: last_pairs(rest)?,
            })
        }
        ["unwrap", subnet, ref rest @ ..] => {
            Some(Command::Unwrap { subnet: byte(subnet)?, frame: last_pairs(rest)? })
        }
        ["wrap", size, ref rest @ ..] => parse_wrap(room(size)?, rest),
        _ => parse_shared(words),
    }
}

/// The lines of C-16.
fn parse_shared(words: &[&str]) -> Option<Command> {
    match *words {
        ["image", name, ref rest @ ..] => {
            let source = SOURCES.into_iter().find(|source| source.name() == name)?;
            Some(Command::Image { source, bytes: last_pairs_up_to(rest, IMAGE_LIMIT)? })
        }
        ["store", sector, ref rest @ ..] => {
            Some(Command::Store { sector: byte(sector)?, record: last_pairs(rest)? })
        }
        ["fetch", sector] => Some(Command::Fetch { sector: byte(sector)? }),
        ["write-answer", size, sector] => {
            Some(Command::WriteAnswer { room: room(size)?, sector: byte(sector)? })
        }
        _ => None,
    }
}

/// C-21: the header of seven bytes, DEPTH, so many levels, the message inside.
fn parse_wrap(room: usize, words: &[&str]) -> Option<Command> {
    let (header, words) = bytes_of::<7>(words)?;
    let (depth, words) = words.split_first()?;
    let (levels, words) = parse_levels(number(depth)?, words)?;
    let ([message_type, packet], rest) = bytes_of(words)?;
    let inside = Inside { message_type, packet, payload: last_pairs(rest)? };
    Some(Command::Wrap { room, header: header_of(header), levels, inside })
}

/// Any depth that sixty-four bits hold is a number of the language; where a line
/// has not so many levels, it is the line that is bad.
fn parse_levels<'a, 'b>(
    depth: u64,
    mut words: &'a [&'b str],
) -> Option<(Vec<Level>, &'a [&'b str])> {
    let mut levels = Vec::new();
    for _ in 0..depth {
        let ([code, first, second, third, packet], rest) = bytes_of(words)?;
        levels.push(Level { code, operands: [first, second, third], packet });
        words = rest;
    }
    Some((levels, words))
}

/// N numbers of one byte each, and what follows them.
fn bytes_of<'a, 'b, const N: usize>(words: &'a [&'b str]) -> Option<([u8; N], &'a [&'b str])> {
    let (front, rest) = (words.get(..N)?, &words[N..]);
    let mut bytes = [0; N];
    for (place, word) in bytes.iter_mut().zip(front) {
        *place = byte(word)?;
    }
    Some((bytes, rest))
}

fn header_of(bytes: [u8; 7]) -> Header {
    let [destination, source, subnet, method, parameter1, parameter2, node_type] = bytes;
    Header { destination, source, subnet, method, parameter1, parameter2, node_type }
}
