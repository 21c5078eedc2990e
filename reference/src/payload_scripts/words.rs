//! A line for `payloads` in words, before it is spelled.

use crate::language::{hex, HEX_LIMIT, IMAGE_LIMIT, ROOM_LIMIT};

/// The field that says how many levels follow it.
pub const DEPTH: &str = "DEPTH";

#[derive(Clone, Debug, PartialEq, Eq)]
pub enum Word {
    Name(&'static str),
    /// A number in a field that goes up to `most`.
    Number {
        field: &'static str,
        value: u64,
        most: u64,
    },
    /// HEX of up to so many bytes.
    Hex {
        bytes: Vec<u8>,
        most: usize,
    },
}

impl Word {
    /// A number of one byte.
    pub fn byte(field: &'static str, value: u8) -> Word {
        Word::Number { field, value: value.into(), most: 255 }
    }

    pub fn room(value: usize) -> Word {
        Word::Number { field: "ROOM", value: value as u64, most: ROOM_LIMIT }
    }

    /// How many levels follow.
    pub fn depth(value: usize) -> Word {
        Word::Number { field: DEPTH, value: value as u64, most: u64::MAX }
    }

    pub fn hex(bytes: Vec<u8>) -> Word {
        Word::Hex { bytes, most: HEX_LIMIT }
    }

    /// The bytes of an image.
    pub fn image(bytes: Vec<u8>) -> Word {
        Word::Hex { bytes, most: IMAGE_LIMIT }
    }

    fn spelled(&self) -> Option<String> {
        match self {
            Word::Name(name) => Some(name.to_string()),
            Word::Number { value, .. } => Some(value.to_string()),
            Word::Hex { bytes, .. } if bytes.is_empty() => None,
            Word::Hex { bytes, .. } => Some(hex(bytes)),
        }
    }
}

/// The words as they stand in the line; a HEX of no bytes is left out.
pub fn spelled(words: &[Word]) -> Vec<String> {
    words.iter().filter_map(Word::spelled).collect()
}

/// The text, without its line end, and under which name it is counted if there
/// is something odd about how it is spelled.
#[derive(Clone, Debug, PartialEq, Eq)]
pub struct Line {
    pub text: Vec<u8>,
    pub oddity: Option<String>,
}

impl Line {
    pub fn plain(text: impl Into<Vec<u8>>) -> Line {
        Line { text: text.into(), oddity: None }
    }

    pub fn odd(text: impl Into<Vec<u8>>, oddity: impl Into<String>) -> Line {
        Line { text: text.into(), oddity: Some(oddity.into()) }
    }

    pub fn of(words: &[Word]) -> Line {
        Line::plain(spelled(words).join(" "))
    }
}
