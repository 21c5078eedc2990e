//! The two messages of C-22, as their generated scripts and the counts of these
//! see them.

use crate::display::{DISPLAY_TEXT, FAULT_TEXT};

/// A message: its lines, and the payload that they read and write.
#[derive(Debug, PartialEq, Eq)]
pub struct Form {
    pub reader: &'static str,
    pub writer: &'static str,
    /// The answer to a payload that is taken.
    pub taken: &'static str,
    /// What stands before the length byte, a byte each.
    pub fields: &'static [&'static str],
    /// The most bytes of text.
    pub most: usize,
}

pub const DISPLAY: Form = Form {
    reader: "read-display",
    writer: "write-display",
    taken: "display",
    fields: &["TYPE"],
    most: DISPLAY_TEXT,
};

pub const DIAGNOSTICS: Form = Form {
    reader: "read-diagnostics",
    writer: "write-diagnostics",
    taken: "diagnostics",
    fields: &["TYPE", "MAJOR", "MINOR"],
    most: FAULT_TEXT,
};

pub const FORMS: [&Form; 2] = [&DISPLAY, &DIAGNOSTICS];

impl Form {
    /// The size of the payload around a text of so many bytes.
    pub fn size(&self, text: usize) -> usize {
        self.fields.len() + 1 + text
    }

    /// The other one of the two.
    pub fn other(&self) -> &'static Form {
        if *self == DISPLAY {
            &DIAGNOSTICS
        } else {
            &DISPLAY
        }
    }
}

/// 003, 3.1: whether a byte may stand in a text. That the readers and writers
/// say the same is seen in what a comparison reaches.
pub fn is_good(byte: u8) -> bool {
    matches!(byte, b' '..=b'~')
}
