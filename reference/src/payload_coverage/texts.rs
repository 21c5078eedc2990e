//! The lines of C-22: each length, byte, room and fault under the name by which
//! it is counted.

use super::Counted;
use crate::forms::{is_good, Form, DIAGNOSTICS, DISPLAY};
use crate::payloads::Command;

/// The places that a byte can have in a text.
pub const PLACES: [&str; 4] = ["only", "first", "middle", "last"];
/// What can be wrong with a payload that has its fixed bytes, and with what is to
/// be written; 32 is for the first two of the one and for the first of the other.
pub const READ_FAULTS: [&str; 3] = ["lengths differ", "length above the maximum", "bad text"];
pub const WRITE_FAULTS: [&str; 3] = ["length above the maximum", "bad text", "no room"];

/// A row is named by line, answer and what its numbers are.
pub fn row(line: &str, head: &str, what: &str) -> String {
    format!("{line}: {head}, {what}")
}

/// The faults of which these hold, and the answer.
pub fn case(line: &str, faults: &[&str], head: &str) -> String {
    let faults = if faults.is_empty() { "all is right".to_string() } else { faults.join(", ") };
    format!("{line}, {faults}: {head}")
}

/// How the text's length stands to its length byte.
pub fn relation(length: usize, text: usize) -> &'static str {
    match text {
        _ if text == length => "text as long as its length byte",
        _ if text == length + 1 => "text a byte longer than its length byte",
        _ if text + 1 == length => "text a byte shorter than its length byte",
        _ if text == length + 256 => "text 256 bytes longer than its length byte",
        _ => "text of another length than its length byte",
    }
}

/// What was written by the last line.
#[derive(Clone, Debug)]
struct Written {
    form: &'static Form,
    payload: Vec<u8>,
}

#[derive(Clone, Debug, Default)]
pub struct Texts {
    written: Option<Written>,
}

/// A line that writes, in parts.
struct Write<'a> {
    form: &'static Form,
    room: usize,
    fixed: &'a [u8],
    text: &'a [u8],
}

impl Texts {
    /// Notes the line, if it is a good one, and its answer.
    pub fn note(&mut self, counted: &mut Counted, command: Option<&Command>, head: &str) {
        let written = self.written.take();
        match command {
            Some(Command::ReadDisplay { payload }) => {
                note_read(counted, &DISPLAY, payload, head);
                note_read_back(counted, written, &DISPLAY, payload, head);
            }
            Some(Command::ReadDiagnostics { payload }) => {
                note_read(counted, &DIAGNOSTICS, payload, head);
                note_clearing(counted, DIAGNOSTICS.reader, payload, head);
                note_read_back(counted, written, &DIAGNOSTICS, payload, head);
            }
            Some(Command::WriteDisplay { room, node_type, text }) => {
                let write = Write { form: &DISPLAY, room: *room, fixed: &[*node_type], text };
                self.note_write(counted, &write, head);
            }
            Some(Command::WriteDiagnostics { room, node_type, major, minor, text }) => {
                let fixed = &[*node_type, *major, *minor];
                let write = Write { form: &DIAGNOSTICS, room: *room, fixed, text };
                self.note_write(counted, &write, head);
            }
            _ => (),
        }
    }

    fn note_write(&mut self, counted: &mut Counted, write: &Write<'_>, head: &str) {
        let Write { form, room, fixed, text } = *write;
        let payload = [fixed, &[text.len() as u8], text].concat();
        let (long, narrow) = (text.len() > form.most, room < payload.len());
        let bad = !text.iter().all(|&byte| is_good(byte));
        let faults = holding(&[long, bad, narrow], &WRITE_FAULTS);
        counted.cases.count(case(form.writer, &faults, head));
        if !bad && !narrow {
            counted.rows.count(row(form.writer, head, "text of so many bytes"), text.len());
        }
        if !long && !bad {
            counted.rows.count(row(form.writer, head, &room_row(text.len())), room);
        }
        if !long && !narrow {
            note_text(counted, form.writer, text, head);
        }
        if text.len() == 1024 {
            counted.cases.count(format!("{}, a text of 1,024 bytes: {head}", form.writer));
        }
        if head == "wrote" {
            note_fixed(counted, form, form.writer, fixed, head);
            note_clearing(counted, form.writer, &payload, head);
            self.written = Some(Written { form, payload });
        }
    }
}

/// The row of the rooms that are lent for a text of so many bytes.
pub fn room_row(text: usize) -> String {
    format!("room for a text of {text}")
}

/// Those of the names whose condition holds.
pub fn holding<'a>(conditions: &[bool], names: &[&'a str]) -> Vec<&'a str> {
    conditions.iter().zip(names).filter(|(holds, _)| **holds).map(|(_, name)| *name).collect()
}

fn note_read(counted: &mut Counted, form: &Form, payload: &[u8], head: &str) {
    let reader = form.reader;
    counted.rows.count(row(reader, head, "payload of so many bytes"), payload.len());
    if payload.len() == 1024 {
        counted.cases.count(format!("{reader}, a payload of 1,024 bytes: {head}"));
    }
    let (fixed, length, text) = match apart(form, payload) {
        Some(parts) => parts,
        None => {
            let what = "payload without its fixed bytes, of so many";
            counted.rows.count(row(reader, head, what), payload.len());
            return;
        }
    };
    let (differ, long) = (length != text.len(), length > form.most);
    let bad = !text.iter().all(|&byte| is_good(byte));
    let faults = holding(&[differ, long, bad], &READ_FAULTS);
    counted.cases.count(case(reader, &faults, head));
    if !bad {
        counted.rows.count(row(reader, head, relation(length, text.len())), length);
    }
    if !differ && !long {
        note_text(counted, reader, text, head);
    }
    if head == form.taken {
        note_fixed(counted, form, reader, fixed, head);
    }
}

/// The fixed bytes, the length byte and what follows it.
fn apart<'a>(form: &Form, payload: &'a [u8]) -> Option<(&'a [u8], usize, &'a [u8])> {
    let at = form.fields.len();
    let length = *payload.get(at)?;
    Some((&payload[..at], usize::from(length), &payload[at + 1..]))
}

/// The bytes of a text in which nothing else is wrong: all of them if it is
/// taken, else the bad one, if there is only one.
fn note_text(counted: &mut Counted, line: &str, text: &[u8], head: &str) {
    let bad: Vec<usize> = (0..text.len()).filter(|&at| !is_good(text[at])).collect();
    match bad[..] {
        [] => {
            for (at, &byte) in text.iter().enumerate() {
                counted.rows.count(row(line, head, byte_row(at, text.len())), byte.into());
            }
        }
        [at] => {
            counted.rows.count(row(line, head, byte_row(at, text.len())), text[at].into());
            counted.rows.count(row(line, head, "place of the bad byte"), at);
        }
        _ => counted.cases.count(format!("{line}, several bad bytes: {head}")),
    }
}

/// The row of the bytes in this place of a text of so many.
fn byte_row(at: usize, size: usize) -> &'static str {
    match at {
        _ if size == 1 => "only byte",
        0 => "first byte",
        _ if at + 1 == size => "last byte",
        _ => "middle byte",
    }
}

fn note_fixed(counted: &mut Counted, form: &Form, line: &str, fixed: &[u8], head: &str) {
    for (field, &value) in form.fields.iter().zip(fixed) {
        counted.rows.count(row(line, head, field), value.into());
    }
}

/// 003, Table 12: codes 0 and no text clear a fault; with a text they are a fault
/// like any other.
fn note_clearing(counted: &mut Counted, line: &str, payload: &[u8], head: &str) {
    match payload {
        [_, 0, 0, 0] => counted.cases.count(format!("{line}, the clearing message: {head}")),
        [_, 0, 0, _, _, ..] => {
            counted.cases.count(format!("{line}, codes 0 with a text: {head}"));
        }
        _ => (),
    }
}

/// What the line before wrote, given to its own reader or to the other.
fn note_read_back(
    counted: &mut Counted,
    written: Option<Written>,
    form: &Form,
    payload: &[u8],
    head: &str,
) {
    let written = match written {
        Some(written) if written.payload == payload => written,
        _ => return,
    };
    if written.form == form {
        let size = payload.len() - form.size(0);
        counted.rows.count(row(form.reader, head, "written before, text of so many"), size);
    } else {
        let case = format!("{}, written by {}: {head}", form.reader, written.form.writer);
        counted.cases.count(case);
    }
}
