//! The lines of C-21, and what a line wrapped when the next one unwraps it.

use super::unwraps::{self, relation, UNWRAP};
use super::{wraps, Counted};
use crate::payloads::Command;

#[derive(Clone, Debug, Default)]
pub struct Nests {
    /// The frame that the last line wrote, and its depth.
    written: Option<(usize, Vec<u8>)>,
}

impl Nests {
    /// Notes the line, if it is a good one, and its answer.
    pub fn note(&mut self, counted: &mut Counted, command: Option<&Command>, answer: &str) {
        let written = self.written.take();
        let head = super::head_of(answer);
        match command {
            Some(Command::Unwrap { subnet, frame }) => {
                unwraps::note(counted, *subnet, frame, &head);
                note_back(counted, written, *subnet, frame, &head);
            }
            Some(Command::Wrap { room, header, levels, inside }) => {
                wraps::note(counted, *room, levels, inside, &head);
                if head == "wrote" {
                    wraps::note_fields(counted, header, levels, inside);
                    self.written = super::written(answer).map(|frame| (levels.len(), frame));
                }
            }
            _ => (),
        }
    }
}

/// What the line before wrapped.
fn note_back(
    counted: &mut Counted,
    written: Option<(usize, Vec<u8>)>,
    ours: u8,
    frame: &[u8],
    head: &str,
) {
    if let Some((depth, _)) = written.filter(|(_, bytes)| bytes == frame) {
        counted.cases.count(back_case(depth, relation(ours, frame[2]), head));
    }
}

pub fn back_case(depth: usize, relation: &str, head: &str) -> String {
    format!("{UNWRAP}, wrapped before at depth {depth}, {relation}: {head}")
}
