//! The lines of C-21 that unwrap: each frame by its own faults, and by where the way
//! inside ends.

use super::texts::{case, row};
use super::walk::{lengths, walk, End};
use super::Counted;
use crate::checksum;
use crate::encapsulation::{ENCAPSULATION, FRONT};
use crate::frame::{ALL_SUBNETS, MAX_PAYLOAD, OVERHEAD, PAYLOAD_AT};
use std::cmp::Ordering;

pub const UNWRAP: &str = "unwrap";
/// How a frame's subnet stands to ours.
pub const RELATIONS: [&str; 3] = ["our subnet", "subnet 0", "another subnet"];
/// What can be wrong with a frame's length: 1, 2, 2, 3, 3.
pub const FRAME_FAULTS: [&str; 5] = [
    "a frame that is short",
    "a length above 240, as many bytes",
    "a length above 240, other bytes",
    "a frame longer than its length",
    "a frame shorter than its length",
];
/// What the numbers of a row are.
pub const FRAME_SIZE: &str = "frame of so many bytes";
pub const FRAME_LENGTH: &str = "frame's length";
pub const FRAME_SUBNET: &str = "subnet of the frame";
pub const SIZE: &str = "payload of so many bytes";
pub const LENGTH: &str = "length byte";
pub const FIFTH: &str = "fifth level of so many bytes";

/// Where a frame has its length.
const LENGTH_AT: usize = PAYLOAD_AT - 1;

pub fn note(counted: &mut Counted, ours: u8, frame: &[u8], head: &str) {
    counted.rows.count(row(UNWRAP, head, FRAME_SIZE), frame.len());
    if let Some(fault) = frame_fault(frame) {
        counted.cases.count(case(UNWRAP, &[fault], head));
        if let Some(length) = frame.get(LENGTH_AT) {
            counted.rows.count(row(UNWRAP, head, FRAME_LENGTH), (*length).into());
        }
        return;
    }
    let end = walk(frame[7], &frame[PAYLOAD_AT..frame.len() - 2]);
    let (good, relation) = (checksum::is_good(frame), relation(ours, frame[2]));
    counted.cases.count(unwrap_case(good, relation, &end.name(), head));
    if head == "refuse 24" {
        counted.rows.count(row(UNWRAP, head, FRAME_SUBNET), frame[2].into());
        counted.rows.count(row(UNWRAP, head, "SUBNET"), ours.into());
    }
    if good && relation != RELATIONS[2] {
        note_end(counted, &end, head);
        if frame[frame.len() - 2..].contains(&0) {
            counted.cases.count(format!("{UNWRAP}, a check byte 0: {head}"));
        }
    }
}

/// Check bytes, subnet, and what is inside.
pub fn unwrap_case(good: bool, relation: &str, end: &str, head: &str) -> String {
    let check = if good { "good" } else { "bad checksum" };
    case(UNWRAP, &[check, relation, end], head)
}

pub fn relation(ours: u8, subnet: u8) -> &'static str {
    match subnet {
        ALL_SUBNETS => RELATIONS[1],
        _ if subnet == ours => RELATIONS[0],
        _ => RELATIONS[2],
    }
}

/// 01: what 1, 2 and 3 are for.
fn frame_fault(frame: &[u8]) -> Option<&'static str> {
    if frame.len() < OVERHEAD {
        return Some(FRAME_FAULTS[0]);
    }
    let length = usize::from(frame[LENGTH_AT]);
    match frame.len().cmp(&(OVERHEAD + length)) {
        Ordering::Equal if length > MAX_PAYLOAD => Some(FRAME_FAULTS[1]),
        _ if length > MAX_PAYLOAD => Some(FRAME_FAULTS[2]),
        Ordering::Greater => Some(FRAME_FAULTS[3]),
        Ordering::Less => Some(FRAME_FAULTS[4]),
        Ordering::Equal => None,
    }
}

/// What is inside a frame that is taken.
fn note_end(counted: &mut Counted, end: &End<'_>, head: &str) {
    let name = end.name();
    match *end {
        End::Plain { message_type, payload, .. } => {
            counted.rows.count(inside_row(head, &name, SIZE), payload.len());
            counted.rows.count(inside_row(head, &name, "TYPE"), message_type.into());
        }
        End::BadInner { payload, .. } => note_bad(counted, &name, payload, head),
        End::TooDeep { payload, .. } => {
            counted.rows.count(row(UNWRAP, head, FIFTH), payload.len());
        }
    }
}

/// A payload that is not code, operands and one whole message.
fn note_bad(counted: &mut Counted, name: &str, payload: &[u8], head: &str) {
    match lengths(payload) {
        None => counted.rows.count(inside_row(head, name, SIZE), payload.len()),
        Some((length, size)) => {
            counted.rows.count(inside_row(head, name, LENGTH), length);
            if length.abs_diff(size) == 1 {
                counted.cases.count(format!("{UNWRAP}, {name} by one: {head}"));
            }
        }
    }
    if payload.get(FRONT) == Some(&ENCAPSULATION) {
        counted.cases.count(format!("{UNWRAP}, {name}, a level inside: {head}"));
    }
}

/// The row of what is met where the way inside ends.
pub fn inside_row(head: &str, end: &str, what: &str) -> String {
    row(UNWRAP, head, &format!("{end}, {what}"))
}
