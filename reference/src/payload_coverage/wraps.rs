//! The lines of C-21 that wrap: each depth, length, room and fault under the name by
//! which it is counted.

use super::rooms::standing;
use super::texts::{case, holding, row};
use super::unwraps::SIZE;
use super::Counted;
use crate::encapsulation::{Header, Level, ENCAPSULATION, LEVEL, MOST_LEVELS};
use crate::frame::{MAX_PAYLOAD, OVERHEAD};
use crate::payload_scripts::{HEADER_FIELDS, INSIDE_FIELDS, LEVEL_FIELDS};
use crate::payloads::Inside;

pub const WRAP: &str = "wrap";
/// What can be wrong with what is to be wrapped, at any depth: 31, 10, 11.
pub const WRAP_FAULTS: [&str; 3] = ["a level inside", "payload above 240", "no room"];
/// What the numbers of a row are.
pub const OUTERMOST: &str = "outermost payload of so many bytes";

/// Notes what is to be wrapped, by its faults first.
pub fn note(counted: &mut Counted, room: usize, levels: &[Level], inside: &Inside, head: &str) {
    let (depth, size) = (levels.len(), inside.payload.len());
    let outermost = LEVEL * depth + size;
    let due = OVERHEAD + outermost;
    let level_inside = inside.message_type == ENCAPSULATION;
    let faults = [level_inside, outermost > MAX_PAYLOAD, room < due];
    counted.cases.count(wrap_case(depth, &holding(&faults, &WRAP_FAULTS), head));
    if depth > MOST_LEVELS || level_inside {
        counted.rows.count(row(WRAP, head, "DEPTH"), depth);
        return;
    }
    counted.rows.count(depth_row(head, depth, OUTERMOST), outermost);
    if head == "wrote" {
        counted.rows.count(depth_row(head, depth, SIZE), size);
        counted.rows.count(depth_row(head, depth, "TYPE"), inside.message_type.into());
    }
    note_room(counted, depth, room, due, head);
}

/// The row of what is wrapped at this depth.
pub fn depth_row(head: &str, depth: usize, what: &str) -> String {
    row(WRAP, head, &format!("depth {depth}, {what}"))
}

/// How the room stands to what is due.
fn note_room(counted: &mut Counted, depth: usize, room: usize, due: usize, head: &str) {
    counted.rows.count(row(WRAP, head, "ROOM"), room);
    if let Some(standing) = standing(room, due) {
        counted.cases.count(room_case(depth, standing, head));
        counted.rows.count(row(WRAP, head, standing), due);
    }
}

pub fn room_case(depth: usize, standing: &str, head: &str) -> String {
    format!("{WRAP}, depth {depth}, {standing}: {head}")
}

pub fn wrap_case(depth: usize, faults: &[&str], head: &str) -> String {
    let depth = match depth {
        0..=6 => depth.to_string(),
        _ => "above 6".to_string(),
    };
    case(&format!("{WRAP} at depth {depth}"), faults, head)
}

/// Notes the numbers of a line that is written.
pub fn note_fields(counted: &mut Counted, header: &Header, levels: &[Level], inside: &Inside) {
    let Header { destination, source, subnet, method, .. } = *header;
    let Header { parameter1, parameter2, node_type, .. } = *header;
    let values = [destination, source, subnet, method, parameter1, parameter2, node_type];
    note_bytes(counted, &HEADER_FIELDS, &values);
    for Level { code, operands: [first, second, third], packet } in levels {
        note_bytes(counted, &LEVEL_FIELDS, &[*code, *first, *second, *third, *packet]);
    }
    note_bytes(counted, &INSIDE_FIELDS, &[inside.message_type, inside.packet]);
}

fn note_bytes(counted: &mut Counted, fields: &[&str], values: &[u8]) {
    for (field, &value) in fields.iter().zip(values) {
        counted.rows.count(row(WRAP, "wrote", field), value.into());
    }
}
