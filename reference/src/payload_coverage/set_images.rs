//! The lines of C-16 that set an image: each by its size and by what its slots have.

use super::slots::Slots;
use super::texts::{case, row};
use super::Counted;
use crate::shared::Source;

/// Images that look empty, whatever a free slot is.
pub const BLANKS: [(&str, u8); 2] = [("all 0", 0), ("all 255", 255)];
/// What the numbers of a row are.
pub const SIZE: &str = "so many bytes";
pub const USED: &str = "slots in use";
pub const LENGTH: &str = "length byte of a slot";
pub const FIRST_LENGTH: &str = "length byte of slot 1";
pub const LAST_LENGTH: &str = "length byte of slot 40";
pub const SECTOR: &str = "sector of a slot in use";

/// The line as its counts are named.
pub fn line(source: Source) -> String {
    format!("image {}", source.name())
}

pub fn note(counted: &mut Counted, source: Source, bytes: &[u8], head: &str) {
    let line = line(source);
    let mut count = |what: &str, number| counted.rows.count(row(&line, head, what), number);
    count(SIZE, bytes.len());
    let slots = match Slots::of(bytes) {
        Some(slots) => slots,
        None => return,
    };
    count(USED, slots.used().len());
    count(FIRST_LENGTH, slots.all()[0].length.into());
    count(LAST_LENGTH, slots.all()[39].length.into());
    for slot in slots.all() {
        count(LENGTH, slot.length.into());
        if slot.in_use() {
            count(SECTOR, slot.sector.into());
        }
    }
    counted.cases.count(case(&line, &[slots.kind()], head));
    for (name, value) in BLANKS {
        if bytes.iter().all(|&byte| byte == value) {
            counted.cases.count(case(&line, &[name], head));
        }
    }
}
