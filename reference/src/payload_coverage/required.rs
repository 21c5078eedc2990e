//! What the scripts for `payloads` have to reach, all of them together.

use super::asked::{FETCH, WRITE_ANSWER};
use super::stores::STORE;
use super::texts::{case, holding, relation, room_row, row};
use super::texts::{PLACES, READ_FAULTS, WRITE_FAULTS};
use super::unwraps::UNWRAP;
use super::wraps::WRAP;
use super::{required_nests, required_shared};
use crate::forms::{is_good, Form, DIAGNOSTICS, FORMS};
use crate::frame::MAX_PAYLOAD;
use crate::payload_scripts::{Oddity, OF_HEX, OF_LEVELS, OF_LINES, OF_NUMBERS};
use crate::payload_scripts::{CUT, ENDS_AT_LIMIT, FEED_AT_LIMIT, OPEN_END};
use crate::payload_scripts::{DEPTH, HEADER_FIELDS, IMAGE_LINE, INSIDE_FIELDS, LEVEL_FIELDS};
use crate::rows::Row;

fn texts(names: &[&str]) -> Vec<String> {
    names.iter().map(|name| name.to_string()).collect()
}

pub fn answers() -> Vec<String> {
    texts(&[
        "display",
        "diagnostics",
        "plain",
        "wrote",
        "image",
        "stored",
        "network",
        "factory",
        "none",
        "refuse 1",
        "refuse 2",
        "refuse 3",
        "refuse 4",
        "refuse 10",
        "refuse 11",
        "refuse 22",
        "refuse 24",
        "refuse 26",
        "refuse 27",
        "refuse 30",
        "refuse 31",
        "refuse 32",
        "refuse 33",
        "bad line",
        "passed over, an empty line",
        "passed over, a comment",
    ])
}

pub fn cases() -> Vec<String> {
    let mut cases = texts(&["a line past the limit"]);
    cases.push(format!("{CUT}: display"));
    cases.push(format!("{CUT}: bad line"));
    for name in [ENDS_AT_LIMIT, FEED_AT_LIMIT, OPEN_END] {
        cases.push(format!("{name}: display"));
    }
    for form in FORMS {
        let fields = [&["ROOM"], form.fields].concat();
        cases.extend(oddities(form.reader, &[], form.taken, Some("refuse 32")));
        cases.extend(oddities(form.writer, &fields, "wrote", Some("refuse 32")));
        cases.extend(faults(form));
        cases.push(format!("{}, a payload of 1,024 bytes: refuse 32", form.reader));
        cases.push(format!("{}, a text of 1,024 bytes: refuse 32", form.writer));
        for line in [form.reader, form.writer] {
            cases.push(format!("{line}, several bad bytes: refuse 33"));
        }
    }
    cases.extend(clearing());
    cases.push("read-diagnostics, written by write-display: refuse 32".to_string());
    cases.push("read-display, written by write-diagnostics: refuse 32".to_string());
    cases.push("read-display, written by write-diagnostics: refuse 33".to_string());
    cases.extend(oddities(UNWRAP, &["SUBNET"], "plain", Some("refuse 3")));
    let fields = [&["ROOM"], &HEADER_FIELDS[..], &[DEPTH], &LEVEL_FIELDS, &INSIDE_FIELDS];
    cases.extend(oddities(WRAP, &fields.concat(), "wrote", Some("refuse 10")));
    cases.extend(OF_LEVELS.iter().map(|odd| odd_case(*odd, WRAP, "", "")));
    cases.extend(required_nests::cases());
    cases.extend(oddities(IMAGE_LINE, &[], "image", Some("image")));
    let of_images = [Oddity::MissingWords, Oddity::OtherImage];
    cases.extend(of_images.map(|odd| odd_case(odd, IMAGE_LINE, "", "")));
    cases.extend(oddities(STORE, &["SECTOR"], "stored", Some("refuse 26")));
    cases.extend(oddities(FETCH, &["SECTOR"], "network", None));
    cases.extend(oddities(WRITE_ANSWER, &["ROOM", "SECTOR"], "wrote", None));
    cases.extend(required_shared::cases());
    cases
}

/// Every way to spell a line otherwise, in this line, with the answer to those that
/// are good and, where it has HEX, to those with the most bytes.
fn oddities(line: &str, fields: &[&str], taken: &str, most: Option<&str>) -> Vec<String> {
    let mut all = OF_LINES.to_vec();
    all.push(Oddity::OtherName);
    if most.is_some() {
        all.extend(OF_HEX);
    }
    if !fields.is_empty() {
        all.push(Oddity::MissingWords);
    }
    let most = most.unwrap_or_default();
    let mut cases: Vec<String> =
        all.into_iter().map(|odd| odd_case(odd, line, taken, most)).collect();
    for field in fields {
        let place = format!("{line}, {field}");
        cases.extend(OF_NUMBERS.iter().map(|odd| odd_case(*odd, &place, taken, most)));
    }
    cases
}

fn odd_case(oddity: Oddity, place: &str, taken: &str, most: &str) -> String {
    let answer = match oddity {
        _ if oddity.is_bad() => "bad line",
        Oddity::MostBytes => most,
        _ => taken,
    };
    format!("{}: {answer}", oddity.named(place))
}

/// Whatever is wrong at once, the first in order is told: 32, 33, 11.
fn faults(form: &Form) -> Vec<String> {
    let mut cases = Vec::new();
    for mask in 0..8 {
        let holds = [mask & 1 != 0, mask & 2 != 0, mask & 4 != 0];
        let answer = match holds {
            [true, ..] | [_, true, _] => "refuse 32",
            [_, _, true] => "refuse 33",
            _ => form.taken,
        };
        cases.push(case(form.reader, &holding(&holds, &READ_FAULTS), answer));
        let answer = match holds {
            [true, ..] => "refuse 32",
            [_, true, _] => "refuse 33",
            [_, _, true] => "refuse 11",
            _ => "wrote",
        };
        cases.push(case(form.writer, &holding(&holds, &WRITE_FAULTS), answer));
    }
    cases
}

/// 003, Table 12, and what is not it.
fn clearing() -> Vec<String> {
    let mut cases = Vec::new();
    for (line, taken) in [(DIAGNOSTICS.reader, "diagnostics"), (DIAGNOSTICS.writer, "wrote")] {
        cases.push(format!("{line}, the clearing message: {taken}"));
        cases.push(format!("{line}, codes 0 with a text: {taken}"));
    }
    cases
}

pub fn rows() -> Vec<Row> {
    let mut rows = Vec::new();
    for form in FORMS {
        rows.extend(sizes_read(form));
        rows.extend(lengths_read(form));
        rows.extend(bytes(form, form.reader, form.taken));
        rows.extend(lengths_written(form));
        rows.extend(rooms(form));
        rows.extend(bytes(form, form.writer, "wrote"));
    }
    rows.extend(required_nests::rows());
    rows.extend(required_shared::rows());
    rows
}

/// Every payload up to a frame's longest, and some beyond.
fn sizes_read(form: &Form) -> Vec<Row> {
    let (reader, taken) = (form.reader, form.size(0)..=form.size(form.most));
    let cut = "payload without its fixed bytes, of so many";
    let any = "payload of so many bytes";
    vec![
        Row::new(row(reader, "refuse 32", cut), 0..form.size(0)),
        Row::new(row(reader, "refuse 32", any), (0..=MAX_PAYLOAD + 1).chain([255, 256, 257])),
        Row::new(row(reader, "refuse 33", any), form.size(1)..=form.size(form.most)),
        Row::new(row(reader, form.taken, any), taken),
    ]
}

/// Every length byte, with a text as long and with others.
fn lengths_read(form: &Form) -> Vec<Row> {
    let refused =
        |length: usize, text: usize| row(form.reader, "refuse 32", relation(length, text));
    vec![
        Row::new(row(form.reader, form.taken, relation(0, 0)), 0..=form.most),
        Row::new(refused(0, 0), form.most + 1..=255),
        Row::new(refused(0, 1), 0..=255),
        Row::new(refused(1, 0), 1..=255),
        Row::new(refused(0, 256), 0..=255),
        Row::new(refused(0, 9), 0..=255),
        Row::new(row(form.reader, form.taken, "written before, text of so many"), 0..=form.most),
    ]
}

/// Every length that fits, each above it up to a frame's longest, and those of
/// which a byte would tell the same.
fn lengths_written(form: &Form) -> Vec<Row> {
    let what = "text of so many bytes";
    let above = (form.most + 1..=MAX_PAYLOAD).chain(256..=256 + form.most);
    vec![
        Row::new(row(form.writer, "wrote", what), 0..=form.most),
        Row::new(row(form.writer, "refuse 32", what), above),
    ]
}

/// For each text every room from none to one byte more than it needs.
fn rooms(form: &Form) -> Vec<Row> {
    let mut rows = Vec::new();
    for text in 0..=form.most {
        let (need, what) = (form.size(text), room_row(text));
        rows.push(Row::new(row(form.writer, "refuse 11", &what), 0..need));
        rows.push(Row::new(row(form.writer, "wrote", &what), [need, need + 1, 1024]));
    }
    rows
}

/// Every byte in every kind of place, every place of a bad one, and every value
/// of the bytes that are not examined.
fn bytes(form: &Form, line: &str, taken: &str) -> Vec<Row> {
    let (good, bad): (Vec<usize>, Vec<usize>) = (0..256).partition(|&byte| is_good(byte as u8));
    let mut rows = Vec::new();
    for place in PLACES {
        let what = format!("{place} byte");
        rows.push(Row::new(row(line, taken, &what), good.clone()));
        rows.push(Row::new(row(line, "refuse 33", &what), bad.clone()));
    }
    rows.push(Row::new(row(line, "refuse 33", "place of the bad byte"), 0..form.most));
    for field in form.fields {
        rows.push(Row::new(row(line, taken, field), 0..=255));
    }
    rows
}
