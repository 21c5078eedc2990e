//! What the scripts for `payloads` have to reach of C-21, all of them together:
//! every length at every depth and level. The bytes of a level that no rule looks at
//! have every value somewhere, but not at each level.

use super::nests::back_case;
use super::rooms::{EXACT, MOST_ROOM, NO_ROOM, ONE_LESS, ONE_MORE};
use super::texts::{case, holding, row};
use super::unwraps::{inside_row, unwrap_case, FIFTH, FRAME_FAULTS, RELATIONS, UNWRAP};
use super::unwraps::{FRAME_LENGTH, FRAME_SIZE, FRAME_SUBNET, LENGTH, SIZE};
use super::walk::{bad_name, deep_name, plain_name, Cause, Fifth, CAUSES};
use super::wraps::{depth_row, room_case, wrap_case, OUTERMOST, WRAP, WRAP_FAULTS};
use crate::encapsulation::{ENCAPSULATION, LEVEL, MOST_LEVELS};
use crate::frame::{MAX_PAYLOAD, OVERHEAD};
use crate::payload_scripts::{HEADER_FIELDS, INSIDE_FIELDS, LEVEL_FIELDS};
use crate::rows::Row;

/// The most bytes of a message inside so many levels.
fn most(levels: usize) -> usize {
    MAX_PAYLOAD - LEVEL * levels
}

pub fn cases() -> Vec<String> {
    let mut cases = ends();
    let refusals = ["refuse 1", "refuse 2", "refuse 2", "refuse 3", "refuse 3"];
    let told = FRAME_FAULTS.iter().zip(refusals);
    cases.extend(told.map(|(fault, head)| case(UNWRAP, &[fault], head)));
    cases.push(format!("{UNWRAP}, a check byte 0: plain"));
    for level in 1..=MOST_LEVELS {
        cases.extend(bad_at(level));
    }
    for depth in 0..=MOST_LEVELS {
        let told = RELATIONS.iter().zip(["plain", "plain", "refuse 24"]);
        cases.extend(told.map(|(relation, head)| back_case(depth, relation, head)));
        cases.extend(rooms_of(depth));
    }
    cases.extend(faults());
    cases
}

/// At this level every cause of 30 where the message inside would be a level too,
/// and a length byte that is wrong by one.
fn bad_at(level: usize) -> Vec<String> {
    let mut cases = Vec::new();
    for name in CAUSES.map(|cause| bad_name(level, cause)) {
        cases.push(format!("{UNWRAP}, {name}, a level inside: refuse 30"));
    }
    for name in [Cause::LongLength, Cause::ShortLength].map(|cause| bad_name(level, cause)) {
        cases.push(format!("{UNWRAP}, {name} by one: refuse 30"));
    }
    cases
}

/// Each end of the way inside, with good check bytes and with bad ones, under each
/// subnet: the frame's own faults are told before what is inside.
fn ends() -> Vec<String> {
    let mut ends: Vec<(String, &str)> = Vec::new();
    ends.extend((0..=MOST_LEVELS).map(|depth| (plain_name(depth), "plain")));
    for level in 1..=MOST_LEVELS {
        ends.extend(CAUSES.iter().map(|cause| (bad_name(level, *cause), "refuse 30")));
    }
    let whole = [Fifth::WithPlain, Fifth::WithSixth];
    let fifths = CAUSES.iter().map(|cause| Fifth::Bad(*cause)).chain(whole);
    ends.extend(fifths.map(|fifth| (deep_name(fifth), "refuse 31")));
    let mut cases = Vec::new();
    for (end, inside) in ends {
        for (good, relation) in product(&[true, false], &RELATIONS) {
            let head = match (good, relation) {
                (false, _) => "refuse 4",
                (true, relation) if relation == RELATIONS[2] => "refuse 24",
                _ => inside,
            };
            cases.push(unwrap_case(good, relation, &end, head));
        }
    }
    cases
}

fn product<A: Copy, B: Copy>(first: &[A], second: &[B]) -> Vec<(A, B)> {
    first.iter().flat_map(|a| second.iter().map(|b| (*a, *b))).collect()
}

/// At each depth every way in which a room can stand to what is due.
fn rooms_of(depth: usize) -> Vec<String> {
    let rooms = [
        (ONE_LESS, "refuse 11"),
        (NO_ROOM, "refuse 11"),
        (EXACT, "wrote"),
        (ONE_MORE, "wrote"),
        (MOST_ROOM, "wrote"),
        (ONE_LESS, "refuse 10"),
        (EXACT, "refuse 10"),
    ];
    rooms.map(|(room, head)| room_case(depth, room, head)).to_vec()
}

/// Whatever is wrong at once, the first in order is told: 31, 10, 11.
fn faults() -> Vec<String> {
    let mut cases = Vec::new();
    for (depth, mask) in product(&[0, 1, 2, 3, 4, 5, 6, 7], &[0, 1, 2, 3, 4, 5, 6, 7]) {
        let holds = [mask & 1 != 0, mask & 2 != 0, mask & 4 != 0];
        let head = match holds {
            _ if depth > MOST_LEVELS => "refuse 31",
            [true, ..] => "refuse 31",
            [_, true, _] => "refuse 10",
            [_, _, true] => "refuse 11",
            _ => "wrote",
        };
        cases.push(wrap_case(depth, &holding(&holds, &WRAP_FAULTS), head));
    }
    cases
}

pub fn rows() -> Vec<Row> {
    let mut rows = frames();
    for depth in 0..=MOST_LEVELS {
        rows.extend(plain_inside(depth));
        rows.extend(wrapped_at(depth));
    }
    for level in 1..=MOST_LEVELS {
        rows.extend(bad_inside(level));
    }
    rows.push(Row::new(row(UNWRAP, "refuse 31", FIFTH), 0..=most(MOST_LEVELS)));
    rows.extend(wrapped());
    rows
}

/// Every size of a frame that is refused for itself, and the lengths and subnets
/// that are.
fn frames() -> Vec<Row> {
    let (size, longest) = (FRAME_SIZE, OVERHEAD + MAX_PAYLOAD);
    vec![
        Row::new(row(UNWRAP, "refuse 1", size), 0..OVERHEAD),
        Row::new(row(UNWRAP, "refuse 2", FRAME_LENGTH), MAX_PAYLOAD + 1..=255),
        Row::new(row(UNWRAP, "refuse 3", size), OVERHEAD..=longest + 1),
        Row::new(row(UNWRAP, "refuse 3", FRAME_LENGTH), 0..=MAX_PAYLOAD),
        Row::new(row(UNWRAP, "refuse 4", size), OVERHEAD..=longest),
        Row::new(row(UNWRAP, "refuse 24", size), OVERHEAD..=longest),
        Row::new(row(UNWRAP, "refuse 24", FRAME_SUBNET), 1..=255),
        Row::new(row(UNWRAP, "refuse 24", "SUBNET"), 0..=255),
        Row::new(row(UNWRAP, "plain", size), OVERHEAD..=longest),
    ]
}

/// Every type but that of a level.
fn plain_types() -> impl Iterator<Item = usize> {
    (0..=255).filter(|&message_type| message_type != usize::from(ENCAPSULATION))
}

/// Every length and type of a plain message at this depth.
fn plain_inside(depth: usize) -> Vec<Row> {
    let named = |what: &str| inside_row("plain", &plain_name(depth), what);
    vec![Row::new(named(SIZE), 0..=most(depth)), Row::new(named("TYPE"), plain_types())]
}

/// Too few bytes at this level by one to seven, and every length byte that is too
/// large, and that is too small.
fn bad_inside(level: usize) -> Vec<Row> {
    let named = |cause: Cause, what: &str| inside_row("refuse 30", &bad_name(level, cause), what);
    vec![
        Row::new(named(Cause::FewBytes, SIZE), 0..LEVEL),
        Row::new(named(Cause::LongLength, LENGTH), 1..=255),
        Row::new(named(Cause::ShortLength, LENGTH), 0..most(level)),
    ]
}

/// Every length and type of a message wrapped at this depth, and the lengths above.
fn wrapped_at(depth: usize) -> Vec<Row> {
    let named = |head: &str, what: &str| depth_row(head, depth, what);
    let above = MAX_PAYLOAD + 1..=MAX_PAYLOAD + 30;
    vec![
        Row::new(named("wrote", SIZE), 0..=most(depth)),
        Row::new(named("wrote", "TYPE"), plain_types()),
        Row::new(named("refuse 10", OUTERMOST), above),
    ]
}

/// Every room that is too small, every frame with room to the byte and with a byte
/// less, the depths that are too many, and every value of the bytes that are not
/// examined.
fn wrapped() -> Vec<Row> {
    let longest = OVERHEAD + MAX_PAYLOAD;
    let mut rows = vec![
        Row::new(row(WRAP, "refuse 11", "ROOM"), 0..longest),
        Row::new(row(WRAP, "refuse 11", ONE_LESS), OVERHEAD..=longest),
        Row::new(row(WRAP, "wrote", EXACT), OVERHEAD..=longest),
        Row::new(row(WRAP, "wrote", ONE_MORE), OVERHEAD..=longest),
        Row::new(row(WRAP, "refuse 31", "DEPTH"), (0..=12).chain(256..=260)),
    ];
    let fields = HEADER_FIELDS.iter().chain(&LEVEL_FIELDS).chain(&INSIDE_FIELDS[1..]);
    rows.extend(fields.map(|field| Row::new(row(WRAP, "wrote", field), 0..=255)));
    rows
}
