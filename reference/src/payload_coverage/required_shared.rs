//! What the scripts for `payloads` have to reach of C-16, all of them together: every
//! sector, slot and length, and images of every kind.

use super::asked::{ask_case, ask_row, in_vain, ASK_FAULTS, FETCH, WRITE_ANSWER};
use super::asked::{BEHIND_IDLE, IDLE, IDLE_LENGTH, OF_SEVERAL, SPARED, STORED};
use super::asked::{FROM, FROM_NEITHER, IN_BOTH, IN_FACTORY, IN_NEITHER, IN_NETWORK};
use super::rooms::{EXACT, MOST_ROOM, NO_ROOM, ONE_LESS, ONE_MORE};
use super::set_images::{self, BLANKS};
use super::slots::{IMAGE_SIZE, KINDS};
use super::stores::{self, store_row, NEW, OWN, RECORD, STORE, STORE_FAULTS};
use super::texts::{case, holding, row};
use crate::rows::Row;
use crate::shared::SOURCES;

/// Sizes that an image should not have: none, a byte, a slot, a byte less and more
/// than it should, a slot more, two images, the most that a line takes.
const OTHER_SIZES: [usize; 8] = [0, 1, 202, 8079, 8081, 8282, 16_160, 16_384];
/// Lengths beside which a slot is free or in use, and those of blank images.
const EDGES: [usize; 6] = [0, 5, 6, 200, 201, 255];

/// The lengths of a free slot.
fn free_lengths() -> impl Iterator<Item = usize> {
    (0..=5).chain(201..=255)
}

pub fn cases() -> Vec<String> {
    let mut cases = Vec::new();
    for line in SOURCES.map(set_images::line) {
        cases.extend(KINDS.map(|kind| case(&line, &[kind], "image")));
        cases.extend(BLANKS.map(|(name, _)| case(&line, &[name], "image")));
    }
    cases.extend(stored());
    for line in [FETCH, WRITE_ANSWER] {
        cases.extend(asked_of_other_sizes(line));
        cases.extend(asked(line));
        cases.extend(asked_behind(line));
    }
    cases.extend(rooms());
    cases
}

/// Whatever is wrong at once, the first in order is told: 22, 26, 27. The factory
/// image may have any size.
fn stored() -> Vec<String> {
    let mut cases = Vec::new();
    for mask in [0, 1, 2, 3, 4, 6] {
        let holds = [mask & 1 != 0, mask & 2 != 0, mask & 4 != 0];
        let head = match holds {
            [true, ..] => "refuse 22",
            [_, true, _] => "refuse 26",
            [_, _, true] => "refuse 27",
            _ => "stored",
        };
        let faults = holding(&holds, &STORE_FAULTS);
        cases.push(case(STORE, &faults, head));
        cases.push(case(STORE, &[&faults[..], &[stores::FACTORY_OTHER]].concat(), head));
    }
    cases.extend(stores::WAYS.map(|way| case(STORE, &[way], "stored")));
    cases.push(case(STORE, &[stores::IN_FACTORY], "refuse 27"));
    cases.push(case(STORE, &[stores::LOST_BITS], "refuse 26"));
    cases
}

/// The answer to a line that asks, where the record is served from here.
fn taken(line: &str, from: &str) -> &'static str {
    match from {
        _ if line == WRITE_ANSWER => "wrote",
        _ if from == FROM[0] => "network",
        _ if from == FROM[1] => "factory",
        _ => "none",
    }
}

/// 22 for either image, whatever the other has, and before 11.
fn asked_of_other_sizes(line: &str) -> Vec<String> {
    let [network, factory, narrow] = ASK_FAULTS;
    let mut faults = vec![vec![network], vec![factory], vec![network, factory]];
    if line == WRITE_ANSWER {
        faults.extend([vec![network, narrow], vec![factory, narrow]]);
    }
    faults.iter().map(|faults| case(line, faults, "refuse 22")).collect()
}

/// Where the record is, and which slots there are besides the one that has it.
fn asked(line: &str) -> Vec<String> {
    let [network, factory] = FROM;
    let places = [
        (IN_NETWORK, network),
        (IN_BOTH, network),
        (IN_FACTORY, factory),
        (IN_NEITHER, FROM_NEITHER),
    ];
    let mut cases: Vec<String> =
        places.iter().map(|(place, from)| case(line, &[place], taken(line, from))).collect();
    if line == WRITE_ANSWER {
        cases.extend(places[..3].iter().map(|(place, _)| case(line, &[place], "refuse 11")));
    }
    for from in FROM {
        let besides = [OF_SEVERAL, BEHIND_IDLE, SPARED];
        cases.extend(besides.map(|what| ask_case(line, from, what, taken(line, from))));
    }
    for from in [network, factory, FROM_NEITHER] {
        cases.extend(IDLE.map(|what| ask_case(line, from, what, taken(line, from))));
    }
    cases
}

/// A record that was not stored is not served, and the one before it still is. What
/// is refused by 27 is not in the network's copy.
fn asked_behind(line: &str) -> Vec<String> {
    let mut cases = Vec::new();
    for answer in ["refuse 26", "refuse 27", "bad line"] {
        for from in [FROM[0], FROM[1], FROM_NEITHER] {
            if (answer, from) != ("refuse 27", FROM[0]) {
                cases.push(ask_case(line, from, &in_vain(answer), taken(line, from)));
            }
        }
    }
    cases
}

/// Every way in which a room can stand to what is due; for no record any room will
/// do, and none.
fn rooms() -> Vec<String> {
    let mut cases = Vec::new();
    for from in FROM {
        let narrow = [NO_ROOM, ONE_LESS];
        cases.extend(narrow.map(|room| ask_case(WRITE_ANSWER, from, room, "refuse 11")));
    }
    for from in [FROM[0], FROM[1], FROM_NEITHER] {
        let enough = [EXACT, ONE_MORE, MOST_ROOM];
        cases.extend(enough.map(|room| ask_case(WRITE_ANSWER, from, room, "wrote")));
    }
    cases
}

pub fn rows() -> Vec<Row> {
    let mut rows = Vec::new();
    for line in SOURCES.map(set_images::line) {
        rows.extend(images_set(&line));
    }
    rows.extend(records_stored());
    for line in [FETCH, WRITE_ANSWER] {
        rows.extend(FROM.iter().flat_map(|from| records_served(line, from)));
        rows.extend(nothing_served(line));
    }
    for from in [FROM[0], FROM[1], FROM_NEITHER] {
        rows.push(Row::new(ask_row(FETCH, taken(FETCH, from), from, "SECTOR"), 0..=255));
    }
    rows.extend(answers_written());
    rows
}

/// Every size, every byte as the first and as the second of a slot, and the ends of
/// an image: its first and last slot, none in use and all.
fn images_set(line: &str) -> Vec<Row> {
    let named = |what: &str| row(line, "image", what);
    vec![
        Row::new(named(set_images::SIZE), OTHER_SIZES.into_iter().chain([IMAGE_SIZE])),
        Row::new(named(set_images::USED), [0, 1, 39, 40]),
        Row::new(named(set_images::LENGTH), 0..=255),
        Row::new(named(set_images::FIRST_LENGTH), EDGES),
        Row::new(named(set_images::LAST_LENGTH), EDGES),
        Row::new(named(set_images::SECTOR), 0..=255),
    ]
}

/// Every sector, length and slot, of records that are new and of those that are
/// replaced; and the lengths of the records and slots that are none.
fn records_stored() -> Vec<Row> {
    let mut rows = Vec::new();
    for (which, used) in [(NEW, 0..=39), (OWN, 1..=40)] {
        let named = |what: &str| store_row("stored", which, what);
        rows.push(Row::new(named("SECTOR"), 0..=255));
        rows.push(Row::new(named("SLOT"), 1..=40));
        rows.push(Row::new(named(RECORD), 6..=200));
        rows.push(Row::new(named(stores::USED), used));
    }
    let others = (0..=5).chain(201..=300).chain([512, 1024]);
    rows.extend([
        Row::new(row(STORE, "stored", stores::FIRST_BYTE), 0..=255),
        Row::new(row(STORE, "stored", stores::TAKEN_LENGTH), free_lengths()),
        Row::new(row(STORE, "refuse 22", STORE_FAULTS[0]), OTHER_SIZES),
        Row::new(row(STORE, "refuse 26", RECORD), others),
        Row::new(store_row("refuse 27", NEW, "SECTOR"), 0..=255),
        Row::new(store_row("refuse 27", NEW, RECORD), 6..=200),
    ]);
    rows
}

/// Every slot and length of what is served from this image.
fn records_served(line: &str, from: &str) -> Vec<Row> {
    let named = |what: &str| ask_row(line, taken(line, from), from, what);
    vec![Row::new(named("SLOT"), 1..=40), Row::new(named(RECORD), 6..=200)]
}

/// Every length of a slot that only seems to have the sector, and of a record that
/// was stored and is served; and images of every other size.
fn nothing_served(line: &str) -> Vec<Row> {
    let idle = ask_row(line, taken(line, FROM_NEITHER), FROM_NEITHER, IDLE_LENGTH);
    let stored = ask_row(line, taken(line, FROM[0]), STORED, RECORD);
    let mut rows = vec![Row::new(idle, free_lengths()), Row::new(stored, 6..=200)];
    let sizes = ASK_FAULTS[..2].iter().map(|fault| row(line, "refuse 22", fault));
    rows.extend(sizes.map(|name| Row::new(name, OTHER_SIZES)));
    rows
}

/// Every sector; every length of an answer with room to the byte, with a byte more
/// and with a byte less; and every room that is too small.
fn answers_written() -> Vec<Row> {
    let named = |head: &str, what: &str| row(WRITE_ANSWER, head, what);
    vec![
        Row::new(named("wrote", "SECTOR"), 0..=255),
        Row::new(named("wrote", EXACT), [0].into_iter().chain(7..=201)),
        Row::new(named("wrote", ONE_MORE), [0].into_iter().chain(7..=201)),
        Row::new(named("refuse 11", ONE_LESS), 7..=201),
        Row::new(named("refuse 11", "ROOM"), 0..=200),
    ]
}
