//! What the scripts of a comparison have to reach of boards that speak 1.0 (C-15).

use super::required::{AFTER_24, POOL_SIZES, STAGE_WAITS, TAKEN};
use crate::rows::Row;

const VERSIONS: [&str; 2] = ["1.0", "later"];
const WAYS: [&str; 3] = ["join", "identify", "assign"];
/// The name of the row that has the version bytes of joins.
pub const VERSION_BYTES: &str = "join: rest joined, version byte";

/// Every byte that a join can have as its version.
pub fn rows() -> Vec<Row> {
    vec![Row::new(VERSION_BYTES, 0..=255)]
}

pub fn cases() -> Vec<String> {
    let parts = [houses(), types(), lists(), received(), sent(), exchanges()];
    parts.concat()
}

/// A house has one board where it has one address.
fn houses() -> Vec<String> {
    let mut cases = Vec::new();
    for k in POOL_SIZES {
        for who in ["1.0 boards alone", "later boards alone", "both"] {
            if k > 1 || who != "both" {
                cases.push(format!("an offer, all of k {k} taken by {who}"));
            }
        }
    }
    for way in WAYS {
        for was in VERSIONS {
            let now = VERSIONS.iter();
            cases
                .extend(now.map(|now| format!("a rejoin ({way}) of a {was} board as a {now} one")));
        }
    }
    cases
}

/// The limit of 15 types, on both of its sides.
fn types() -> Vec<String> {
    let mut cases = vec![
        "the only 1.0 board came back as a later one of a 16th type".to_string(),
        "join: refuse 25, 16 types".to_string(),
        "join: refuse 25, more than 16 types".to_string(),
    ];
    for way in WAYS {
        for types in [14, 15] {
            cases.push(format!("a join ({way}): {types} types, with a 1.0 board"));
        }
        for types in [14, 15, 16] {
            cases.push(format!("a join ({way}): {types} types, without a 1.0 board"));
        }
        let case = format!("a rejoin ({way}): its type goes, a 15th comes, with a 1.0 board");
        cases.push(case);
    }
    for place in ["no position free", "positions free"] {
        for who in ["a new MAC", "a listed MAC as another type"] {
            for old in ["one more 1.0 board", "the only 1.0 board", "beside a 1.0 board"] {
                cases.push(format!("join: refuse 25 ({who}, {old}, {place})"));
            }
        }
        let who = "a listed MAC as its own type, the only 1.0 board";
        cases.push(format!("join: refuse 25 ({who}, {place})"));
    }
    cases
}

/// What becomes of the boards in a condensed list.
const LISTED: [&str; 15] = [
    "a 1.0 board at its position",
    "a 1.0 board past 15, its type filled in",
    "a 1.0 board past 15, its type kept by another",
    "a second 1.0 board of a type, its byte open",
    "a second 1.0 board of a type, its byte filled",
    "a later board past 15, its type filled in",
    "a later board past 15, its type kept by a 1.0 board",
    "a later board, its type filled in at its position",
    "a later board, its type filled in at another",
    "a later board, its type kept by a 1.0 board",
    "a byte kept by its position between two that were filled",
    "a type at its 1.0 board, though a later one is below it",
    "full, the internal type is another",
    "full, the internal type among it",
    "the same as the full one",
];

const ECHOED: [&str; 6] = [
    "the list: transmit",
    "the list of the other version: refuse 8",
    "a list with another byte: refuse 8",
    "a longer list: refuse 8",
    "a shorter list: refuse 8",
    "nothing: refuse 8",
];

fn lists() -> Vec<String> {
    let mut cases: Vec<String> =
        LISTED.iter().map(|what| format!("a condensed list: {what}")).collect();
    for version in VERSIONS {
        cases.extend(ECHOED.iter().map(|what| format!("a {version} board echoed {what}")));
    }
    cases
}

/// Frames on subnet 2: taken in a search and where the version is 1.0, and then judged
/// as any; elsewhere refused by 24.
fn received() -> Vec<String> {
    let mut cases = Vec::new();
    for (place, answers) in TAKEN {
        let search = place == "search";
        let old = if search { place.to_string() } else { format!("{place} (1.0)") };
        cases.extend(answers.iter().map(|answer| format!("subnet 2 in {old}: {answer}")));
        cases.push(format!("ours is 2, in {old}: taken"));
        cases.push(format!("ours is 0, subnet 2 in {old}: taken"));
        if !search {
            cases.push(format!("ours is 2, in {place} (later): taken"));
            cases.push(format!("subnet 0 in {old}: taken"));
            cases.push(format!("our subnet in {old}: taken"));
            let refused = |answer| format!("subnet 2 in {place} (later): refuse 24, else {answer}");
            cases.extend(answers.iter().map(refused));
        }
    }
    for (place, numbers) in AFTER_24 {
        cases.extend(numbers.iter().flat_map(|&number| numbered(place, number)));
    }
    cases
}

/// A number that comes after 24, for a frame of subnet 2.
fn numbered(place: &str, number: u8) -> Vec<String> {
    let versioned = |version| format!("subnet 2 in {place} ({version})");
    match place {
        "search" => vec![format!("subnet 2 in search: refuse {number}")],
        "no wait" | "no wait, list due" | "no wait, forward due" | "no wait, return due" => {
            vec![format!("subnet 2 in {place}: refuse 24, else refuse {number}")]
        }
        _ => vec![
            format!("{}: refuse {number}", versioned("1.0")),
            format!("{}: refuse 24, else refuse {number}", versioned("later")),
        ],
    }
}

/// Frames to boards of either version.
fn sent() -> Vec<String> {
    let mut cases = Vec::new();
    for version in VERSIONS {
        for wait in ["offer", "list", "return"] {
            cases.push(format!("turn: wait {wait} (to a {version} board)"));
        }
        for to in VERSIONS {
            cases.push(format!("turn: wait forward (from a {version} board to a {to} one)"));
        }
        for (answer, wait) in [("deliver", "offer"), ("transmit", "offer"), ("transmit", "list")] {
            cases.push(format!("frame: {answer}, an ACK to a {version} board ({wait})"));
        }
        cases.push(format!("frame: transmit, an ACK to a {version} board (forward)"));
    }
    cases
}

/// Exchanges by what was found and whose address is at stake, and how they end.
fn exchanges() -> Vec<String> {
    let addresses =
        ["a free address", "the address of a 1.0 board", "the address of a later board"];
    let mut cases = Vec::new();
    for find in VERSIONS {
        for address in addresses {
            let stake = format!("(a {find} find, {address})");
            cases.push(format!("turn: wait identify {stake}"));
            cases.push(format!("turn: wait assign {stake}"));
            cases.extend(STAGE_WAITS[1..].iter().flat_map(|stage| {
                let ends = if *stage == "assign" { 1 } else { 2 };
                let answers = ["transmit joined", "transmit"].into_iter().take(ends);
                answers
                    .map(|answer| format!("frame in {stage} {stake}: {answer}"))
                    .collect::<Vec<_>>()
            }));
        }
        for bits in ["no other bit", "other bits"] {
            for fate in ["goes on", "breaks off"] {
                let bits = format!("{bits} in its packet number");
                cases.push(format!("a {find} board found ({bits}): {fate}"));
            }
        }
        cases.push(format!("a {find} find echoes subnet 0: refuse 8"));
    }
    cases.extend(EXCHANGED.iter().map(|name| name.to_string()));
    cases
}

const EXCHANGED: [&str; 8] = [
    "a 1.0 find echoes subnet ours: refuse 8",
    "a later find echoes subnet 2: refuse 8",
    "frame in search (too many types, a new MAC): rest",
    "frame in search (too many types, a listed MAC): rest",
    "frame in identify (too many types, a new MAC): transmit",
    "frame in identify (too many types, a listed MAC): transmit",
    "frame in identify, acknowledged (too many types, a new MAC): transmit",
    "frame in identify, acknowledged (too many types, a listed MAC): transmit",
];
