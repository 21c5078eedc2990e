//! The paths through a discovery, each under the name it is counted by.

use super::cases::{bytes_of, due, step, waiting};
use super::retypings::retyped;
use crate::frame::{Fields, COORDINATOR_TYPE};
use crate::panel::{Panel, CODE_ACK, R2R_LENGTH, RESPONSE, TYPE_R2R};
use crate::panel::{DISCOVERED_LENGTH, IDENTIFIED_LENGTH, TYPE_DISCOVERED, TYPE_IDENTIFIED};
use crate::state::{self, Exchange, Phase};

/// Where a discovery stands; none if none runs.
pub fn stage(panel: &Panel) -> Option<&'static str> {
    match &panel.coordinator.phase {
        Phase::IdentifyDue { .. } => Some("identify due"),
        Phase::AssignDue { .. } => Some("assign due"),
        Phase::Waiting { exchange: Exchange::Identify { acked: true, .. }, .. } => {
            Some("identify, acknowledged")
        }
        Phase::Waiting { exchange, .. } if exchange.discovers() => Some(exchange.name()),
        _ => None,
    }
}

/// The path that a line is part of: its step, where it was played, what it was
/// there, and its answer.
pub fn path(before: &Panel, line: &str, head: &str, after: &Panel) -> Option<String> {
    if head == "bad line" || step(line) == "table" {
        return None;
    }
    if let Some(stage) = stage(before) {
        let what = detail(before, line, head, after);
        return Some(format!("{} in {stage}{what}: {head}", step(line)));
    }
    match (step(line), head) {
        ("discover", _) => Some(format!("discover {}: {head}", begun(before))),
        ("frame", _) => outside(before, line, head),
        _ => None,
    }
}

/// What a discovery meets that is started where none runs.
fn begun(before: &Panel) -> &'static str {
    let coordinator = &before.coordinator;
    let owed = before.records.iter().any(|record| record.owed);
    let busy = coordinator.phase != Phase::Idle || owed;
    let someone = before.listed().next().is_some();
    match (coordinator.started, someone) {
        _ if busy => "while busy",
        _ if coordinator.held => "while held",
        (true, true) => "again",
        (true, false) => "again, nobody listed",
        (false, true) => "at rest",
        (false, false) => "at rest, nobody listed",
    }
}

/// A response of the exchange where none runs.
fn outside(before: &Panel, line: &str, head: &str) -> Option<String> {
    let bytes = bytes_of(line);
    let frame = before.read(&bytes).ok()?;
    let response = (TYPE_DISCOVERED..=TYPE_IDENTIFIED).contains(&frame.message_type);
    let judged = ["refuse 23", "refuse 6", "transmit"].contains(&head);
    let name = format!("0x{:02X}", frame.message_type);
    (response && judged).then(|| format!("{name} {}: {head}", outside_where(before, &frame)))
}

fn outside_where<P>(before: &Panel, frame: &Fields<P>) -> String {
    match before.coordinator.phase.awaited() {
        Some((_, Exchange::Forward { request_type, .. })) => {
            let answers = frame.message_type == request_type + RESPONSE;
            let of = if answers { "its request" } else { "another request" };
            format!("in the forward of {of}")
        }
        Some((_, exchange)) => format!("in {}", exchange.name()),
        None if due(before) == "offer" => "at rest".to_string(),
        None => format!("while a {} is due", due(before)),
    }
}

/// What a line is to the exchange that runs, in brackets.
fn detail(before: &Panel, line: &str, head: &str, after: &Panel) -> String {
    let what = match (step(line), head) {
        ("frame", _) => frame_how(before, line, head, after),
        ("turn", "wait identify" | "wait assign") if before.listed().next().is_none() => {
            "nobody listed"
        }
        ("quiet", "rest") => quiet_how(before),
        _ => "",
    };
    if what.is_empty() {
        return String::new();
    }
    format!(" ({what})")
}

/// At whose address nobody said a word.
fn quiet_how(before: &Panel) -> &'static str {
    match before.coordinator.phase.awaited() {
        Some((_, Exchange::Search)) | None => "",
        Some((at, _)) => match before.record(at) {
            record if !record.listed() => "a free address",
            record if record.misses == 2 => "its board has missed twice",
            _ => "a listed board's address",
        },
    }
}

fn frame_how(before: &Panel, line: &str, head: &str, after: &Panel) -> &'static str {
    let bytes = bytes_of(line);
    let (frame, wait) = match (before.read(&bytes), before.coordinator.phase.awaited()) {
        (Ok(frame), Some(wait)) => (frame, wait),
        _ => return "",
    };
    match (wait, head) {
        (_, "refuse 7") => refused_how(wait.1, &frame),
        ((_, Exchange::Search), "rest") => found_how(before, &frame, after),
        ((at, _), "wait identify 0") => heard_how(before, at, mac(&frame)),
        ((at, _), "transmit joined") => joined_how(before, at, after),
        ((at, _), "transmit") => broken_how(before, at, &frame, after),
        _ => "",
    }
}

/// Who joined at the position at stake.
fn joined_how(before: &Panel, at: usize, after: &Panel) -> &'static str {
    match before.record(at) {
        record if !record.listed() => "it is new",
        _ if retyped(before, at, after) => "it came back as something else",
        _ => "it came back as it was",
    }
}

/// The MAC in an ACK or a response: behind one byte, or behind two.
fn mac(frame: &Fields<&[u8]>) -> u64 {
    let at = if frame.message_type == TYPE_DISCOVERED { 2 } else { 1 };
    let bytes = frame.payload[at..at + 8].iter().rev();
    bytes.fold(0, |value, &byte| (value << 8) | u64::from(byte))
}

fn refused_how(exchange: Exchange, frame: &Fields<&[u8]>) -> &'static str {
    let length = frame.payload.len();
    match (exchange, frame.message_type) {
        (Exchange::Search, TYPE_DISCOVERED) if length != DISCOVERED_LENGTH => "another length",
        (Exchange::Identify { .. }, TYPE_IDENTIFIED) if length != IDENTIFIED_LENGTH => {
            "another length"
        }
        (Exchange::Identify { acked, .. }, TYPE_R2R) => {
            let form = length == R2R_LENGTH && frame.payload[0] == CODE_ACK;
            match (acked, form) {
                (true, true) => "a second ACK",
                _ => "no ACK by its form",
            }
        }
        (_, TYPE_DISCOVERED..=TYPE_IDENTIFIED) => "another response",
        _ => "another type",
    }
}

/// Whom a response tells of.
fn told_how(before: &Panel, node_type: u8, mac: u64) -> &'static str {
    match before.position_of(mac) {
        _ if node_type == 0 => "type 0",
        _ if node_type == COORDINATOR_TYPE => "type 165",
        _ if mac == 0 => "MAC 0",
        _ if !state::mac_fits(mac) => "too high a MAC",
        Some(_) => "a listed MAC",
        None => "a new MAC",
    }
}

/// Whom a search found; where nothing but 25 can have broken it off, that.
fn found_how(before: &Panel, frame: &Fields<&[u8]>, after: &Panel) -> &'static str {
    match (told_how(before, frame.payload[0], mac(frame)), &after.coordinator.phase) {
        ("a new MAC", Phase::Idle) => "too many types, a new MAC",
        ("a listed MAC", Phase::Idle) => "too many types, a listed MAC",
        (told, _) => told,
    }
}

fn heard_how(before: &Panel, at: usize, mac: u64) -> &'static str {
    match before.record(at) {
        record if !record.listed() => "a free address",
        record if record.mac != mac && record.misses > 0 => "another MAC, the misses stay",
        record if record.mac != mac => "another MAC",
        record if record.misses > 0 => "the listed board, its misses are cleared",
        _ => "the listed board",
    }
}

/// Why a response joined nobody.
fn broken_how(before: &Panel, at: usize, frame: &Fields<&[u8]>, after: &Panel) -> &'static str {
    let missed = before.record(at).misses > 0;
    let heard = missed && after.record(at).misses == 0;
    let mac = mac(frame);
    match told_how(before, frame.payload[0], mac) {
        "a new MAC" if !before.record(at).listed() => "too many types, a new MAC",
        "a listed MAC" if before.record(at).mac == mac => "too many types, a listed MAC",
        "type 0" | "type 165" if heard => "a bad type, but its misses are cleared",
        "a listed MAC" if missed => "listed at another position, the misses stay",
        "a listed MAC" => "listed at another position",
        "a new MAC" if missed => "new where another is listed, whose misses stay",
        "a new MAC" => "new where another is listed",
        other => other,
    }
}

/// A frame in identify or assign that is taken after it, or another, was
/// refused for want of room.
pub fn room_came(before: &Panel, head: &str) -> Option<String> {
    let taken = ["transmit", "transmit joined"].contains(&head);
    let wait = waiting(before).filter(|wait| ["identify", "assign"].contains(wait));
    wait.filter(|_| taken).map(|wait| format!("frame in {wait}: taken when there was room"))
}

#[cfg(test)]
mod tests {
    use super::super::cases::head;
    use super::*;
    use crate::script::Player;

    /// The paths that the lines of a script are part of.
    fn paths(script: &[&str]) -> Vec<String> {
        let mut player = Player::default();
        let play = |line: &&str| {
            let before = player.panel.clone();
            let answer = player.play(line.as_bytes()).unwrap_or_default();
            path(&before, line, &head(&answer), &player.panel)
        };
        script.iter().filter_map(play).collect()
    }

    #[test]
    fn a_path_is_named_by_its_stage_what_came_and_the_answer() {
        let script = [
            "setup 3 21 4886718345 1001 16 17 18 19 20",
            "frame 64 FF100300000002FB00110265000000000000000100000000000000507A",
            "discover 13",
            "join 2 101 1 2",
            "frame 0 FF000000000002F90012020065000000000000000100000000000000AC32",
            "turn 11",
            "turn 12",
            "frame 0 FF1003000000020080110665000000000000000100000000000000A998",
            "frame 0 FF1003000000020080110665000000000000000100000000000000A998",
            "frame 29 FF100300000002FB00110265000000000000000100000000000000507A",
            "discover 13",
        ];
        let expected = [
            "0xFB at rest: refuse 23",
            "discover at rest, nobody listed: wait search",
            "join in search: refuse 14",
            "frame in search (a new MAC): rest",
            "turn in identify due: refuse 11",
            "turn in identify due (nobody listed): wait identify",
            "frame in identify (a free address): wait identify 0",
            "frame in identify, acknowledged (a second ACK): refuse 7",
            "frame in identify, acknowledged (it is new): transmit joined",
            "discover while busy: refuse 14",
        ];
        assert_eq!(paths(&script), expected);
    }
}
