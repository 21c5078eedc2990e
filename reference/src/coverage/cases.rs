//! The names under which a line and its answer are counted.

use super::discoveries;
use super::required::named;
use super::retypings::retyped;
use crate::language;
use crate::line::{Kind, Line};
use crate::panel::Panel;
use crate::state::{Exchange, Phase};

/// An answer without positions, counts and bytes.
pub fn head(answer: &str) -> String {
    let words: Vec<&str> = answer.lines().next().unwrap_or("").split(' ').collect();
    match words[..] {
        ["wait", _, kind, "0"] => format!("wait {kind} 0"),
        ["wait", _, kind, ..] => format!("wait {kind}"),
        ["rest", what, _] => format!("rest {what}"),
        ["transmit", _, _, "joined", _] => "transmit joined".to_string(),
        ["refuse", number] => format!("refuse {number}"),
        ["bad", ..] => "bad line".to_string(),
        [first, ..] => first.to_string(),
        [] => String::new(),
    }
}

pub fn step(line: &str) -> &str {
    line.split(' ').next().unwrap_or("")
}

pub fn is_step(line: &str) -> bool {
    ["join", "discover", "turn", "frame", "quiet"].contains(&step(line))
}

/// The step with its answer, and in which of its cases.
pub fn case(before: &Panel, line: &str, head: &str, after: &Panel) -> String {
    if head == "bad line" {
        return head.to_string();
    }
    let detail = match (step(line), head) {
        ("setup", "ready") => pool(after),
        ("join", "rest joined") => joined_how(before, line, after).to_string(),
        ("join" | "discover", "refuse 14") => busy_with(before),
        ("join" | "discover", "refuse 16") => pool(before),
        ("turn", "refuse 11") => due(before).to_string(),
        ("frame", "refuse 6") if waiting(before).is_none() => "no wait".to_string(),
        ("frame", "refuse 6") => "another source".to_string(),
        ("frame", "refuse 7") => waiting(before).unwrap_or("").to_string(),
        ("frame", "transmit" | "transmit joined" | "rest") => accepted_how(before, line, after),
        ("quiet", "rest" | "rest dropped") => quiet_how(before),
        (word, _) => return format!("{word}: {head}"),
    };
    format!("{}: {head} ({detail})", step(line))
}

/// What else a line is a case of.
pub fn further(before: &Panel, line: &str, answer: &str, after: &Panel) -> Vec<String> {
    let (head, wait) = (head(answer), waiting(before).unwrap_or(""));
    let mut cases = Vec::new();
    match (step(line), head.as_str()) {
        ("turn", "wait offer") => cases.push(format!("turn: wait offer ({})", pool(before))),
        ("quiet", "rest dropped") => {
            let left = if after.listed().next().is_some() { "others" } else { "nobody" };
            cases.push(format!("quiet: rest dropped ({})", pool(before)));
            cases.push(format!("quiet: rest dropped, {left} left"));
        }
        ("join", "rest joined") if gap_filled(before, after) => {
            cases.push("a position freed was taken again".to_string());
        }
        ("frame", "transmit joined") if gap_filled(before, after) => {
            cases.push("a position freed was taken again, by discovery".to_string());
        }
        ("join", "refuse 12") if listed_at(before, line).is_some() => {
            cases.push("join: refuse 12, a listed MAC".to_string());
        }
        _ => (),
    }
    if to_the_byte(line, answer) {
        cases.push(format!("{}: {head}, room to the byte", step(line)));
    }
    if index_sent(answer) {
        cases.push(format!("{}: {head}, an index above 0", step(line)));
    }
    if zero_taken(line, &head) {
        cases.push(format!("frame: check byte 0 taken ({wait})"));
    }
    if session_changed(before, line, after) {
        cases.push(format!("frame: session changed ({wait})"));
    }
    cases.extend(discoveries::path(before, line, &head, after));
    cases
}

/// The disturbance, where it came, and the answer.
pub fn disturbance(before: &Panel, line: &Line, head: &str) -> String {
    let wait = waiting(before).unwrap_or("no wait");
    let place = match (line.kind, step(&line.text)) {
        (Kind::Late, _) => late_where(before, &line.text).to_string(),
        (Kind::OneShort | Kind::Narrow, "discover") => "discover".to_string(),
        (Kind::OneShort | Kind::Narrow, "turn") => format!("turn, {}", due(before)),
        (Kind::OneShort | Kind::Narrow, _) => format!("frame, {wait}"),
        _ => wait.to_string(),
    };
    named(line.kind, &place, head)
}

fn pool(panel: &Panel) -> String {
    format!("k {}", panel.coordinator.pool.len())
}

pub fn waiting(panel: &Panel) -> Option<&'static str> {
    panel.coordinator.phase.awaited().map(|(_, exchange)| exchange.name())
}

fn joined_how(before: &Panel, line: &str, after: &Panel) -> &'static str {
    match listed_at(before, line) {
        Some(at) if retyped(before, at, after) => "came back as something else",
        Some(_) => "came back as it was",
        None => "new",
    }
}

/// The position of the board that a `join` line names, if it is listed.
fn listed_at(before: &Panel, line: &str) -> Option<usize> {
    let mac = line.split(' ').nth(2).and_then(|word| word.parse().ok());
    mac.and_then(|mac| before.position_of(mac))
}

/// Whether a board was listed below one that was there.
fn gap_filled(before: &Panel, after: &Panel) -> bool {
    let new = after.listed().find(|&position| !before.record(position).listed());
    new < before.listed().last() && new.is_some()
}

fn busy_with(before: &Panel) -> String {
    match waiting(before) {
        Some(wait) => format!("waiting, {wait}"),
        None => format!("{} due", due(before)),
    }
}

/// The kind of transmission the next turn would make.
pub fn due(before: &Panel) -> &'static str {
    match &before.coordinator.phase {
        Phase::ReturnDue { .. } => "return",
        Phase::ForwardDue { .. } => "forward",
        Phase::IdentifyDue { .. } => "identify",
        Phase::AssignDue { .. } => "assign",
        _ if before.records.iter().any(|record| record.owed) => "list",
        _ => "offer",
    }
}

fn accepted_how(before: &Panel, line: &str, after: &Panel) -> String {
    let wait = waiting(before).unwrap_or("");
    let fate = match after.coordinator.phase {
        Phase::ForwardDue { .. } => "passed on",
        _ => "discarded",
    };
    match request(before, line) {
        Some((method, _)) => format!("{wait}, method {method}, {fate}"),
        None => wait.to_string(),
    }
}

/// The bytes of a `frame` line.
pub fn bytes_of(line: &str) -> Vec<u8> {
    line.split(' ').nth(2).and_then(language::pairs).unwrap_or_default()
}

/// Method and parameter 1 of the request in a `frame` line, if this panel reads
/// one there.
pub fn request(panel: &Panel, line: &str) -> Option<(u8, u8)> {
    let bytes = bytes_of(line);
    let frame = panel.read(&bytes).ok()?;
    (1..=127).contains(&frame.message_type).then_some((frame.method, frame.parameter1))
}

fn quiet_how(before: &Panel) -> String {
    match before.coordinator.phase {
        Phase::Waiting { exchange: Exchange::Forward { acked: true, .. }, .. } => {
            "forward, ACK had come".to_string()
        }
        Phase::Waiting { exchange, .. } if exchange.discovers() => exchange.name().to_string(),
        _ => format!("{}, a miss", waiting(before).unwrap_or("")),
    }
}

/// Where a late frame arrives: its source is at offset 1.
fn late_where(before: &Panel, line: &str) -> &'static str {
    let awaited = before.coordinator.phase.awaited();
    let awaited = awaited.map(|(board, _)| before.address(board));
    match (awaited, bytes_of(line).get(1)) {
        (None, _) => "no wait",
        (Some(address), Some(&source)) if address == source => "a later wait for it",
        _ => "the wait for another",
    }
}

/// COUNT and HEX of an answer, if bytes were written.
fn written(answer: &str) -> Option<(&str, &str)> {
    let words: Vec<&str> = answer.split(' ').collect();
    match words[..] {
        ["wait", _, _, count, hex] => Some((count, hex)),
        ["deliver" | "transmit", count, hex] => Some((count, hex)),
        ["transmit", count, hex, "joined", _] => Some((count, hex)),
        _ => None,
    }
}

/// Whether the bytes written fill the room lent, which `discover`, `turn` and
/// `frame` have as their second word.
fn to_the_byte(line: &str, answer: &str) -> bool {
    let room = line.split(' ').nth(1);
    written(answer).map_or(false, |(count, _)| room == Some(count))
}

/// Whether parameter 2 of the frame written, at offset 5, is above 0.
fn index_sent(answer: &str) -> bool {
    let parameter2 = written(answer).and_then(|(_, hex)| hex.get(10..12));
    parameter2.map_or(false, |digits| digits != "00")
}

/// Whether an accepted frame had a check byte 0.
fn zero_taken(line: &str, head: &str) -> bool {
    let accepted = step(line) == "frame" && !head.starts_with("refuse") && head != "bad line";
    accepted && bytes_of(line).iter().rev().take(2).any(|&byte| byte == 0)
}

/// Whether an ACK brought another session.
fn session_changed(before: &Panel, line: &str, after: &Panel) -> bool {
    let changed =
        |(board, _): (usize, Exchange)| before.record(board).session != after.record(board).session;
    let awaited = before.coordinator.phase.awaited();
    let awaited = awaited.filter(|(_, exchange)| !exchange.discovers());
    step(line) == "frame" && awaited.map_or(false, changed)
}

#[cfg(test)]
mod tests {
    use super::*;

    #[test]
    fn heads_have_no_numbers_but_a_refusals() {
        let pairs = [
            ("wait 3 forward 0", "wait forward 0"),
            ("wait 3 offer 29 AB", "wait offer"),
            ("rest dropped 4", "rest dropped"),
            ("transmit 29 AB", "transmit"),
            ("transmit 29 AB joined 2", "transmit joined"),
            ("rest", "rest"),
            ("refuse 16", "refuse 16"),
            ("bad line 7", "bad line"),
            ("listed 1\n1 2 3", "listed"),
        ];
        for (answer, expected) in pairs {
            assert_eq!(head(answer), expected);
        }
    }

    #[test]
    fn a_room_that_is_filled_is_seen() {
        assert!(to_the_byte("turn 29", "wait 1 offer 29 AB"));
        assert!(to_the_byte("frame 29 AB", "transmit 29 AB"));
        assert!(to_the_byte("frame 29 AB", "transmit 29 AB joined 1"));
        assert!(!to_the_byte("turn 30", "wait 1 offer 29 AB"));
        assert!(!to_the_byte("frame 0 AB", "wait 1 forward 0"));
    }

    #[test]
    fn an_index_above_0_is_seen() {
        assert!(index_sent("wait 1 offer 29 02FF03000001A5"));
        assert!(index_sent("transmit 29 02FF03000010A5 joined 1"));
        assert!(!index_sent("deliver 29 02FF03010100A5"));
        assert!(!index_sent("wait 1 forward 0"));
    }
}
