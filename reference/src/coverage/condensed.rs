//! The condensed list of 1.0 boards (C-15): what its bytes come from, and what is
//! echoed to it and to the full one.

use super::cases::{bytes_of, step};
use super::versions::named;
use crate::panel::{Panel, TYPE_ECHO};
use crate::state::{Exchange, Record};
use crate::version::{MOST_TYPES, OLD};

/// What a byte of a condensed list is.
#[derive(Clone, Copy, PartialEq, Eq)]
enum Byte {
    Open,
    /// The type of the 1.0 board at this position.
    Kept,
    /// A type that was put in because no 1.0 board keeps a byte for it.
    Filled,
}

/// What a line is a case of.
pub fn cases(before: &Panel, line: &str, head: &str, after: &Panel) -> Vec<String> {
    match (step(line), head, after.coordinator.phase.awaited()) {
        ("turn", "wait list", Some((board, _))) if before.record(board).version == OLD => {
            listed(before)
        }
        ("frame", "transmit" | "refuse 8", _) => echoed(before, line, head).into_iter().collect(),
        _ => Vec::new(),
    }
}

fn listed(panel: &Panel) -> Vec<String> {
    let (list, records) = (panel.condensed_list(), &panel.records[..]);
    let bytes: Vec<Byte> = (1..=MOST_TYPES).map(|at| origin(records, &list, at)).collect();
    let mut names = Vec::new();
    for (at, record) in (1..).zip(records).filter(|(_, record)| record.listed()) {
        names.push(place_of(at, record, &bytes, &list));
    }
    if between(&bytes) {
        names.push("a byte kept by its position between two that were filled");
    }
    if later_below(records) {
        names.push("a type at its 1.0 board, though a later one is below it");
    }
    if !list[1..].contains(&0) {
        let own = list[1..].contains(&list[0]);
        let how = ["full, the internal type is another", "full, the internal type among it"];
        names.push(how[usize::from(own)]);
    }
    if records[..MOST_TYPES].iter().any(Record::listed) && list == panel.node_list() {
        names.push("the same as the full one");
    }
    names.sort_unstable();
    names.dedup();
    names.into_iter().map(|name| format!("a condensed list: {name}")).collect()
}

fn origin(records: &[Record], list: &[u8], at: usize) -> Byte {
    let record = &records[at - 1];
    match list[at] {
        0 => Byte::Open,
        kind if record.version == OLD && record.node_type == kind => Byte::Kept,
        _ => Byte::Filled,
    }
}

/// What became of the board at this position.
fn place_of(at: usize, record: &Record, bytes: &[Byte], list: &[u8]) -> &'static str {
    let stands = list[1..].iter().position(|&kind| kind == record.node_type);
    let filled = stands.map_or(false, |place| bytes[place] == Byte::Filled);
    let own = stands.map_or(false, |place| place + 1 == at);
    match (record.version, bytes.get(at - 1)) {
        (OLD, None) if filled => "a 1.0 board past 15, its type filled in",
        (OLD, None) => "a 1.0 board past 15, its type kept by another",
        (OLD, Some(Byte::Kept)) => "a 1.0 board at its position",
        (OLD, Some(Byte::Open)) => "a second 1.0 board of a type, its byte open",
        (OLD, Some(Byte::Filled)) => "a second 1.0 board of a type, its byte filled",
        (_, None) if filled => "a later board past 15, its type filled in",
        (_, None) => "a later board past 15, its type kept by a 1.0 board",
        _ if filled && own => "a later board, its type filled in at its position",
        _ if filled => "a later board, its type filled in at another",
        _ => "a later board, its type kept by a 1.0 board",
    }
}

fn between(bytes: &[Byte]) -> bool {
    let place = |wanted| bytes.iter().position(|&byte| byte == wanted);
    let last = bytes.iter().rposition(|&byte| byte == Byte::Filled);
    match (place(Byte::Filled), last) {
        (Some(first), Some(last)) => bytes[first..last].contains(&Byte::Kept),
        _ => false,
    }
}

/// Whether a later board has a lower position than the 1.0 board that keeps the byte
/// of their type.
fn later_below(records: &[Record]) -> bool {
    let first = |version: u8, kind: u8| {
        records.iter().position(|other| other.version == version && other.node_type == kind)
    };
    let old = records[..MOST_TYPES].iter().filter(|record| record.version == OLD);
    old.map(|record| record.node_type)
        .any(|kind| first(2, kind).map_or(false, |later| Some(later) < first(OLD, kind)))
}

/// An echo in the wait for one: of the right list, of the other form, or of none.
fn echoed(before: &Panel, line: &str, head: &str) -> Option<String> {
    let bytes = bytes_of(line);
    let (board, frame) = match (before.coordinator.phase.awaited(), before.read(&bytes)) {
        (Some((board, Exchange::List)), Ok(frame)) => (board, frame),
        _ => return None,
    };
    if frame.message_type != TYPE_ECHO {
        return None;
    }
    let version = before.record(board).version;
    let (right, other) = match version {
        OLD => (before.condensed_list(), before.node_list()),
        _ => (before.node_list(), before.condensed_list()),
    };
    let what = match frame.payload {
        payload if payload == right => "the list",
        payload if payload == other => "the list of the other version",
        [] => "nothing",
        payload if payload.len() > right.len() => "a longer list",
        payload if payload.len() < right.len() => "a shorter list",
        _ => "a list with another byte",
    };
    Some(format!("a {} board echoed {what}: {head}", named(version)))
}

#[cfg(test)]
mod tests {
    use super::*;
    use crate::draft::Draft;
    use crate::language::hex;
    use crate::script::Player;

    /// A panel of subnet 3 whose boards have these types and versions, free ones 0.
    fn with(boards: &[(u8, u8)]) -> Player {
        let mut player = Player::default();
        let pool: Vec<String> = (1..=40).map(|address| address.to_string()).collect();
        player.play(format!("setup 3 4 9 1 {}", pool.join(" ")).as_bytes());
        for (place, &(node_type, version)) in boards.iter().enumerate() {
            let counted = boards[..place].iter().filter(|board| board.0 == node_type).count();
            if node_type != 0 {
                let (mac, index) = (1 + place as u64, counted as u8);
                let record = Record { node_type, mac, version, index, ..Record::default() };
                player.panel.records[place] = record;
            }
        }
        player
    }

    /// What the list to this board is a case of, without its title.
    fn list_to(boards: &[(u8, u8)], board: usize) -> Vec<String> {
        let mut player = with(boards);
        player.panel.records[board - 1].owed = true;
        let before = player.panel.clone();
        assert!(player.play(b"turn 300").unwrap().starts_with("wait"));
        let cases = cases(&before, "turn 300", "wait list", &player.panel);
        cases.iter().map(|case| case.replace("a condensed list: ", "")).collect()
    }

    #[test]
    fn what_became_of_each_board_is_named() {
        let boards = [(2, 1), (2, 1), (7, 2), (2, 2), (5, 1), (8, 2)];
        assert!(list_to(&boards, 3).is_empty());
        let expected = [
            "a 1.0 board at its position",
            "a later board, its type filled in at another",
            "a later board, its type kept by a 1.0 board",
            "a second 1.0 board of a type, its byte filled",
        ];
        assert_eq!(list_to(&boards, 1), expected);
        let mut boards = vec![(0, 0); 20];
        (boards[0], boards[1], boards[2]) = ((3, 2), (3, 1), (2, 1));
        (boards[17], boards[18], boards[19]) = ((2, 1), (6, 1), (7, 2));
        let expected = [
            "a 1.0 board at its position",
            "a 1.0 board past 15, its type filled in",
            "a 1.0 board past 15, its type kept by another",
            "a byte kept by its position between two that were filled",
            "a later board past 15, its type filled in",
            "a later board, its type kept by a 1.0 board",
            "a type at its 1.0 board, though a later one is below it",
        ];
        assert_eq!(list_to(&boards, 2), expected);
    }

    #[test]
    fn a_full_list_is_named_and_one_that_is_the_same_in_both_forms() {
        let mut boards: Vec<(u8, u8)> = (1..=15).map(|kind| (kind, 2)).collect();
        boards[2].1 = 1;
        let full = list_to(&boards, 3);
        assert!(full.contains(&"full, the internal type among it".to_string()));
        assert!(full.contains(&"the same as the full one".to_string()));
        boards[3].0 = 99;
        let full = list_to(&boards, 3);
        assert!(full.contains(&"full, the internal type is another".to_string()));
    }

    #[test]
    fn echoes_are_named() {
        for (version, right, other) in [(1, "1.0", 2), (2, "later", 1)] {
            let mut player = with(&[(2, version), (5, other), (2, other)]);
            player.panel.records[0].owed = true;
            player.play(b"turn 64");
            let [full, condensed] = [player.panel.node_list(), player.panel.condensed_list()];
            let (list, foreign) = if version == 1 { (condensed, full) } else { (full, condensed) };
            let mut damaged = list.clone();
            damaged[1] ^= 1;
            let longer = [&list[..], &[0]].concat();
            let expected = [
                (foreign, "the list of the other version: refuse 8"),
                (damaged, "a list with another byte: refuse 8"),
                (longer, "a longer list: refuse 8"),
                (list[1..].to_vec(), "a shorter list: refuse 8"),
                (Vec::new(), "nothing: refuse 8"),
                (list, "the list: transmit"),
            ];
            for (payload, how) in expected {
                let head = how.rsplit(": ").next().unwrap();
                let draft = Draft { destination: 255, source: 1, payload, ..Draft::default() };
                let bytes = Draft { message_type: TYPE_ECHO, ..draft }.bytes();
                let line = format!("frame 29 {}", hex(&bytes));
                let name = format!("a {right} board echoed {how}");
                assert_eq!(cases(&player.panel, &line, head, &player.panel), [name]);
                let answer = player.clone_play(&line);
                assert!(answer.starts_with(head), "{answer} {how}");
            }
        }
    }

    impl Player {
        /// The answer to a line that leaves this player as it is.
        fn clone_play(&self, line: &str) -> String {
            let mut player = Player::default();
            player.panel = self.panel.clone();
            player.play(line.as_bytes()).unwrap()
        }
    }
}
