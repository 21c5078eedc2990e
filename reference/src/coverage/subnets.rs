//! Frames of other subnets (C-14): what each would have been, were its subnet
//! ours, and what becomes of the wait that it came in.

use super::cases::{bytes_of, due, head, step};
use crate::checksum;
use crate::frame::ALL_SUBNETS;
use crate::language::hex;
use crate::panel::Panel;
use crate::script::Player;
use crate::state::Exchange;
use std::collections::BTreeMap;

#[derive(Clone, Debug, Default)]
pub struct Subnets {
    /// In this wait a frame was refused by 24 that it would have taken.
    overheard: bool,
    /// By MAC, in how many of the waits that it missed since it was heard that
    /// was so.
    missed: BTreeMap<u64, u8>,
}

impl Subnets {
    /// What a line is a case of.
    pub fn note(&mut self, before: &Panel, line: &str, head: &str, after: &Panel) -> Vec<String> {
        match (step(line), head) {
            ("setup", "ready") => {
                *self = Subnets::default();
                vec![format!("setup: ready ({})", named(after.coordinator.subnet))]
            }
            ("frame", "refuse 24") => self.note_refused(before, line),
            ("frame", _) if head.starts_with("refuse ") => other_number(before, line, head),
            ("frame", "bad line") => Vec::new(),
            ("frame", _) => self.note_taken(before, line, head),
            ("quiet", "rest" | "rest dropped") => self.note_quiet(before, head),
            ("turn", _) if head.starts_with("wait ") => {
                self.overheard = false;
                Vec::new()
            }
            _ => Vec::new(),
        }
    }

    fn note_refused(&mut self, before: &Panel, line: &str) -> Vec<String> {
        let (bytes, ours) = (bytes_of(line), before.coordinator.subnet);
        let (place, otherwise) = (place(before), otherwise(before, &bytes, line));
        self.overheard |= !otherwise.starts_with("refuse ");
        let mut cases = vec![
            format!("another subnet in {place}: refuse 24, else {otherwise}"),
            format!("another subnet ({}): refuse 24", beside(ours, bytes[2])),
        ];
        if ours == ALL_SUBNETS {
            cases.push(format!("another subnet in {place}, ours is 0: refuse 24"));
        }
        if bytes[bytes.len() - 2..].contains(&0) {
            cases.push("another subnet, a check byte 0: refuse 24".to_string());
        }
        cases
    }

    fn note_taken(&mut self, before: &Panel, line: &str, head: &str) -> Vec<String> {
        let (place, mut cases) = (place(before), Vec::new());
        if std::mem::take(&mut self.overheard) {
            cases.push(format!("frame in {place} after one of another subnet: taken"));
        }
        match (before.coordinator.subnet, bytes_of(line)[2]) {
            (ALL_SUBNETS, ALL_SUBNETS) => {
                cases.push(format!("subnet 0 in {place}, ours is 0: taken"))
            }
            (_, ALL_SUBNETS) => cases.push(format!("subnet 0 in {place}: {head}")),
            _ => (),
        }
        cases
    }

    /// What was overheard is no answer: where nothing else came it is a miss, and
    /// the third in a row drops the board.
    fn note_quiet(&mut self, before: &Panel, head: &str) -> Vec<String> {
        let overheard = std::mem::take(&mut self.overheard);
        let mut cases = Vec::new();
        if overheard {
            cases.push(format!("quiet in {} after one of another subnet: {head}", place(before)));
        }
        let (board, exchange) = match before.coordinator.phase.awaited() {
            Some(wait) => wait,
            None => return cases,
        };
        if exchange.discovers() || matches!(exchange, Exchange::Forward { acked: true, .. }) {
            return cases;
        }
        let record = before.record(board);
        let earlier = self.missed.get(&record.mac).filter(|_| record.misses > 0);
        let missed = earlier.copied().unwrap_or(0) + u8::from(overheard);
        self.missed.insert(record.mac, missed);
        if missed == 3 {
            cases.push(format!("{head}, though another subnet answered all three times"));
        }
        cases
    }
}

/// One of the subnets that setups often have, or another.
fn named(subnet: u8) -> String {
    match subnet {
        0 | 2 | 3 | 255 => format!("subnet {subnet}"),
        _ => "another subnet".to_string(),
    }
}

/// How a subnet that is not taken stands to ours.
fn beside(ours: u8, other: u8) -> &'static str {
    match other {
        255 => "255",
        _ if other.wrapping_sub(ours) == 1 => "one above ours",
        _ if ours.wrapping_sub(other) == 1 => "one below ours",
        _ if (ours ^ other).count_ones() == 1 => "a bit from ours",
        _ if other > ours => "above ours",
        _ => "below ours",
    }
}

/// The wait that a frame comes in, an acknowledged one by itself, or what is due.
pub fn place(panel: &Panel) -> String {
    match panel.coordinator.phase.awaited() {
        Some((_, exchange)) => {
            let acked = match exchange {
                Exchange::Forward { acked, .. } | Exchange::Identify { acked, .. } => acked,
                _ => false,
            };
            format!("{}{}", exchange.name(), if acked { ", acknowledged" } else { "" })
        }
        None if due(panel) == "offer" => "no wait".to_string(),
        None => format!("no wait, {} due", due(panel)),
    }
}

/// The answer to the same line with our subnet in its frame, and check bytes
/// that fit.
pub fn otherwise(before: &Panel, bytes: &[u8], line: &str) -> String {
    let mut bytes = bytes.to_vec();
    bytes[2] = before.coordinator.subnet;
    let body = bytes.len() - 2;
    let tail = checksum::check_bytes(&bytes[..body]);
    bytes[body..].copy_from_slice(&tail);
    let room = line.split(' ').nth(1).unwrap_or("0");
    let mut player = Player::default();
    player.panel = before.clone();
    let answer = player.play(format!("frame {room} {}", hex(&bytes)).as_bytes());
    head(&answer.unwrap_or_default())
}

/// Refused by 1 to 4, which come before 24, though its subnet is another; or,
/// with subnet 0, by one of those that come after it.
fn other_number(before: &Panel, line: &str, head: &str) -> Vec<String> {
    let ours = before.coordinator.subnet;
    let early = ["refuse 1", "refuse 2", "refuse 3", "refuse 4"].contains(&head);
    match bytes_of(line).get(2) {
        Some(&subnet) if early && !before.takes(subnet) => {
            vec![format!("another subnet: {head}")]
        }
        Some(&ALL_SUBNETS) if !early && ours != ALL_SUBNETS => {
            vec![format!("subnet 0 in {}: {head}", place(before))]
        }
        _ => Vec::new(),
    }
}

#[cfg(test)]
mod tests {
    use super::*;
    use crate::draft::Draft;

    /// One board, at address 16, on this subnet.
    fn with_board(subnet: u8) -> (Player, Subnets) {
        let mut player = Player::default();
        player.play(format!("setup {subnet} 1 9 1 16 17").as_bytes());
        player.play(b"join 2 7 8 2");
        player.panel.records[0].owed = false;
        (player, Subnets::default())
    }

    fn play((player, subnets): &mut (Player, Subnets), line: &str) -> Vec<String> {
        let before = player.panel.clone();
        let answer = player.play(line.as_bytes()).unwrap();
        subnets.note(&before, line, &head(&answer), &player.panel)
    }

    /// The board's ACK, with this subnet byte.
    fn ack(subnet: u8) -> Draft {
        let payload = [&[6][..], &7u64.to_le_bytes(), &8u64.to_le_bytes()].concat();
        Draft { destination: 255, source: 16, subnet, payload, ..Draft::default() }
    }

    fn line(draft: &Draft) -> String {
        format!("frame 29 {}", hex(&draft.bytes()))
    }

    #[test]
    fn what_a_frame_would_have_been_is_named() {
        let mut played = with_board(3);
        let at =
            |place, otherwise| format!("another subnet in {place}: refuse 24, else {otherwise}");
        let beside = |how| format!("another subnet ({how}): refuse 24");
        let stray = play(&mut played, &line(&ack(255)));
        assert_eq!(stray, [at("no wait", "refuse 6"), beside("255")]);
        play(&mut played, "turn 64");
        let expected = [
            (ack(4), "rest", "one above ours"),
            (Draft { destination: 2, ..ack(2) }, "refuse 5", "one below ours"),
            (Draft { message_type: 0xF9, ..ack(11) }, "refuse 23", "a bit from ours"),
            (Draft { source: 17, ..ack(12) }, "refuse 6", "above ours"),
            (Draft { message_type: 200, ..ack(12) }, "refuse 7", "above ours"),
            (Draft { message_type: 3, ..ack(12) }, "deliver", "above ours"),
        ];
        for (draft, otherwise, how) in expected {
            let cases = play(&mut played, &line(&draft));
            assert_eq!(cases, [at("offer", otherwise), beside(how)]);
        }
        let taken = play(&mut played, &line(&ack(0)));
        let after = "frame in offer after one of another subnet: taken";
        assert_eq!(taken, [after, "subnet 0 in offer: rest"]);
    }

    #[test]
    fn numbers_before_24_are_named_and_those_after_it_with_subnet_0() {
        let mut played = with_board(3);
        let mut damaged = ack(4).bytes();
        damaged[8] ^= 1;
        let damaged = format!("frame 29 {}", hex(&damaged));
        assert_eq!(play(&mut played, &damaged), ["another subnet: refuse 4"]);
        assert_eq!(play(&mut played, &line(&ack(0))), ["subnet 0 in no wait: refuse 6"]);
        assert!(play(&mut played, &line(&ack(3))).is_empty());
        assert!(play(&mut played, "frame 29 0G").is_empty());
    }

    #[test]
    fn a_setup_with_subnet_0_is_seen() {
        let mut played = with_board(0);
        let setup = play(&mut played, "setup 0 1 9 1 16 17");
        assert_eq!(setup, ["setup: ready (subnet 0)"]);
        let mut played = with_board(0);
        play(&mut played, "turn 64");
        let refused = play(&mut played, &line(&ack(1)));
        assert_eq!(refused[2..], ["another subnet in offer, ours is 0: refuse 24"]);
        let taken = play(&mut played, &line(&ack(0)));
        assert_eq!(taken[1..], ["subnet 0 in offer, ours is 0: taken"]);
    }

    /// Three waits; in the first the other system answers or does not.
    fn three_misses(first: bool) -> Vec<String> {
        let mut played = with_board(3);
        let mut last = Vec::new();
        for answers in [first, true, true] {
            play(&mut played, "turn 64");
            if answers {
                play(&mut played, &line(&ack(4)));
            }
            last = play(&mut played, "quiet");
        }
        last
    }

    #[test]
    fn a_drop_is_seen_though_another_subnet_answered() {
        let quiet = "quiet in offer after one of another subnet: rest dropped";
        let thrice = "rest dropped, though another subnet answered all three times";
        assert_eq!(three_misses(true), [quiet, thrice]);
        assert_eq!(three_misses(false), [quiet]);
    }
}
