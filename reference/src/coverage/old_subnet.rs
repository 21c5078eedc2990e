//! The subnet of 1.0 boards (C-15): frames that come on it, frames that go to it, and
//! exchanges that go by the version of what was discovered.

use super::cases::{bytes_of, step};
use super::discoveries::stage;
use super::subnets::{otherwise, place};
use super::versions::named;
use crate::frame::{self, ALL_SUBNETS};
use crate::panel::{Panel, TYPE_ADDRESSED, TYPE_DISCOVERED};
use crate::state::{Exchange, Identity, Phase};
use crate::version::{of_packet, OLD, OLD_SUBNET, PACKET_VERSION};

/// What a line is a case of.
pub fn cases(before: &Panel, line: &str, head: &str, after: &Panel) -> Vec<String> {
    match step(line) {
        "turn" if head.starts_with("wait ") => sent(before, head, after).into_iter().collect(),
        "frame" if head != "bad line" => {
            let bytes = bytes_of(line);
            // 1 to 4 come before any subnet is looked at
            let read = frame::read_if(&bytes, |_| true).is_ok() && head != "refuse 22";
            if read {
                received(before, line, head, after)
            } else {
                Vec::new()
            }
        }
        _ => Vec::new(),
    }
}

/// What was discovered in the exchange that runs, once somebody was.
fn found(panel: &Panel) -> Option<Identity> {
    match panel.coordinator.phase {
        Phase::IdentifyDue { found, .. } | Phase::AssignDue { found, .. } => Some(found),
        Phase::Waiting { exchange: Exchange::Identify { found, .. }, .. } => Some(found),
        Phase::Waiting { exchange: Exchange::Assign { found }, .. } => Some(found),
        _ => None,
    }
}

/// The version that frames are now read by: of the board awaited, or of what was
/// discovered.
fn version(panel: &Panel) -> Option<u8> {
    match panel.coordinator.phase {
        Phase::Waiting { exchange: Exchange::Search, .. } => None,
        Phase::Waiting { board, exchange } if !exchange.discovers() => {
            Some(panel.record(board).version)
        }
        _ => found(panel).map(|found| found.version),
    }
}

/// Where a frame comes, and the version that it is read by.
fn place_and_version(panel: &Panel) -> String {
    match version(panel) {
        Some(version) => format!("{} ({})", place(panel), named(version)),
        None => place(panel),
    }
}

fn received(before: &Panel, line: &str, head: &str, after: &Panel) -> Vec<String> {
    let bytes = bytes_of(line);
    let (ours, subnet, place) = (before.coordinator.subnet, bytes[2], place_and_version(before));
    let mut cases = Vec::new();
    let taken = !head.starts_with("refuse ");
    match (ours, subnet) {
        (OLD_SUBNET, OLD_SUBNET) if taken => cases.push(format!("ours is 2, in {place}: taken")),
        (ALL_SUBNETS, OLD_SUBNET) if taken => {
            cases.push(format!("ours is 0, subnet 2 in {place}: taken"));
        }
        _ => (),
    }
    if ours != OLD_SUBNET && subnet == OLD_SUBNET {
        let other = match head {
            "refuse 24" => format!(", else {}", otherwise(before, &bytes, line)),
            _ => String::new(),
        };
        cases.push(format!("subnet 2 in {place}: {head}{other}"));
    }
    if taken && version(before) == Some(OLD) && ours > OLD_SUBNET {
        match subnet {
            ALL_SUBNETS => cases.push(format!("subnet 0 in {place}: taken")),
            OLD_SUBNET => (),
            _ => cases.push(format!("our subnet in {place}: taken")),
        }
    }
    cases.extend(exchanged(before, &bytes, head, after));
    cases
}

/// A frame of an exchange, or one to which an ACK goes.
fn exchanged(before: &Panel, bytes: &[u8], head: &str, after: &Panel) -> Option<String> {
    let frame = before.read(bytes).ok()?;
    let differ = before.coordinator.subnet != OLD_SUBNET;
    match (before.coordinator.phase.awaited()?, head) {
        ((_, Exchange::Search), "rest") if frame.message_type == TYPE_DISCOVERED => {
            Some(discovered(frame.packet, after))
        }
        ((at, Exchange::Assign { found }), "refuse 8") if frame.message_type == TYPE_ADDRESSED => {
            other_subnet(before, at, &found, frame.payload)
        }
        ((at, _), "transmit" | "transmit joined") if differ && found(before).is_some() => {
            let stage = stage(before).unwrap_or("");
            Some(format!("frame in {stage} ({}): {head}", at_stake(before, at)))
        }
        ((at, exchange), "transmit" | "deliver") if differ => {
            let version = named(before.record(at).version);
            Some(format!("frame: {head}, an ACK to a {version} board ({})", exchange.name()))
        }
        _ => None,
    }
}

/// By which bits of its packet number what was discovered has its version.
fn discovered(packet: u8, after: &Panel) -> String {
    let version = named(of_packet(packet));
    let bits = if packet & !PACKET_VERSION == 0 { "no other bit" } else { "other bits" };
    let fate = if found(after).is_some() { "goes on" } else { "breaks off" };
    format!("a {version} board found ({bits} in its packet number): {fate}")
}

/// An echo of Set Address with nothing wrong but its subnet.
fn other_subnet(before: &Panel, at: usize, found: &Identity, payload: &[u8]) -> Option<String> {
    let mut copy = before.clone();
    copy.coordinator.phase = Phase::AssignDue { at, found: *found };
    let mut out = [0; 64];
    let written = copy.turn(&mut out).ok()?.written;
    let sent = &out[10..written - 2];
    let (ours, told) = (before.coordinator.subnet, payload.get(1).copied()?);
    let alone = payload.len() == sent.len() && payload[2..] == sent[2..] && payload[0] == sent[0];
    let which = match told {
        _ if !alone || ours <= OLD_SUBNET => return None,
        ALL_SUBNETS => "0",
        OLD_SUBNET => "2",
        _ if told == ours => "ours",
        _ => "another",
    };
    Some(format!("a {} find echoes subnet {which}: refuse 8", named(found.version)))
}

/// What was found, and whose address is at stake.
fn at_stake(panel: &Panel, at: usize) -> String {
    let find = found(panel).map_or("", |found| named(found.version));
    match panel.record(at) {
        record if !record.listed() => format!("a {find} find, a free address"),
        record => format!("a {find} find, the address of a {} board", named(record.version)),
    }
}

/// A frame to a board, where the two subnets differ.
fn sent(before: &Panel, head: &str, after: &Panel) -> Option<String> {
    let (board, _) = after.coordinator.phase.awaited()?;
    let of = |at: usize| named(before.record(at).version);
    let to = match &before.coordinator.phase {
        _ if before.coordinator.subnet == OLD_SUBNET => return None,
        Phase::ForwardDue { to, requester, .. } => {
            format!("from a {} board to a {} one", of(*requester), of(*to))
        }
        Phase::IdentifyDue { at, .. } | Phase::AssignDue { at, .. } => at_stake(before, *at),
        _ => format!("to a {} board", of(board)),
    };
    Some(format!("turn: {head} ({to})"))
}

#[cfg(test)]
mod tests {
    use super::super::cases::head;
    use super::*;
    use crate::draft::Draft;
    use crate::language::hex;
    use crate::script::Player;

    /// A 1.0 board at address 16 and a later one at 17, on this subnet.
    fn with_boards(subnet: u8) -> Player {
        let mut player = Player::default();
        player.play(format!("setup {subnet} 1 9 1 16 17 18").as_bytes());
        for line in ["join 2 7 8 1", "join 3 8 8 2"] {
            player.play(line.as_bytes());
            player.panel.records.iter_mut().for_each(|record| record.owed = false);
            player.panel.coordinator.held = false;
        }
        player
    }

    fn play(player: &mut Player, line: &str) -> Vec<String> {
        let before = player.panel.clone();
        let answer = player.play(line.as_bytes()).unwrap();
        cases(&before, line, &head(&answer), &player.panel)
    }

    fn give(player: &mut Player, draft: Draft) -> Vec<String> {
        let bytes = Draft { destination: 255, ..draft }.bytes();
        play(player, &format!("frame 29 {}", hex(&bytes)))
    }

    fn ack(source: u8, subnet: u8, mac: u64) -> Draft {
        let payload = [&[6][..], &mac.to_le_bytes(), &8u64.to_le_bytes()].concat();
        Draft { source, subnet, payload, ..Draft::default() }
    }

    #[test]
    fn subnet_2_is_seen_by_the_version_of_the_board_awaited() {
        let mut player = with_boards(3);
        assert_eq!(
            give(&mut player, ack(16, 2, 7)),
            ["subnet 2 in no wait: refuse 24, else refuse 6"]
        );
        assert_eq!(play(&mut player, "turn 64"), ["turn: wait offer (to a 1.0 board)"]);
        assert_eq!(give(&mut player, ack(17, 2, 7)), ["subnet 2 in offer (1.0): refuse 6"]);
        assert!(give(&mut player, ack(16, 4, 7)).is_empty());
        assert_eq!(give(&mut player, ack(16, 2, 7)), ["subnet 2 in offer (1.0): rest"]);
        assert_eq!(play(&mut player, "turn 64"), ["turn: wait offer (to a later board)"]);
        let refused = "subnet 2 in offer (later): refuse 24, else rest";
        assert_eq!(give(&mut player, ack(17, 2, 8)), [refused]);
        let request = Draft { message_type: 3, method: 3, parameter1: 1, ..ack(17, 3, 8) };
        let acked = "frame: transmit, an ACK to a later board (offer)";
        assert_eq!(give(&mut player, request), [acked]);
        let forward = "turn: wait forward (from a later board to a 1.0 one)";
        assert_eq!(play(&mut player, "turn 64"), [forward]);
        assert_eq!(give(&mut player, ack(16, 3, 7)), ["our subnet in forward (1.0): taken"]);
        let response = Draft { message_type: 131, ..ack(16, 0, 7) };
        let expected = [
            "subnet 0 in forward, acknowledged (1.0): taken",
            "frame: transmit, an ACK to a 1.0 board (forward)",
        ];
        assert_eq!(give(&mut player, response), expected);
        assert_eq!(play(&mut player, "turn 64"), ["turn: wait return (to a later board)"]);
    }

    #[test]
    fn setups_of_subnets_2_and_0_are_seen() {
        let mut player = with_boards(2);
        assert!(play(&mut player, "turn 64").is_empty());
        assert_eq!(give(&mut player, ack(16, 2, 7)), ["ours is 2, in offer (1.0): taken"]);
        let mut player = with_boards(0);
        play(&mut player, "turn 64");
        let expected =
            ["ours is 0, subnet 2 in offer (1.0): taken", "subnet 2 in offer (1.0): rest"];
        assert_eq!(give(&mut player, ack(16, 2, 7)), expected);
    }

    fn numbers(mac: u64) -> Vec<u8> {
        [mac.to_le_bytes(), 8u64.to_le_bytes()].concat()
    }

    /// A 1.0 board with the MAC of the later one is found.
    #[test]
    fn an_exchange_is_seen_by_what_was_found_and_whose_address_is_at_stake() {
        let mut player = with_boards(3);
        play(&mut player, "discover 64");
        let payload = [&[3, 0][..], &numbers(8)].concat();
        let response = Draft { message_type: 0xF9, packet: 0x21, payload, ..ack(0, 2, 8) };
        let expected = [
            "subnet 2 in search: rest",
            "a 1.0 board found (other bits in its packet number): goes on",
        ];
        assert_eq!(give(&mut player, response), expected);
        let stray = "subnet 2 in no wait, identify due (1.0): refuse 6";
        assert_eq!(give(&mut player, ack(17, 2, 8)), [stray]);
        let stake = "a 1.0 find, the address of a later board";
        assert_eq!(play(&mut player, "turn 64"), [format!("turn: wait identify ({stake})")]);
        play(&mut player, "quiet");
        assert_eq!(play(&mut player, "turn 64"), [format!("turn: wait assign ({stake})")]);
        let echo = |subnet| [&[17, subnet][..], &numbers(8), &[1]].concat();
        for (subnet, which) in [(3, "ours"), (0, "0"), (9, "another")] {
            let draft = Draft { message_type: 0xFA, payload: echo(subnet), ..ack(17, 3, 8) };
            let expected = format!("a 1.0 find echoes subnet {which}: refuse 8");
            assert_eq!(give(&mut player, draft), [expected]);
        }
        let draft = Draft { message_type: 0xFA, payload: echo(2), ..ack(17, 2, 8) };
        let expected = [
            "subnet 2 in assign (1.0): transmit joined".to_string(),
            format!("frame in assign ({stake}): transmit joined"),
        ];
        assert_eq!(give(&mut player, draft), expected);
    }
}
