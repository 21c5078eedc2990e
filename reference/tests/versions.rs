//! Boards that speak 1.0 (C-15): their subnet, their list, how an exchange goes by the
//! version of what it found, and how many types the network may hold.

mod common;

use common::waits::{ack, give, search, to, waits, without_a_wait, Bus, NEW, POOL};
use common::{ack_payload, ready_on, refused, refused_frame, rest, transmit, turn};
use reference::draft::Draft;
use reference::frame;
use reference::panel::{Action, Outcome, Panel};
use reference::prng::Prng;
use reference::refusal::Refusal;
use reference::state::{Exchange, Phase};
use reference::version::{LATER, OLD};

/// The subnets of setups that are tried.
const OURS: [u8; 5] = [3, 2, 0, 1, 255];

/// The subnet of a board of this version.
fn subnet_of(version: u8, ours: u8) -> u8 {
    match version {
        OLD => 2,
        _ => ours,
    }
}

/// Nothing owed, nothing held.
fn settled(panel: &mut Panel) {
    panel.records.iter_mut().for_each(|record| record.owed = false);
    panel.coordinator.held = false;
}

/// Boards of these types and versions, with the MACs 1, 2, ...; the pool has so many
/// addresses, from 1 on.
fn with(k: u8, boards: &[(u8, u8)]) -> Panel {
    let mut panel = ready_on(3, &(1..=k).collect::<Vec<u8>>());
    for (place, &(node_type, version)) in boards.iter().enumerate() {
        panel.join(node_type, 1 + place as u64, 0, version).unwrap();
        settled(&mut panel);
    }
    panel
}

/// So many later boards of the types 1, 2, ...
fn later_types(count: u8) -> Vec<(u8, u8)> {
    (1..=count).map(|kind| (kind, LATER)).collect()
}

// ---- the version on record ----------------------------------------------

#[test]
fn a_join_replaces_the_version_as_it_does_the_type() {
    let mut panel = with(4, &[(2, LATER), (3, OLD)]);
    assert_eq!((panel.record(1).version, panel.record(2).version), (2, 1));
    assert_eq!((panel.record(3).version, panel.record(4).version), (0, 0));
    for (byte, kept) in [(1, 1), (0, 2), (1, 1), (255, 2), (1, 1), (2, 2), (3, 2)] {
        assert_eq!(panel.join(2, 1, 0, byte).unwrap().joined, 1);
        assert_eq!((panel.record(1).version, panel.record(2).version), (kept, 1));
        settled(&mut panel);
    }
    for version in [1, 2] {
        let mut dropped = with(4, &[(2, version)]);
        dropped.records[0].misses = 2;
        turn(&mut dropped);
        assert_eq!(dropped.quiet().unwrap().dropped, 1);
        assert_eq!(dropped.records, Panel::default().records);
    }
}

/// Only the word behind a join and the bit in a search tell it.
#[test]
fn no_frame_changes_the_version_of_a_listed_board() {
    for bus in [Bus::old(3), Bus::later(3)] {
        for (panel, frames) in waits(bus) {
            let before: Vec<u8> = panel.records[..2].iter().map(|r| r.version).collect();
            for draft in frames {
                for packet in [0, 0x20, 0x80, 0xFF] {
                    let mut after = panel.clone();
                    give(&mut after, &Draft { packet, ..draft.clone() }).unwrap();
                    let kept: Vec<u8> = after.records[..2].iter().map(|r| r.version).collect();
                    assert_eq!(kept, before);
                }
            }
        }
    }
}

// ---- the subnet of what is sent -------------------------------------------

/// What each due writes, with the subnet at offset 2.
#[test]
fn own_frames_forwards_and_returns_carry_the_boards_subnet() {
    for ours in OURS {
        for bus in [Bus::old(ours), Bus::later(ours)] {
            // at rest, a list, a forward, a return, Get Node ID, Set Address
            let to_all = [false, false, false, false, false, true];
            for (mut due, to_all) in without_a_wait(bus).into_iter().skip(1).zip(to_all) {
                let sent = turn(&mut due).2;
                let expected = if to_all { 0 } else { subnet_of(bus.version, ours) };
                assert_eq!(sent[2], expected, "{bus:?} {sent:?}");
            }
        }
    }
}

#[test]
fn an_ack_carries_the_boards_subnet_whatever_its_frame_carried() {
    for ours in OURS {
        for bus in [Bus::old(ours), Bus::later(ours)] {
            for (panel, frames) in waits(bus) {
                for draft in frames {
                    for subnet in [0, ours, subnet_of(bus.version, ours)] {
                        let (mut after, mut out) = (panel.clone(), [0; 29]);
                        let bytes = Draft { subnet, ..draft.clone() }.bytes();
                        if after.frame(&bytes, &mut out).unwrap().written > 0 {
                            assert_eq!(out[2], subnet_of(bus.version, ours), "{bus:?}");
                        }
                    }
                }
            }
        }
    }
}

/// A 1.0 board asks a later one, and the reverse.
#[test]
fn a_request_passes_from_one_subnet_to_the_other_and_back() {
    for (first, second) in [(OLD, LATER), (LATER, OLD)] {
        let mut panel = with(4, &[(2, first), (5, second)]);
        let (own, other) = (subnet_of(first, 3), subnet_of(second, 3));
        assert_eq!(turn(&mut panel).2[2], own);
        let request = Draft { method: 2, parameter1: 5, subnet: own, ..to(&panel, 1, 3, &[7]) };
        assert_eq!(give(&mut panel, &request), transmit(29));
        assert_eq!(turn(&mut panel).2[..3], [2, 255, other]);
        let response = Draft { subnet: other, ..to(&panel, 2, 131, &[8]) };
        assert_eq!(give(&mut panel, &response), transmit(29));
        assert_eq!(turn(&mut panel).2[..3], [1, 255, own]);
        let ack = Draft { subnet: own, ..ack(&panel, 1) };
        assert_eq!(give(&mut panel, &ack), rest());
    }
}

// ---- the subnets that are taken ---------------------------------------------

/// At rest and while a list, a forward or a return is due nobody is awaited, so 2 is
/// a subnet like any other, though all boards speak 1.0.
#[test]
fn subnet_2_is_another_subnet_where_nobody_is_awaited() {
    for panel in without_a_wait(Bus::old(3)).iter_mut() {
        let frame = Draft { subnet: 2, ..ack(panel, 1) };
        let number = match panel.coordinator.phase {
            Phase::IdentifyDue { .. } | Phase::AssignDue { .. } => Refusal::NotAwaited,
            _ => Refusal::OtherSubnet,
        };
        refused_frame(panel, number, &frame.bytes());
        let foreign = Draft { destination: 9, ..frame };
        let number = match number {
            Refusal::NotAwaited => Refusal::NotForUs,
            other => other,
        };
        refused_frame(panel, number, &foreign.bytes());
    }
}

/// It is the version of the board awaited, not of any other.
#[test]
fn another_1_0_board_does_not_open_subnet_2() {
    let mut panel = with(4, &[(2, LATER), (5, OLD)]);
    for (board, taken) in [(1, false), (2, true)] {
        assert_eq!(turn(&mut panel).0, board);
        let answer = Draft { subnet: 2, ..ack(&panel, board) };
        match taken {
            true => assert_eq!(give(&mut panel, &answer), rest()),
            false => {
                refused_frame(&mut panel, Refusal::OtherSubnet, &answer.bytes());
                assert_eq!(give(&mut panel, &Draft { subnet: 3, ..answer }), rest());
            }
        }
    }
}

// ---- the condensed list ---------------------------------------------------

/// 000, table 6, by positions: two 1.0 boards, then two later ones of a type and a
/// second of the first's.
#[test]
fn a_1_0_board_is_sent_the_condensed_list_and_a_later_one_the_full() {
    let boards = [(1, OLD), (5, OLD), (24, LATER), (24, LATER), (1, LATER)];
    let condensed = [1, 1, 5, 24, 0, 0, 0, 0, 0, 0, 0, 0, 0, 0, 0, 0];
    let full = [1, 1, 5, 24, 24, 1];
    for board in 1..=5 {
        let mut panel = with(5, &boards);
        panel.records[board - 1].owed = true;
        let list = if board < 3 { &condensed[..] } else { &full };
        let other = if board < 3 { &full[..] } else { &condensed };
        let (named, exchange, sent) = turn(&mut panel);
        assert_eq!((named, exchange), (board, Exchange::List));
        assert_eq!((sent[9], &sent[10..sent.len() - 2]), (list.len() as u8, list));
        for wrong in [other, &list[1..], &[list, &[0]].concat(), &[]] {
            let echo = to(&panel, board as u8, 0x94, wrong).bytes();
            refused_frame(&mut panel, Refusal::BadEcho, &echo);
        }
        for place in 0..list.len() {
            let mut damaged = list.to_vec();
            damaged[place] ^= 1;
            let echo = to(&panel, board as u8, 0x94, &damaged).bytes();
            refused_frame(&mut panel, Refusal::BadEcho, &echo);
        }
        let echo = to(&panel, board as u8, 0x94, list);
        assert_eq!(give(&mut panel, &echo), transmit(29));
    }
}

#[test]
fn a_turn_needs_room_for_the_form_that_is_due() {
    for (version, room) in [(OLD, 28), (LATER, 14)] {
        let mut panel = with(5, &[(2, version)]);
        panel.records[0].owed = true;
        refused(&mut panel, Refusal::NoRoom, |panel, _| panel.turn(&mut vec![0; room - 1]));
        assert_eq!(panel.turn(&mut vec![0; room]).unwrap().written, room);
    }
}

/// A board that comes back as one of another version is sent the other form.
#[test]
fn the_form_goes_by_the_last_join() {
    let mut panel = with(5, &[(2, LATER)]);
    for (version, length) in [(1, 16), (2, 2), (1, 16)] {
        panel.join(2, 1, 0, version).unwrap();
        assert_eq!(turn(&mut panel).2[9], length);
        assert_eq!(panel.quiet(), rest());
        settled(&mut panel);
        panel.records[0].misses = 0;
    }
}

// ---- too many types -------------------------------------------------------

fn join(panel: &Panel, node_type: u8, mac: u64, version: u8) -> Result<usize, Refusal> {
    panel.clone().join(node_type, mac, 0, version).map(|outcome| outcome.joined)
}

#[test]
fn fifteen_types_are_the_most_beside_a_1_0_board() {
    for place in 0..15 {
        let mut boards = later_types(15);
        boards[place].1 = OLD;
        let panel = with(40, &boards);
        for version in [OLD, LATER] {
            assert_eq!(join(&panel, 16, 50, version), Err(Refusal::TooManyTypes));
            assert_eq!(join(&panel, 15, 50, version), Ok(16));
            // every type is that of one board alone, so it goes with its board
            assert_eq!(join(&panel, 16, 3, version), Ok(3));
        }
    }
}

#[test]
fn no_number_of_types_is_too_many_without_a_1_0_board() {
    let boards = later_types(39);
    let panel = with(40, &boards);
    assert_eq!(join(&panel, 77, 50, LATER), Ok(40));
    for (node_type, mac) in [(77, 50), (1, 50), (1, 1), (39, 1)] {
        assert_eq!(join(&panel, node_type, mac, OLD), Err(Refusal::TooManyTypes));
        assert!(join(&panel, node_type, mac, LATER).is_ok());
    }
}

/// The only 1.0 board may become a later one of a sixteenth type.
#[test]
fn the_old_record_of_a_board_that_comes_back_does_not_count() {
    let mut boards = later_types(15);
    boards.push((1, OLD));
    let panel = with(16, &boards);
    assert_eq!(join(&panel, 99, 16, OLD), Err(Refusal::TooManyTypes));
    assert_eq!(join(&panel, 99, 16, LATER), Ok(16));
    assert_eq!(join(&panel, 99, 2, LATER), Ok(2));
    assert_eq!(join(&panel, 99, 1, LATER), Err(Refusal::TooManyTypes));
    assert_eq!(join(&panel, 2, 1, LATER), Ok(1));
}

#[test]
fn the_internal_type_does_not_count() {
    for internal in [1, 15, 16, 99] {
        let mut panel = with(40, &later_types(14));
        panel.coordinator.internal = internal;
        assert_eq!(join(&panel, 15, 50, OLD), Ok(15));
        panel.join(15, 50, 0, OLD).unwrap();
        settled(&mut panel);
        assert_eq!(join(&panel, 16, 51, LATER), Err(Refusal::TooManyTypes));
    }
}

#[test]
fn number_25_comes_after_15_and_before_16() {
    let mut boards = later_types(15);
    boards[0].1 = OLD;
    // full, so the join of a listed type gets 16
    let mut panel = with(15, &boards);
    let tries: [(u8, u64, Refusal); 5] = [
        (0, 0, Refusal::BadType),
        (16, 0, Refusal::BadMac),
        (16, 1 << 56, Refusal::BadMac),
        (16, 50, Refusal::TooManyTypes),
        (15, 50, Refusal::Full),
    ];
    for (node_type, mac, number) in tries {
        refused(&mut panel, number, |panel, _| panel.join(node_type, mac, 0, 2));
    }
    panel.coordinator.held = true;
    refused(&mut panel, Refusal::Held, |panel, _| panel.join(16, 50, 0, 2));
    panel.records[0].owed = true;
    refused(&mut panel, Refusal::Busy, |panel, _| panel.join(16, 50, 0, 2));
    panel.records[0].version = 0;
    refused(&mut panel, Refusal::StateUnfit, |panel, _| panel.join(16, 50, 0, 2));
}

/// Random tables of few and many types, counted in another way.
#[test]
fn number_25_is_given_exactly_when_a_1_0_board_would_be_among_more_than_15_types() {
    let (mut rng, mut refusals) = (Prng::new(15), 0);
    for _ in 0..400 {
        let old = rng.pick(&[0, 3, 30]);
        let mut boards = Vec::new();
        let mut panel = ready_on(3, &(1..=20).collect::<Vec<u8>>());
        for mac in 1..=20 {
            let version = if rng.chance(old) { OLD } else { LATER };
            let kind = rng.between(1, 40) as u8;
            if panel.join(kind, mac, 0, version).is_ok() {
                boards.push((mac, kind, version));
            }
            settled(&mut panel);
        }
        let (mac, kind) = (rng.between(1, 25) as u64, rng.between(1, 40) as u8);
        let version = rng.pick(&[OLD, LATER]);
        boards.retain(|board| board.0 != mac);
        boards.push((mac, kind, version));
        let types = (1..=40).filter(|kind| boards.iter().any(|board| board.1 == *kind)).count();
        let expected = types > 15 && boards.iter().any(|board| board.2 == OLD);
        assert_eq!(join(&panel, kind, mac, version) == Err(Refusal::TooManyTypes), expected);
        refusals += usize::from(expected);
    }
    assert!((50..350).contains(&refusals), "{refusals}");
}

// ---- an exchange by the version of what was found --------------------------

fn numbers(mac: u64) -> Vec<u8> {
    [mac.to_le_bytes(), NEW.2.to_le_bytes()].concat()
}

/// A panel in search finds a board of this type and MAC.
fn find(panel: &mut Panel, node_type: u8, mac: u64, packet: u8, subnet: u8) -> bool {
    let payload = [&[node_type, 0][..], &numbers(mac)].concat();
    let response = Draft { packet, subnet, ..to(panel, 0, 0xF9, &payload) };
    assert_eq!(give(panel, &response), rest());
    panel.coordinator.phase.discovers()
}

fn identified(panel: &Panel, address: u8, node_type: u8, mac: u64) -> Draft {
    to(panel, address, 0xFB, &[&[node_type][..], &numbers(mac)].concat())
}

#[test]
fn bit_5_of_the_packet_number_alone_tells_the_version() {
    for packet in 0..=255 {
        for subnet in [0, 2, 3] {
            let mut panel = search(Bus::later(3));
            assert!(find(&mut panel, 5, 103, packet, subnet));
            let expected = if packet & 0x20 != 0 { OLD } else { LATER };
            match panel.coordinator.phase {
                Phase::IdentifyDue { found, .. } => assert_eq!(found.version, expected),
                ref other => panic!("{other:?}"),
            }
        }
    }
}

/// The records at rest are of the other version, so only the find can tell.
#[test]
fn a_find_is_asked_addressed_acknowledged_and_listed_by_its_version() {
    for ours in OURS {
        for (packet, version, others) in [(0x20, OLD, LATER), (0, LATER, OLD)] {
            for (mac, at) in [(103, 3), (2, 2)] {
                let mut panel = search(Bus { ours, version: others });
                assert!(find(&mut panel, 5, mac, packet, 0));
                is_addressed_on(&mut panel, at, subnet_of(version, ours));
                assert_eq!(panel.record(at).version, version);
            }
        }
    }
}

/// From Get Node ID on: nobody has the address, and what was found takes it.
fn is_addressed_on(panel: &mut Panel, at: usize, subnet: u8) {
    let address = POOL[at - 1];
    let (named, _, sent) = turn(panel);
    assert_eq!((named, &sent[..3], sent[7]), (at, &[address, 255, subnet][..], 0x7B));
    assert_eq!(panel.quiet(), rest());
    let sent = turn(panel).2;
    assert_eq!((&sent[..3], sent[7]), (&[0, 255, 0][..], 0x7A));
    assert_eq!(sent[10..12], [address, subnet]);
    for wrong in (0..=255).filter(|&wrong| wrong != subnet) {
        let mut echo = sent[10..29].to_vec();
        echo[1] = wrong;
        let echo = to(panel, address, 0xFA, &echo).bytes();
        refused_frame(panel, Refusal::BadEcho, &echo);
    }
    let mut out = [0; 29];
    let echo = Draft { subnet: 0, ..to(panel, address, 0xFA, &sent[10..29]) };
    let outcome = panel.frame(&echo.bytes(), &mut out).unwrap();
    assert_eq!((outcome.action, outcome.joined), (Action::Transmit, at));
    assert_eq!(out[..3], [address, 255, subnet]);
}

/// Who answers at the address has the version of what was found; what he brings is
/// his own type, MAC and session.
#[test]
fn a_recovered_board_has_the_version_of_the_find() {
    for (packet, version) in [(0x20, OLD), (0x2F, OLD), (0, LATER), (0xDF, LATER)] {
        for answer_packet in [0, 0x20] {
            let mut panel = search(Bus { ours: 3, version: 3 - version });
            assert!(find(&mut panel, 5, 103, packet, 0));
            turn(&mut panel);
            let mut out = [0; 29];
            let answer =
                Draft { packet: answer_packet, subnet: 3, ..identified(&panel, 9, 4, 900) };
            let outcome = panel.frame(&answer.bytes(), &mut out).unwrap();
            assert_eq!((outcome.joined, out[2]), (3, subnet_of(version, 3)));
            let record = panel.record(3);
            assert_eq!((record.node_type, record.mac, record.session), (4, 900, NEW.2));
            assert_eq!(record.version, version);
        }
    }
}

/// The ACK goes where the answer came from, though nobody joins and the record there
/// is of the other version.
#[test]
fn an_ack_that_joins_nobody_goes_by_the_find_and_not_by_the_record() {
    for (packet, version) in [(0x20, OLD), (0, LATER)] {
        for (mac, address) in [(2, 5), (103, 9)] {
            let mut panel = search(Bus { ours: 3, version: 3 - version });
            let before = panel.records.clone();
            assert!(find(&mut panel, 5, mac, packet, 0));
            assert_eq!(turn(&mut panel).2[2], subnet_of(version, 3));
            let mut out = [0; 29];
            let answer = identified(&panel, address, 0, mac);
            let outcome = panel.frame(&answer.bytes(), &mut out).unwrap();
            assert_eq!(Ok(Outcome { joined: 0, ..outcome }), transmit(29));
            assert_eq!((outcome.joined, out[2]), (0, subnet_of(version, 3)));
            assert_eq!(panel.records, before);
        }
    }
}

/// Every frame that an exchange takes, on every subnet, is in subnets.rs; here is the
/// reverse: the record at stake is a 1.0 board's, and the find a later one.
#[test]
fn subnet_2_is_taken_by_the_find_and_not_by_the_record_at_stake() {
    for (packet, taken) in [(0x20, true), (0, false)] {
        let others = if taken { LATER } else { OLD };
        let mut panel = search(Bus { ours: 3, version: others });
        assert!(find(&mut panel, 5, 2, packet, 2));
        let stray = Draft { subnet: 2, ..to(&panel, 5, 0, &ack_payload(2, 102)) };
        let refusal = |number| if taken { number } else { Refusal::OtherSubnet };
        refused_frame(&mut panel, refusal(Refusal::NotAwaited), &stray.bytes());
        turn(&mut panel);
        let other = Draft { source: 77, ..stray.clone() };
        refused_frame(&mut panel, refusal(Refusal::NotAwaited), &other.bytes());
        if taken {
            assert!(give(&mut panel.clone(), &stray).is_ok());
        } else {
            refused_frame(&mut panel, Refusal::OtherSubnet, &stray.bytes());
        }
        assert_eq!(panel.quiet(), rest());
        refused_frame(&mut panel, refusal(Refusal::NotAwaited), &stray.bytes());
        turn(&mut panel);
        refused_frame(&mut panel, refusal(Refusal::UnexpectedType), &stray.bytes());
    }
}

// ---- an exchange and the types ---------------------------------------------

/// Fifteen types, one of them a 1.0 board's, in a pool of 20, in search.
fn searching_at_the_limit() -> Panel {
    let mut boards = later_types(15);
    boards[0].1 = OLD;
    boards.push((2, LATER));
    let mut panel = with(20, &boards);
    panel.discover(&mut [0; 13]).unwrap();
    panel
}

fn at_rest(panel: &Panel, before: &Panel) {
    assert_eq!(panel.records, before.records);
    assert_eq!(panel.coordinator.phase, Phase::Idle);
    assert!(panel.coordinator.started && !panel.coordinator.held);
}

#[test]
fn a_find_that_would_be_refused_by_25_breaks_the_exchange_off() {
    for packet in [0, 0x20] {
        for (node_type, mac, goes_on) in
            [(16, 50, false), (15, 50, true), (16, 2, false), (16, 15, true), (15, 2, true)]
        {
            let mut panel = searching_at_the_limit();
            let before = panel.clone();
            assert_eq!(find(&mut panel, node_type, mac, packet, 0), goes_on, "{node_type} {mac}");
            if !goes_on {
                at_rest(&panel, &before);
            }
        }
    }
    // sixteen types, all later boards
    for (packet, goes_on) in [(0x20, false), (0, true)] {
        let mut panel = with(20, &later_types(16));
        panel.discover(&mut [0; 13]).unwrap();
        let before = panel.clone();
        assert_eq!(find(&mut panel, 1, 50, packet, 0), goes_on);
        if !goes_on {
            at_rest(&panel, &before);
        }
    }
}

/// The step itself tests no types: it is not known who will be found.
#[test]
fn a_discovery_starts_though_no_type_more_can_be_taken() {
    let panel = searching_at_the_limit();
    let wait = Action::Wait { board: 17, exchange: Exchange::Search };
    let mut again = panel.clone();
    again.coordinator.phase = Phase::Idle;
    again.coordinator.started = false;
    assert_eq!(again.discover(&mut [0; 13]).unwrap().action, wait);
}

#[test]
fn a_recovered_board_that_would_be_refused_by_25_is_acknowledged_and_not_listed() {
    for (mac, at, address) in [(50, 17, 17), (2, 2, 2)] {
        let mut panel = searching_at_the_limit();
        let before = panel.clone();
        assert!(find(&mut panel, 15, mac, 0x20, 0));
        assert_eq!(turn(&mut panel).0, at);
        let mut out = [0; 29];
        let answer = identified(&panel, address, 16, mac).bytes();
        assert_eq!(panel.frame(&answer, &mut out), transmit(29));
        assert_eq!(out[2], 2);
        at_rest(&panel, &before);
    }
}

// ---- whole series -----------------------------------------------------------

/// 1.0 boards alone, from the first discovery on: everything goes by subnet 2.
#[test]
fn a_house_of_1_0_boards_is_found_listed_and_served() {
    let mut panel = ready_on(3, &POOL);
    for (number, mac) in (1..).zip([101, 102]) {
        panel.discover(&mut [0; 13]).unwrap();
        assert!(find(&mut panel, 5, mac, 0x20, 2));
        turn(&mut panel);
        assert_eq!(panel.quiet(), rest());
        let sent = turn(&mut panel).2;
        let address = POOL[number - 1];
        assert_eq!(sent[10..12], [address, 2]);
        let echo = Draft { subnet: 2, ..to(&panel, address, 0xFA, &sent[10..29]) };
        assert_eq!(give(&mut panel, &echo).unwrap().joined, number);
        for board in 1..=number {
            let (named, exchange, sent) = turn(&mut panel);
            assert_eq!((named, exchange, sent[2]), (board, Exchange::List, 2));
            let list = frame::read(&sent, 2).unwrap().payload.to_vec();
            assert_eq!((list.len(), list[1], list[2]), (16, 5, 0));
            let echo = Draft { subnet: 2, ..to(&panel, POOL[board - 1], 0x94, &list) };
            assert_eq!(give(&mut panel, &echo), transmit(29));
        }
        let (board, exchange, sent) = turn(&mut panel);
        assert_eq!((exchange, sent[2]), (Exchange::Offer, 2));
        let answer = Draft { subnet: 2, ..ack(&panel, board) };
        assert_eq!(give(&mut panel, &answer), rest());
    }
}
