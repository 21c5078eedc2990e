//! The rule book's printed series, each refusal number that a step gives, the
//! errors that look reasonable (01), boards that come back as something else
//! (C-12), and the indexes on record (C-13).

mod common;

use common::{ack_payload, bytes_of, goes_to, ready, refused, refused_frame, rest, transmit, turn};
use common::{MAC, SESSION, SUBNET};
use reference::frame::{self, Frame};
use reference::panel::{Action, Answer, Panel, Settings};
use reference::refusal::Refusal;
use reference::state::{Exchange, Phase, Record};

/// A panel whose boards have joined, were sent their lists and echoed them.
fn with_boards(pool: &[u8], types: &[u8]) -> Panel {
    let mut panel = ready(pool);
    for (place, &kind) in types.iter().enumerate() {
        let number = place as u64 + 1;
        assert_eq!(panel.join(kind, number, 100 + number, 2).unwrap().joined, place + 1);
        while panel.records.iter().any(|record| record.owed) {
            turn(&mut panel);
            assert!(answer(&mut panel).is_ok());
        }
        turn(&mut panel);
        assert!(answer(&mut panel).is_ok());
    }
    panel.coordinator.last_offered = 0;
    panel
}

fn awaited(panel: &Panel) -> (usize, Exchange) {
    match panel.coordinator.phase {
        Phase::Waiting { board, exchange } => (board, exchange),
        _ => panic!("no wait"),
    }
}

fn give(panel: &mut Panel, frame: &Frame<'_>) -> Answer {
    panel.frame(&bytes_of(frame), &mut [0; 29])
}

/// A frame from the awaited board.
fn from_awaited<'a>(panel: &Panel, message_type: u8, payload: &'a [u8]) -> Frame<'a> {
    let (board, _) = awaited(panel);
    let source = panel.address(board);
    Frame { destination: 255, source, message_type, payload, ..Frame::default() }
}

fn ack(panel: &mut Panel) -> Answer {
    let (board, _) = awaited(panel);
    let payload = ack_payload(panel.record(board).mac, panel.record(board).session);
    let frame = from_awaited(panel, 0, &payload);
    give(panel, &frame)
}

/// The plainest answer that the wait takes.
fn answer(panel: &mut Panel) -> Answer {
    if awaited(panel).1 != Exchange::List {
        return ack(panel);
    }
    let list = panel.node_list();
    let frame = from_awaited(panel, 0x94, &list);
    give(panel, &frame)
}

fn request(panel: &mut Panel, kind: u8, method: u8, parameter1: u8) -> Answer {
    let frame = Frame {
        method,
        parameter1,
        parameter2: 9,
        packet: 0x20,
        node_type: 77,
        ..from_awaited(panel, kind, &[1, 2])
    };
    give(panel, &frame)
}

// ---- printed cases ----------------------------------------------------

#[test]
fn the_printed_node_lists() {
    let mut panel = ready(&[2, 5, 9]);
    for (place, kind) in [(0, 2), (2, 5)] {
        panel.records[place].node_type = kind;
        panel.records[place].mac = 1 + place as u64;
    }
    assert_eq!(panel.node_list(), [1, 2, 0, 5]);
    panel.records[2] = Default::default();
    assert_eq!(panel.node_list(), [1, 2]);
}

#[test]
fn pools_as_printed() {
    let setup = |pool: &[u8]| {
        let mut panel = Panel::default();
        panel.setup(&Settings { subnet: 3, internal: 1, mac: MAC, session: SESSION, pool })
    };
    assert_eq!(setup(&[5, 5]), Err(Refusal::BadPool));
    let forty: Vec<u8> = (16..56).collect();
    assert_eq!(setup(&forty), Ok(40));
    let more: Vec<u8> = (16..57).collect();
    assert_eq!(setup(&more), Err(Refusal::BadPool));
    assert_eq!(setup(&[]), Err(Refusal::BadPool));
    assert_eq!(setup(&[0, 1]), Err(Refusal::BadPool));
    assert_eq!(setup(&[1, 255]), Err(Refusal::BadPool));
    assert_eq!(setup(&[1, 254]), Ok(2));
}

#[test]
fn miss_miss_answer_miss_miss_stays_and_one_more_drops() {
    let mut panel = with_boards(&[2, 5, 9], &[2]);
    let miss = |panel: &mut Panel| {
        turn(panel);
        panel.quiet().unwrap().dropped
    };
    assert_eq!((miss(&mut panel), miss(&mut panel)), (0, 0));
    turn(&mut panel);
    assert_eq!(ack(&mut panel), rest());
    assert_eq!((miss(&mut panel), miss(&mut panel)), (0, 0));
    assert!(panel.record(1).listed());
    assert_eq!(miss(&mut panel), 1);
    assert_eq!(panel.records, Panel::default().records);
}

#[test]
fn with_one_address_each_offer_names_position_1() {
    let mut panel = with_boards(&[7], &[2]);
    for _ in 0..5 {
        let (board, exchange, _) = turn(&mut panel);
        assert_eq!((board, exchange), (1, Exchange::Offer));
        assert_eq!(ack(&mut panel), rest());
    }
}

// ---- the frames written -----------------------------------------------

#[test]
fn offers_go_round_and_carry_mac_session_and_index() {
    let mut panel = with_boards(&[2, 5, 9], &[2, 5, 2]);
    for (board, address, index) in [(1, 2, 0), (2, 5, 0), (3, 9, 1), (1, 2, 0)] {
        let (named, exchange, bytes) = turn(&mut panel);
        assert_eq!((named, exchange), (board, Exchange::Offer));
        let offer = frame::read(&bytes, SUBNET).unwrap();
        assert_eq!((offer.destination, offer.source, offer.subnet), (address, 255, 3));
        assert_eq!((offer.method, offer.parameter1, offer.parameter2), (0, 0, index));
        assert_eq!((offer.node_type, offer.message_type, offer.packet), (165, 0, 0x80));
        let payload = [&[0u8][..], &MAC.to_le_bytes(), &SESSION.to_le_bytes()].concat();
        assert_eq!(offer.payload, payload);
        assert_eq!(ack(&mut panel), rest());
    }
}

#[test]
fn lists_go_to_the_lowest_owed_with_packet_number_0() {
    let mut panel = with_boards(&[2, 5, 9], &[2, 5]);
    panel.join(5, 99, 1, 2).unwrap();
    for board in 1..=3 {
        let (named, exchange, bytes) = turn(&mut panel);
        assert_eq!((named, exchange), (board, Exchange::List));
        let list = frame::read(&bytes, SUBNET).unwrap();
        assert_eq!((list.message_type, list.packet), (0x14, 0));
        assert_eq!(list.parameter2, [0, 0, 1][board - 1]);
        assert_eq!(list.payload, [1, 2, 5, 5]);
        assert!(!panel.record(board).owed);
        assert_eq!(answer(&mut panel), transmit(29));
    }
}

#[test]
fn a_list_does_not_restart_the_round() {
    let mut panel = with_boards(&[2, 5, 9], &[2, 5, 2]);
    turn(&mut panel);
    assert_eq!(ack(&mut panel), rest());
    panel.join(2, 1, 555, 2).unwrap();
    for _ in 0..3 {
        turn(&mut panel);
        assert_eq!(answer(&mut panel), transmit(29));
    }
    let (board, exchange, _) = turn(&mut panel);
    assert_eq!((board, exchange), (2, Exchange::Offer));
}

#[test]
fn the_ack_written_has_the_form_of_table_49() {
    let mut panel = with_boards(&[2, 5, 9], &[2, 2]);
    turn(&mut panel);
    assert_eq!(ack(&mut panel), rest());
    turn(&mut panel);
    let bytes = bytes_of(&from_awaited(&panel, 1, &[]));
    let mut out = [0xEE; 40];
    assert_eq!(panel.frame(&bytes, &mut out).unwrap().action, Action::Deliver);
    let written = frame::read(&out[..29], SUBNET).unwrap();
    assert_eq!((written.destination, written.source, written.parameter2), (5, 255, 1));
    assert_eq!((written.message_type, written.packet, written.method), (0, 0x80, 0));
    assert_eq!(written.payload, ack_payload(MAC, SESSION));
    assert_eq!(out[29..], [0xEE; 11]);
}

/// Boards 2, 5, 2: the third asks the heat pump for heat, which answers.
#[test]
fn a_request_is_forwarded_and_its_response_returned() {
    let mut panel = with_boards(&[2, 5, 9], &[2, 5, 2]);
    panel.coordinator.last_offered = 2;
    turn(&mut panel);
    assert_eq!(request(&mut panel, 3, 1, 100), transmit(29));
    let (board, exchange, bytes) = turn(&mut panel);
    let forward = Exchange::Forward { requester: 3, request_type: 3, acked: false };
    assert_eq!((board, exchange), (2, forward));
    let sent = frame::read(&bytes, SUBNET).unwrap();
    assert_eq!((sent.destination, sent.source, sent.subnet), (5, 255, 3));
    assert_eq!((sent.method, sent.parameter1, sent.parameter2), (1, 100, 1));
    assert_eq!((sent.node_type, sent.message_type, sent.packet), (77, 3, 0x20));
    assert_eq!(sent.payload, [1, 2]);

    let acked = ack(&mut panel).unwrap();
    let exchange = Exchange::Forward { requester: 3, request_type: 3, acked: true };
    assert_eq!(acked.action, Action::Wait { board: 2, exchange });
    assert_eq!(acked.written, 0);
    assert_eq!(ack(&mut panel), Err(Refusal::UnexpectedType));
    let response = Frame { method: 200, node_type: 5, ..from_awaited(&panel, 131, &[8]) };
    let response = Frame { parameter1: 4, parameter2: 7, packet: 1, ..response };
    assert_eq!(give(&mut panel, &response), transmit(29));

    let (board, exchange, bytes) = turn(&mut panel);
    assert_eq!((board, exchange), (3, Exchange::Return));
    let sent = frame::read(&bytes, SUBNET).unwrap();
    assert_eq!((sent.destination, sent.source, sent.subnet), (9, 255, 3));
    assert_eq!((sent.method, sent.parameter1, sent.parameter2), (200, 4, 0));
    assert_eq!((sent.node_type, sent.message_type, sent.packet), (5, 131, 1));
    assert_eq!(sent.payload, [8]);
    assert_eq!(ack(&mut panel), rest());
}

#[test]
fn requests_to_nobody_or_to_the_sender_are_discarded() {
    for (method, parameter1) in [(1, 99), (1, 101), (2, 0), (2, 2), (2, 44), (3, 0), (3, 1), (3, 3)]
    {
        let mut panel = with_boards(&[2, 5, 9], &[2, 3]);
        turn(&mut panel);
        assert_eq!(request(&mut panel, 2, method, parameter1), transmit(29));
        assert_eq!(panel.coordinator.phase, Phase::Idle, "{method} {parameter1}");
    }
}

// ---- misses, drops, sessions, holds -----------------------------------

#[test]
fn an_ack_without_a_response_is_no_miss() {
    let mut panel = with_boards(&[2, 5, 9], &[2, 5]);
    panel.records[1].misses = 2;
    turn(&mut panel);
    assert_eq!(request(&mut panel, 3, 2, 5), transmit(29));
    turn(&mut panel);
    assert!(ack(&mut panel).is_ok());
    assert_eq!(panel.quiet(), rest());
    assert_eq!(panel.record(2).misses, 0);
    assert_eq!(panel.coordinator.phase, Phase::Idle);
}

#[test]
fn a_drop_in_a_forward_ends_the_exchange_and_owes_the_list() {
    let mut panel = with_boards(&[2, 5, 9], &[2, 5]);
    panel.records[1].misses = 2;
    turn(&mut panel);
    assert_eq!(request(&mut panel, 3, 3, 2), transmit(29));
    turn(&mut panel);
    assert_eq!(panel.quiet().unwrap().dropped, 2);
    assert_eq!(panel.coordinator.phase, Phase::Idle);
    assert_eq!(panel.records[1], Default::default());
    assert!(panel.record(1).owed);
}

#[test]
fn an_ack_with_another_session_owes_the_list_to_all() {
    let mut panel = with_boards(&[2, 5, 9], &[2, 5]);
    turn(&mut panel);
    let payload = ack_payload(1, 4711);
    let frame = from_awaited(&panel, 0, &payload);
    assert_eq!(give(&mut panel, &frame), rest());
    assert_eq!(panel.record(1).session, 4711);
    assert!(panel.record(1).owed && panel.record(2).owed);
}

#[test]
fn a_board_that_comes_back_keeps_its_address_and_has_the_type_it_joins_with() {
    for node_type in [5, 9] {
        let mut panel = with_boards(&[2, 5, 9], &[2, 5]);
        panel.records[1].misses = 2;
        assert_eq!(panel.join(node_type, 2, 4711, 2).unwrap().joined, 2);
        let (mac, session, owed) = (2, 4711, true);
        let record = Record { node_type, mac, session, owed, version: 2, ..Record::default() };
        assert_eq!(panel.record(2), &record);
        assert!(panel.record(1).owed && panel.coordinator.held);
    }
}

#[test]
fn freed_positions_are_given_again_lowest_first() {
    let mut panel = with_boards(&[2, 5, 9], &[2, 5, 4]);
    panel.records[0] = Default::default();
    assert_eq!(panel.join(9, 50, 1, 2).unwrap().joined, 1);
}

#[test]
fn the_hold_ends_when_nobody_is_listed() {
    let mut panel = ready(&[2]);
    panel.join(2, 7, 8, 2).unwrap();
    assert!(panel.coordinator.held);
    panel.records[0].misses = 2;
    turn(&mut panel);
    assert_eq!(panel.quiet().unwrap().dropped, 1);
    assert!(!panel.coordinator.held);
    assert_eq!(panel.join(2, 7, 8, 2).unwrap().joined, 1);
}

// ---- a board that comes back as something else (C-12) ------------------

/// A furnace, a thermostat and an air handler; the furnace was re-jumpered.
fn re_jumpered() -> Panel {
    let mut panel = with_boards(&[2, 5, 9], &[2, 1, 3]);
    assert_eq!(panel.join(3, 1, 101, 2).unwrap().joined, 1);
    panel
}

#[test]
fn a_listed_mac_leaves_the_record_that_a_new_one_would() {
    let mut new = ready(&[2, 5, 9]);
    new.join(3, 1, 101, 2).unwrap();
    assert_eq!(re_jumpered().record(1), new.record(1));
}

#[test]
fn every_board_is_told_of_the_new_type_with_its_index_of_now() {
    let mut panel = re_jumpered();
    for (board, index) in [(1, 0), (2, 0), (3, 1)] {
        let (named, exchange, bytes) = turn(&mut panel);
        assert_eq!((named, exchange), (board, Exchange::List));
        let list = frame::read(&bytes, SUBNET).unwrap();
        assert_eq!((list.payload, list.parameter2), (&[1, 3, 1, 3][..], index));
        let stale = bytes_of(&from_awaited(&panel, 0x94, &[1, 2, 1, 3]));
        refused_frame(&mut panel, Refusal::BadEcho, &stale);
        assert_eq!(answer(&mut panel), transmit(29));
    }
    assert_eq!(turn(&mut panel).1, Exchange::Offer);
}

#[test]
fn requests_by_type_go_where_the_new_types_are() {
    // by type: for a furnace, for an air handler; by command: heat, cool, fan
    let asked = [(2, 2), (2, 3), (1, 100), (1, 101), (1, 102)];
    let found = |panel: &Panel| asked.map(|(method, what)| goes_to(panel, 2, method, what));
    let before = with_boards(&[2, 5, 9], &[2, 1, 3]);
    assert_eq!(found(&before), [Some(1), Some(3), Some(1), Some(1), Some(3)]);
    assert_eq!(found(&re_jumpered()), [None, Some(1), Some(1), None, Some(1)]);
}

#[test]
fn types_0_and_165_retype_no_listed_board() {
    for node_type in [0, 165] {
        let mut panel = with_boards(&[2, 5, 9], &[2, 1, 3]);
        refused(&mut panel, Refusal::BadType, |panel, _| panel.join(node_type, 1, 7, 2));
        assert_eq!(panel.join(3, 1, 7, 2).unwrap().joined, 1);
        // 12 is told before 14 and 15
        refused(&mut panel, Refusal::BadType, |panel, _| panel.join(node_type, 1, 7, 2));
    }
}

// ---- the index on record (C-13) -----------------------------------------

const FIVE: [u8; 5] = [2, 5, 9, 10, 11];

fn indexes(panel: &Panel) -> [u8; 5] {
    [0, 1, 2, 3, 4].map(|place| panel.records[place].index)
}

/// The board at this position misses an offer for the third time.
fn drop_board(panel: &mut Panel, position: usize) {
    panel.records[position - 1].misses = 2;
    panel.coordinator.last_offered = position - 1;
    assert_eq!(turn(panel).0, position);
    assert_eq!(panel.quiet().unwrap().dropped, position);
}

/// As if the lists were out and an offer was made.
fn unowed(panel: &mut Panel) {
    panel.records.iter_mut().for_each(|record| record.owed = false);
    panel.coordinator.held = false;
}

#[test]
fn a_join_raises_those_of_its_type_above_it_and_nobody_below() {
    let mut panel = with_boards(&FIVE, &[2, 5, 2, 5, 2]);
    drop_board(&mut panel, 2);
    assert_eq!(indexes(&panel), [0, 0, 1, 0, 2]);
    for (node_type, after) in [(2, [0, 1, 2, 0, 3]), (5, [0, 0, 1, 1, 2]), (9, [0, 0, 1, 0, 2])] {
        let mut panel = panel.clone();
        unowed(&mut panel);
        assert_eq!(panel.join(node_type, 50, 1, 2).unwrap().joined, 2);
        assert_eq!(indexes(&panel), after);
    }
}

#[test]
fn a_join_as_it_was_moves_nobody() {
    let mut panel = with_boards(&FIVE, &[2, 2, 5, 2, 5]);
    for mac in 1..=5 {
        unowed(&mut panel);
        panel.join(panel.records[mac - 1].node_type, mac as u64, 7, 2).unwrap();
        assert_eq!(indexes(&panel), [0, 1, 0, 2, 1]);
    }
}

#[test]
fn a_retyping_moves_the_indexes_above_it_alone() {
    let mut panel = with_boards(&FIVE, &[3, 2, 2, 3, 2]);
    assert_eq!(indexes(&panel), [0, 0, 1, 1, 2]);
    panel.join(3, 2, 102, 2).unwrap();
    assert_eq!(indexes(&panel), [0, 1, 0, 2, 1]);
    unowed(&mut panel);
    panel.join(2, 2, 102, 2).unwrap();
    assert_eq!(indexes(&panel), [0, 0, 1, 1, 2]);
}

#[test]
fn a_drop_lowers_those_of_its_type_above_it_and_leaves_0() {
    let before = with_boards(&FIVE, &[2, 2, 5, 2, 5]);
    let after =
        [[0, 0, 0, 1, 1], [0, 0, 0, 1, 1], [0, 1, 0, 2, 0], [0, 1, 0, 0, 1], [0, 1, 0, 2, 0]];
    for (position, after) in (1..).zip(after) {
        let mut panel = before.clone();
        drop_board(&mut panel, position);
        assert_eq!(indexes(&panel), after);
        assert_eq!(panel.record(position), &Record::default());
    }
}

#[test]
fn a_setup_leaves_no_index() {
    let mut panel = with_boards(&FIVE, &[2, 2, 2]);
    // it clears what it does not look at
    panel.records[1].index = 77;
    panel.records[39].index = 77;
    let settings = Settings { subnet: 3, internal: 1, mac: MAC, session: SESSION, pool: &FIVE };
    assert_eq!(panel.setup(&settings), Ok(5));
    assert_eq!(panel.records, Panel::default().records);
}

/// At rest, in a wait, in that of a forward, and with a forward due.
fn in_phases() -> [Panel; 4] {
    let at_rest = with_boards(&FIVE, &[2, 5, 2, 5]);
    let mut offered = at_rest.clone();
    turn(&mut offered);
    let mut forward_due = offered.clone();
    assert_eq!(request(&mut forward_due, 3, 3, 3), transmit(29));
    let mut forwarded = forward_due.clone();
    turn(&mut forwarded);
    [at_rest, offered, forwarded, forward_due]
}

#[test]
fn every_step_refuses_another_index_by_22() {
    for mut panel in in_phases() {
        let good = bytes_of(&Frame { destination: 255, source: 2, ..Frame::default() });
        for place in 0..40 {
            let right = panel.records[place].index;
            for wrong in (0..=255).filter(|&index| index != right) {
                panel.records[place].index = wrong;
                refused(&mut panel, Refusal::StateUnfit, |panel, _| panel.join(2, 50, 0, 2));
                refused(&mut panel, Refusal::StateUnfit, |panel, out| panel.discover(out));
                refused(&mut panel, Refusal::StateUnfit, |panel, out| panel.turn(out));
                refused(&mut panel, Refusal::StateUnfit, |panel, out| panel.frame(&good, out));
                refused(&mut panel, Refusal::StateUnfit, |panel, _| panel.quiet());
            }
            panel.records[place].index = right;
        }
        assert_ne!(panel.quiet(), Err(Refusal::StateUnfit));
    }
}

/// Exchanged, all too high, all the same, or with a gap.
#[test]
fn indexes_that_are_wrong_together_are_refused_by_22() {
    for wrong in [[1, 0, 2], [0, 2, 1], [1, 2, 3], [0, 0, 0], [0, 0, 1], [0, 1, 3]] {
        let mut panel = with_boards(&FIVE, &[2, 2, 2]);
        for (record, index) in panel.records.iter_mut().zip(wrong) {
            record.index = index;
        }
        refused(&mut panel, Refusal::StateUnfit, |panel, out| panel.turn(out));
    }
}

// ---- each refusal -----------------------------------------------------

#[test]
fn frames_are_refused_by_1_to_4_24_5_and_6_in_that_order() {
    let mut panel = with_boards(&[2, 5, 9], &[2, 5]);
    turn(&mut panel);
    let good = bytes_of(&from_awaited(&panel, 1, &[4, 4]));
    refused_frame(&mut panel, Refusal::Short, &good[..11]);
    let mut bytes = good.clone();
    bytes[9] = 241;
    refused_frame(&mut panel, Refusal::OverLong, &bytes);
    refused_frame(&mut panel, Refusal::LengthMismatch, &good[..13]);
    let mut bytes = good.clone();
    bytes[0] = 4;
    refused_frame(&mut panel, Refusal::BadChecksum, &bytes);
    let foreign = Frame { destination: 4, source: 77, ..from_awaited(&panel, 200, &[]) };
    let overheard = Frame { subnet: 4, ..foreign };
    refused_frame(&mut panel, Refusal::OtherSubnet, &bytes_of(&overheard));
    refused_frame(&mut panel, Refusal::NotForUs, &bytes_of(&foreign));
    let other = Frame { source: 5, ..from_awaited(&panel, 200, &[]) };
    refused_frame(&mut panel, Refusal::NotAwaited, &bytes_of(&other));
    panel.quiet().unwrap();
    refused_frame(&mut panel, Refusal::NotAwaited, &good);
    refused_frame(&mut panel, Refusal::NotForUs, &bytes_of(&foreign));
    refused_frame(&mut panel, Refusal::OtherSubnet, &bytes_of(&overheard));
}

#[test]
fn types_that_the_wait_does_not_take_are_refused_by_7() {
    let mut panel = with_boards(&[2, 5, 9], &[2, 5]);
    turn(&mut panel);
    for kind in [128, 129, 0x94, 255] {
        let bytes = bytes_of(&from_awaited(&panel, kind, &[1, 2, 5]));
        refused_frame(&mut panel, Refusal::UnexpectedType, &bytes);
    }
    let good = ack_payload(1, 101);
    let mut code = good.clone();
    code[0] = 0;
    let long = [&good[..], &[0]].concat();
    for payload in [&code[..], &good[..16], &long, &[], &ack_payload(2, 101)] {
        let bytes = bytes_of(&from_awaited(&panel, 0, payload));
        refused_frame(&mut panel, Refusal::UnexpectedType, &bytes);
    }
}

#[test]
fn after_a_list_an_ack_gets_7_and_another_payload_8() {
    let mut panel = ready(&[2, 5]);
    panel.join(2, 1, 101, 2).unwrap();
    turn(&mut panel);
    let acknowledged = bytes_of(&from_awaited(&panel, 0, &ack_payload(1, 101)));
    refused_frame(&mut panel, Refusal::UnexpectedType, &acknowledged);
    for payload in [&[1u8, 3][..], &[1], &[1, 2, 0], &[]] {
        let bytes = bytes_of(&from_awaited(&panel, 0x94, payload));
        refused_frame(&mut panel, Refusal::BadEcho, &bytes);
    }
    let echo = bytes_of(&from_awaited(&panel, 0x94, &[1, 2]));
    refused_frame(&mut panel, Refusal::NoRoom, &echo);
}

#[test]
fn after_a_return_only_an_ack_is_taken() {
    let mut panel = with_boards(&[2, 5, 9], &[2, 5]);
    turn(&mut panel);
    assert_eq!(request(&mut panel, 3, 2, 5), transmit(29));
    turn(&mut panel);
    let wrong = bytes_of(&from_awaited(&panel, 132, &[]));
    refused_frame(&mut panel, Refusal::UnexpectedType, &wrong);
    let frame = from_awaited(&panel, 131, &[]);
    refused_frame(&mut panel, Refusal::NoRoom, &bytes_of(&frame));
    assert_eq!(give(&mut panel, &frame), transmit(29));
    turn(&mut panel);
    let again = bytes_of(&from_awaited(&panel, 3, &[]));
    refused_frame(&mut panel, Refusal::UnexpectedType, &again);
    assert_eq!(ack(&mut panel), rest());
}

#[test]
fn methods_above_3_are_refused_by_9_before_11() {
    let mut panel = with_boards(&[2, 5, 9], &[2]);
    turn(&mut panel);
    for method in [4, 255] {
        let frame = Frame { method, ..from_awaited(&panel, 1, &[]) };
        refused_frame(&mut panel, Refusal::BadMethod, &bytes_of(&frame));
    }
    let plain = bytes_of(&from_awaited(&panel, 127, &[]));
    refused_frame(&mut panel, Refusal::NoRoom, &plain);
}

#[test]
fn an_accepted_ack_needs_no_room() {
    let mut panel = with_boards(&[2, 5, 9], &[2]);
    turn(&mut panel);
    let bytes = bytes_of(&from_awaited(&panel, 0, &ack_payload(1, 101)));
    assert_eq!(panel.frame(&bytes, &mut []), rest());
}

#[test]
fn turns_are_refused_by_18_19_and_11() {
    let mut panel = ready(&[2]);
    refused(&mut panel, Refusal::NobodyListed, |panel, out| panel.turn(&mut out[..0]));
    let mut panel = with_boards(&[2], &[2]);
    refused(&mut panel, Refusal::NoRoom, |panel, out| panel.turn(out));
    turn(&mut panel);
    refused(&mut panel, Refusal::AwaitingReply, |panel, out| panel.turn(&mut out[..0]));
}

#[test]
fn joins_are_refused_by_12_to_16() {
    let mut panel = with_boards(&[2], &[2]);
    refused(&mut panel, Refusal::BadType, |panel, _| panel.join(0, 0, 0, 2));
    refused(&mut panel, Refusal::BadType, |panel, _| panel.join(165, 9, 0, 2));
    refused(&mut panel, Refusal::BadMac, |panel, _| panel.join(2, 0, 0, 2));
    refused(&mut panel, Refusal::BadMac, |panel, _| panel.join(2, 1 << 56, 0, 2));
    refused(&mut panel, Refusal::Full, |panel, _| panel.join(2, 9, 0, 2));
    assert_eq!(panel.join(2, 1, 7, 2).unwrap().joined, 1);
    refused(&mut panel, Refusal::Busy, |panel, _| panel.join(2, 9, 0, 2));
    turn(&mut panel);
    refused(&mut panel, Refusal::Busy, |panel, _| panel.join(2, 9, 0, 2));
    assert_eq!(panel.quiet(), rest());
    refused(&mut panel, Refusal::Held, |panel, _| panel.join(2, 1, 0, 2));
    turn(&mut panel);
    assert_eq!(panel.quiet(), rest());
    assert_eq!(panel.join(2, 1, 8, 2).unwrap().joined, 1);
}

/// C-23: this is why no join asks for it. Every choice of listed positions is
/// tried, but for the full table.
#[test]
fn the_address_taken_for_a_new_mac_is_in_no_listed_record() {
    for listed in 0..31 {
        let mut panel = ready(&[2, 5, 9, 16, 254]);
        for (index, place) in (0..).zip((0..5).filter(|place| listed >> place & 1 == 1)) {
            panel.records[place].node_type = 2;
            panel.records[place].mac = 1 + place as u64;
            panel.records[place].index = index;
            panel.records[place].version = 2;
        }
        let others: Vec<u8> = panel.listed().map(|at| panel.address(at)).collect();
        let joined = panel.join(2, 9, 0, 2).unwrap().joined;
        assert!(!others.contains(&panel.address(joined)));
    }
}

#[test]
fn joins_are_busy_while_a_forward_or_return_is_due() {
    let mut panel = with_boards(&[2, 5, 9], &[2, 5]);
    turn(&mut panel);
    assert_eq!(request(&mut panel, 3, 2, 5), transmit(29));
    refused(&mut panel, Refusal::Busy, |panel, _| panel.join(2, 9, 0, 2));
    turn(&mut panel);
    let frame = from_awaited(&panel, 131, &[]);
    assert_eq!(give(&mut panel, &frame), transmit(29));
    refused(&mut panel, Refusal::Busy, |panel, _| panel.join(2, 9, 0, 2));
}

#[test]
fn quiet_without_a_wait_is_refused_by_20() {
    let mut panel = with_boards(&[2], &[2]);
    refused(&mut panel, Refusal::NotWaiting, |panel, _| panel.quiet());
}

#[test]
fn setups_are_refused_by_22_21_and_13() {
    let mut panel = with_boards(&[2], &[2]);
    let before = panel.clone();
    let bad = |pool, mac| Settings { subnet: 3, internal: 1, mac, session: 1, pool };
    assert_eq!(panel.setup(&bad(&[2, 1], 0)), Err(Refusal::BadPool));
    assert_eq!(panel.setup(&bad(&[2], 0)), Err(Refusal::BadMac));
    assert_eq!(panel.setup(&bad(&[2], 1 << 56)), Err(Refusal::BadMac));
    assert_eq!(panel, before);
    panel.records.pop();
    assert_eq!(panel.setup(&bad(&[2, 1], 0)), Err(Refusal::StateUnfit));
}

#[test]
fn unfit_state_is_refused_by_22_before_all_else() {
    let mut panel = with_boards(&[2], &[2]);
    panel.records[0].misses = 3;
    refused(&mut panel, Refusal::StateUnfit, |panel, _| panel.join(0, 0, 0, 2));
    refused(&mut panel, Refusal::StateUnfit, |panel, out| panel.turn(out));
    refused(&mut panel, Refusal::StateUnfit, |panel, out| panel.frame(&[], out));
    refused(&mut panel, Refusal::StateUnfit, |panel, _| panel.quiet());
}
