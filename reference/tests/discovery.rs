//! The AutoNet exchange (C-11): every way through it, every way it breaks off,
//! and every refusal in its waits and dues.

mod common;

use common::{ack_payload, bytes_of, goes_to, ready, refused, refused_frame, rest, transmit, turn};
use common::{MAC, SESSION, SUBNET};
use reference::frame::{self, Frame};
use reference::panel::{Action, Answer, Outcome, Panel, Settings};
use reference::refusal::Refusal;
use reference::state::{Exchange, Identity, Phase};

const POOL: [u8; 4] = [2, 5, 9, 77];
/// Boards 1 and 2 of the tests, and one that is new.
const FIRST: Identity = Identity { node_type: 2, mac: 101, session: 1, version: 2 };
const SECOND: Identity = Identity { node_type: 2, mac: 102, session: 2, version: 2 };
const NEW: Identity = Identity { node_type: 5, mac: 103, session: 3, version: 2 };

/// A panel at rest with these boards, none held, none owed.
fn with(boards: &[Identity]) -> Panel {
    let mut panel = ready(&POOL);
    for board in boards {
        panel.join(board.node_type, board.mac, board.session, board.version).unwrap();
        panel.records.iter_mut().for_each(|record| record.owed = false);
        panel.coordinator.held = false;
    }
    panel
}

fn two() -> Panel {
    with(&[FIRST, SECOND])
}

fn discover(panel: &mut Panel) -> usize {
    match panel.discover(&mut [0; 13]).unwrap().action {
        Action::Wait { board, exchange: Exchange::Search } => board,
        other => panic!("{other:?}"),
    }
}

fn numbers(board: &Identity) -> Vec<u8> {
    [board.mac.to_le_bytes(), board.session.to_le_bytes()].concat()
}

fn discovered(board: &Identity) -> Vec<u8> {
    [&[board.node_type, 0xEE][..], &numbers(board)].concat()
}

fn identified(board: &Identity) -> Vec<u8> {
    [&[board.node_type][..], &numbers(board)].concat()
}

fn addressed(address: u8, board: &Identity) -> Vec<u8> {
    [&[address, 3][..], &numbers(board), &[1]].concat()
}

fn bytes(source: u8, message_type: u8, payload: &[u8]) -> Vec<u8> {
    bytes_of(&Frame { destination: 255, source, message_type, payload, ..Frame::default() })
}

fn give(panel: &mut Panel, source: u8, message_type: u8, payload: &[u8]) -> Answer {
    panel.frame(&bytes(source, message_type, payload), &mut [0; 29])
}

fn find(panel: &mut Panel, board: &Identity) -> Answer {
    discover(panel);
    // nothing is written, so no room is needed
    panel.frame(&bytes(0, 0xF9, &discovered(board)), &mut [])
}

/// Up to the wait for an answer to Get Node ID; gives the position at stake.
fn identify(panel: &mut Panel, board: &Identity) -> usize {
    assert_eq!(find(panel, board), rest());
    match turn(panel) {
        (at, Exchange::Identify { found, acked: false }, _) if found == *board => at,
        other => panic!("{other:?}"),
    }
}

/// Up to the wait for an answer to Set Address.
fn assign(panel: &mut Panel, board: &Identity) -> usize {
    let at = identify(panel, board);
    assert_eq!(panel.quiet(), rest());
    assert_eq!(panel.coordinator.phase, Phase::AssignDue { at, found: *board });
    let (named, exchange, _) = turn(panel);
    assert_eq!((named, exchange), (at, Exchange::Assign { found: *board }));
    at
}

fn joined(position: usize) -> Answer {
    transmit(29).map(|outcome| Outcome { joined: position, ..outcome })
}

/// What a host's join leaves of the panel at rest, with the memory that a
/// discovery was started.
fn after_join(before: &Panel, board: &Identity) -> Panel {
    let mut panel = before.clone();
    panel.join(board.node_type, board.mac, board.session, board.version).unwrap();
    panel.coordinator.started = true;
    panel
}

/// The panel as it was, but for that memory.
fn after_nothing(before: &Panel) -> Panel {
    let mut panel = before.clone();
    panel.coordinator.started = true;
    panel
}

// ---- the frames written -----------------------------------------------

#[test]
fn a_discovery_is_sent_to_all() {
    let mut panel = two();
    let mut out = [0xEE; 20];
    let outcome = panel.discover(&mut out).unwrap();
    let wait = Action::Wait { board: 3, exchange: Exchange::Search };
    assert_eq!((outcome.action, outcome.written), (wait, 13));
    assert_eq!(out[..11], [0, 255, 0, 0, 0, 0, 165, 0x79, 0x20, 1, 0]);
    assert!(frame::read(&out[..13], SUBNET).is_ok());
    assert_eq!(out[13..], [0xEE; 7]);
}

#[test]
fn get_node_id_goes_to_the_address_at_stake_with_its_index() {
    for (board, at, address, index) in [(NEW, 3, 9, 0), (FIRST, 1, 2, 0), (SECOND, 2, 5, 1)] {
        let mut panel = two();
        assert_eq!(find(&mut panel, &board), rest());
        let mut out = [0; 12];
        let outcome = panel.turn(&mut out).unwrap();
        let exchange = Exchange::Identify { found: board, acked: false };
        assert_eq!(outcome.action, Action::Wait { board: at, exchange });
        assert_eq!(out[..10], [address, 255, 3, 0, 0, index, 165, 0x7B, 0, 0]);
    }
}

#[test]
fn set_address_is_sent_to_all() {
    let mut panel = two();
    identify(&mut panel, &NEW);
    assert_eq!(panel.quiet(), rest());
    let mut out = [0; 31];
    assert_eq!(panel.turn(&mut out).unwrap().written, 31);
    assert_eq!(out[..10], [0, 255, 0, 0, 0, 0, 165, 0x7A, 0, 19]);
    assert_eq!(out[10..29], addressed(9, &NEW));
}

#[test]
fn the_ack_has_the_index_of_the_records_after_it() {
    let another = Identity { node_type: 2, ..NEW };
    for (board, index) in [(another, 2), (NEW, 0), (Identity { node_type: 0, ..NEW }, 0)] {
        let mut panel = two();
        identify(&mut panel, &NEW);
        let mut out = [0; 29];
        assert!(panel.frame(&bytes(9, 0xFB, &identified(&board)), &mut out).is_ok());
        let ack = frame::read(&out, SUBNET).unwrap();
        assert_eq!((ack.destination, ack.source, ack.subnet), (9, 255, 3));
        assert_eq!((ack.parameter2, ack.message_type, ack.packet), (index, 0, 0x80));
        assert_eq!(ack.payload, ack_payload(MAC, SESSION));
    }
}

// ---- every way that ends well -----------------------------------------

#[test]
fn a_new_board_is_found_and_addressed() {
    for before in [ready(&POOL), with(&[FIRST]), two()] {
        let mut panel = before.clone();
        let at = assign(&mut panel, &NEW);
        let address = POOL[at - 1];
        assert_eq!(give(&mut panel, address, 0xFA, &addressed(address, &NEW)), joined(at));
        assert_eq!(panel, after_join(&before, &NEW));
    }
}

#[test]
fn a_listed_board_comes_back_to_its_own_position() {
    let mut before = two();
    before.records[1].misses = 2;
    let found = Identity { node_type: 9, session: 44, ..SECOND };
    let mut panel = before.clone();
    assert_eq!(assign(&mut panel, &found), 2);
    assert_eq!(give(&mut panel, 5, 0xFA, &addressed(5, &found)), joined(2));
    assert_eq!(panel, after_join(&before, &found));
    let record = panel.record(2);
    assert_eq!((record.node_type, record.session, record.misses), (9, 44, 0));
}

#[test]
fn somebody_who_has_the_address_joins_in_place_of_the_one_found() {
    let holder = Identity { node_type: 4, mac: 900, session: 9, version: 2 };
    for acks in [false, true] {
        let before = two();
        let mut panel = before.clone();
        assert_eq!(identify(&mut panel, &NEW), 3);
        if acks {
            acked(&mut panel, 9, 7777);
        }
        assert_eq!(give(&mut panel, 9, 0xFB, &identified(&holder)), joined(3));
        assert_eq!(panel, after_join(&before, &holder));
        assert_eq!(panel.position_of(NEW.mac), None);
    }
}

/// An ACK in identify, of any MAC, is taken without room.
fn acked(panel: &mut Panel, address: u8, mac: u64) {
    let ack = bytes(address, 0, &ack_payload(mac, 5));
    let outcome = panel.frame(&ack, &mut []).unwrap();
    let exchange = panel.coordinator.phase.awaited().unwrap().1;
    assert!(matches!(exchange, Exchange::Identify { acked: true, .. }));
    let board = panel.coordinator.phase.awaited().unwrap().0;
    assert_eq!(outcome.action, Action::Wait { board, exchange });
    assert_eq!((outcome.written, outcome.joined), (0, 0));
}

#[test]
fn a_listed_board_that_answers_at_its_address_comes_back() {
    for acks in [false, true] {
        let before = two();
        let mut panel = before.clone();
        assert_eq!(identify(&mut panel, &SECOND), 2);
        if acks {
            acked(&mut panel, 5, SECOND.mac);
        }
        let answer = Identity { node_type: 8, session: 55, ..SECOND };
        assert_eq!(give(&mut panel, 5, 0xFB, &identified(&answer)), joined(2));
        assert_eq!(panel, after_join(&before, &answer));
        assert_eq!((panel.record(2).node_type, panel.record(2).session), (8, 55));
    }
}

#[test]
fn what_is_not_examined_may_be_anything() {
    let mut panel = two();
    discover(&mut panel);
    let odd = |source, message_type, payload| Frame {
        destination: 255,
        source,
        subnet: SUBNET,
        method: 201,
        parameter1: 202,
        parameter2: 203,
        node_type: 204,
        message_type,
        packet: 205,
        payload,
    };
    let answer = discovered(&NEW);
    assert_eq!(panel.frame(&bytes_of(&odd(0, 0xF9, &answer)), &mut []), rest());
    turn(&mut panel);
    assert_eq!(panel.quiet(), rest());
    turn(&mut panel);
    let echo = addressed(9, &NEW);
    assert_eq!(panel.frame(&bytes_of(&odd(9, 0xFA, &echo)), &mut [0; 29]), joined(3));
}

// ---- a board that is found again as something else (C-12) ---------------

const THERMOSTAT: Identity = Identity { node_type: 1, mac: 110, session: 10, version: 2 };
const FURNACE: Identity = Identity { node_type: 2, mac: 111, session: 11, version: 2 };
const AIR_HANDLER: Identity = Identity { node_type: 3, mac: 112, session: 12, version: 2 };
/// The furnace, re-jumpered.
const RE_JUMPERED: Identity = Identity { node_type: 3, ..FURNACE };

/// The furnace at position 2 is an air handler now, by the exchange that ends
/// with this frame; another air handler is above it.
fn found_re_jumpered(message_type: u8) -> Panel {
    let mut panel = with(&[THERMOSTAT, FURNACE, AIR_HANDLER]);
    let payload = match message_type {
        0xFA => {
            assert_eq!(assign(&mut panel, &RE_JUMPERED), 2);
            addressed(5, &RE_JUMPERED)
        }
        // found as a furnace still: what it says at its address counts
        _ => {
            assert_eq!(identify(&mut panel, &FURNACE), 2);
            identified(&RE_JUMPERED)
        }
    };
    assert_eq!(give(&mut panel, 5, message_type, &payload), joined(2));
    panel
}

#[test]
fn a_furnace_is_found_again_as_an_air_handler() {
    let before = with(&[THERMOSTAT, FURNACE, AIR_HANDLER]);
    assert_eq!((goes_to(&before, 1, 2, 2), goes_to(&before, 1, 2, 3)), (Some(2), Some(3)));
    assert_eq!(before.record(3).index, 0);
    for message_type in [0xFA, 0xFB] {
        let mut panel = found_re_jumpered(message_type);
        assert_eq!(panel, after_join(&before, &RE_JUMPERED));
        assert_eq!(panel.record(3).index, 1);
        assert_eq!((goes_to(&panel, 1, 2, 2), goes_to(&panel, 1, 2, 3)), (None, Some(2)));
        for (board, index) in [(1, 0), (2, 0), (3, 1)] {
            let (named, exchange, list) = turn(&mut panel);
            assert_eq!((named, exchange), (board, Exchange::List));
            assert_eq!((list[5], &list[10..14]), (index, &[1, 1, 3, 3][..]));
            assert_eq!(panel.quiet(), rest());
        }
    }
}

/// Until it joins the record counts, and so does its index.
#[test]
fn get_node_id_has_the_index_of_the_old_type_and_the_ack_that_of_the_new() {
    let mut panel = two();
    let found = Identity { node_type: 5, ..SECOND };
    assert_eq!(find(&mut panel, &found), rest());
    assert_eq!(turn(&mut panel).2[..6], [5, 255, 3, 0, 0, 1]);
    let mut out = [0; 29];
    assert_eq!(panel.frame(&bytes(5, 0xFB, &identified(&found)), &mut out), joined(2));
    assert_eq!(out[..6], [5, 255, 3, 0, 0, 0]);
}

#[test]
fn types_0_and_165_retype_no_board_that_is_found() {
    for node_type in [0, 165] {
        let (before, misfit) = (two(), Identity { node_type, ..SECOND });
        let mut panel = before.clone();
        assert_eq!(find(&mut panel, &misfit), rest());
        assert_eq!(panel, after_nothing(&before));

        let mut panel = before.clone();
        assert_eq!(identify(&mut panel, &SECOND), 2);
        assert_eq!(give(&mut panel, 5, 0xFB, &identified(&misfit)), transmit(29));
        assert_eq!(panel, after_nothing(&before));
    }
}

/// What breaks off retypes nobody: nobody answers Set Address, or another board
/// answers Get Node ID.
#[test]
fn a_board_that_is_found_and_does_not_join_keeps_its_type() {
    let (before, found) = (two(), Identity { node_type: 9, session: 44, ..SECOND });
    let mut panel = before.clone();
    assert_eq!(assign(&mut panel, &found), 2);
    assert_eq!(panel.quiet(), rest());
    assert_eq!(panel, after_nothing(&before));

    let mut panel = before.clone();
    assert_eq!(identify(&mut panel, &found), 2);
    let other = Identity { node_type: 9, ..FIRST };
    assert_eq!(give(&mut panel, 5, 0xFB, &identified(&other)), transmit(29));
    assert_eq!(panel, after_nothing(&before));
}

// ---- the indexes that a discovery leaves (C-13) -------------------------

fn indexes(panel: &Panel) -> [u8; 4] {
    [0, 1, 2, 3].map(|place| panel.records[place].index)
}

/// Three furnaces, the first of which is dropped.
fn first_gone() -> Panel {
    let mut panel = with(&[FIRST, SECOND, Identity { node_type: 2, ..NEW }]);
    panel.records[0].misses = 2;
    turn(&mut panel);
    assert_eq!(panel.quiet().unwrap().dropped, 1);
    panel.records.iter_mut().for_each(|record| record.owed = false);
    assert_eq!(indexes(&panel), [0, 0, 1, 0]);
    panel
}

/// Ends the exchange for the board at stake with the response of this type;
/// gives parameter 2 of the ACK.
fn end_well(panel: &mut Panel, message_type: u8, board: &Identity, at: usize) -> u8 {
    let address = POOL[at - 1];
    let payload = match message_type {
        0xFA => {
            assert_eq!(assign(panel, board), at);
            addressed(address, board)
        }
        _ => {
            assert_eq!(identify(panel, board), at);
            identified(board)
        }
    };
    let mut out = [0; 29];
    assert_eq!(panel.frame(&bytes(address, message_type, &payload), &mut out), joined(at));
    out[5]
}

#[test]
fn a_board_that_is_found_raises_those_of_its_type_above_it() {
    for message_type in [0xFA, 0xFB] {
        for (node_type, after) in [(2, [0, 1, 2, 0]), (5, [0, 0, 1, 0])] {
            let mut panel = first_gone();
            let found = Identity { node_type, mac: 900, session: 9, version: 2 };
            assert_eq!(end_well(&mut panel, message_type, &found, 1), 0);
            assert_eq!(indexes(&panel), after);
        }
    }
}

#[test]
fn a_board_that_is_found_again_moves_others_by_its_type() {
    for message_type in [0xFA, 0xFB] {
        let mut panel = with(&[AIR_HANDLER, FIRST, SECOND]);
        assert_eq!(indexes(&panel), [0, 0, 1, 0]);
        let retyped = Identity { node_type: 3, ..FIRST };
        for (found, index, after) in [(FIRST, 0, [0, 0, 1, 0]), (retyped, 1, [0, 1, 0, 0])] {
            assert_eq!(end_well(&mut panel, message_type, &found, 2), index);
            assert_eq!(indexes(&panel), after);
            panel.records.iter_mut().for_each(|record| record.owed = false);
            panel.coordinator.held = false;
            panel.coordinator.started = false;
        }
        // and back again
        assert_eq!(end_well(&mut panel, message_type, &FIRST, 2), 0);
        assert_eq!(indexes(&panel), [0, 0, 1, 0]);
    }
}

#[test]
fn get_node_id_to_a_freed_position_carries_0() {
    let mut panel = with(&[FIRST, SECOND]);
    panel.records[1].misses = 2;
    panel.coordinator.last_offered = 1;
    turn(&mut panel);
    assert_eq!(panel.quiet().unwrap().dropped, 2);
    panel.records[0].owed = false;
    assert_eq!(find(&mut panel, &Identity { node_type: 2, ..NEW }), rest());
    assert_eq!(turn(&mut panel).2[..8], [5, 255, 3, 0, 0, 0, 165, 0x7B]);
}

#[test]
fn another_index_is_refused_by_22_in_every_stage() {
    for mut panel in stages(&two()) {
        for (place, wrong) in [(0, 1), (1, 0), (1, 2), (2, 1), (39, 1)] {
            let right = panel.records[place].index;
            panel.records[place].index = wrong;
            let response = bytes(9, 0xFB, &identified(&NEW));
            refused_frame(&mut panel, Refusal::StateUnfit, &response);
            refused(&mut panel, Refusal::StateUnfit, |panel, _| panel.join(0, 0, 0, 2));
            refused(&mut panel, Refusal::StateUnfit, |panel, out| panel.discover(out));
            refused(&mut panel, Refusal::StateUnfit, |panel, out| panel.turn(out));
            refused(&mut panel, Refusal::StateUnfit, |panel, _| panel.quiet());
            panel.records[place].index = right;
        }
    }
}

// ---- every way it breaks off ------------------------------------------

/// Board 2 has missed twice, so that one miss more would drop it.
fn nearly_dropped() -> Panel {
    let mut panel = two();
    panel.records[1].misses = 2;
    panel
}

/// Those that 12 and 13 would refuse.
fn misfits() -> [Identity; 4] {
    [
        Identity { node_type: 0, ..NEW },
        Identity { node_type: 165, ..NEW },
        Identity { mac: 0, ..NEW },
        Identity { mac: 1 << 56, ..NEW },
    ]
}

#[test]
fn a_search_breaks_off() {
    for before in [ready(&POOL), nearly_dropped()] {
        let mut panel = before.clone();
        discover(&mut panel);
        assert_eq!(panel.quiet(), rest());
        assert_eq!(panel, after_nothing(&before));
        for misfit in misfits() {
            let mut panel = before.clone();
            assert_eq!(find(&mut panel, &misfit), rest());
            assert_eq!(panel, after_nothing(&before));
        }
    }
}

#[test]
fn an_ack_without_a_response_breaks_off() {
    for (board, address) in [(NEW, 9), (SECOND, 5)] {
        let before = nearly_dropped();
        let mut panel = before.clone();
        identify(&mut panel, &board);
        acked(&mut panel, address, 7777);
        assert_eq!(panel.quiet(), rest());
        assert_eq!(panel, after_nothing(&before));
    }
}

#[test]
fn a_response_that_cannot_join_there_breaks_off_with_its_ack() {
    let stranger = Identity { node_type: 4, mac: 900, session: 9, version: 2 };
    // at a free position: a misfit, or one that is listed elsewhere
    let mut cases: Vec<(Identity, u8, Identity)> = vec![(NEW, 9, FIRST), (NEW, 9, SECOND)];
    cases.extend(misfits().map(|misfit| (NEW, 9, misfit)));
    // at a listed board's: a misfit, one listed elsewhere, or somebody new
    cases.extend([(SECOND, 5, FIRST), (SECOND, 5, stranger), (FIRST, 2, SECOND)]);
    cases.extend(misfits().map(|misfit| (SECOND, 5, misfit)));
    for (found, address, answer) in cases {
        for acks in [false, true] {
            let before = nearly_dropped();
            let mut panel = before.clone();
            identify(&mut panel, &found);
            if acks {
                acked(&mut panel, address, answer.mac);
            }
            assert_eq!(give(&mut panel, address, 0xFB, &identified(&answer)), transmit(29));
            assert_eq!(panel, after_nothing(&before), "{found:?} {answer:?}");
        }
    }
}

#[test]
fn an_address_that_nobody_takes_breaks_off() {
    for found in [NEW, SECOND] {
        let before = nearly_dropped();
        let mut panel = before.clone();
        assign(&mut panel, &found);
        assert_eq!(panel.quiet(), rest());
        assert_eq!(panel, after_nothing(&before));
    }
}

#[test]
fn a_setup_ends_it_and_forgets_it() {
    let fresh = ready(&POOL);
    for mut panel in stages(&ready(&POOL)) {
        let (mac, session) = (MAC, SESSION);
        let settings = Settings { subnet: 3, internal: 1, mac, session, pool: &POOL };
        assert_eq!(panel.setup(&settings), Ok(4));
        assert_eq!(panel, fresh);
    }
}

/// States that no series of steps reaches, but that are fit.
#[test]
fn an_echo_breaks_off_where_its_join_would_be_refused_or_elsewhere() {
    let change: [fn(&mut Panel); 3] = [
        |panel| panel.coordinator.held = true,
        |panel| panel.records[0].owed = true,
        |panel| {
            let exchange = Exchange::Assign { found: NEW };
            panel.coordinator.phase = Phase::Waiting { board: 4, exchange };
        },
    ];
    for (change, address) in change.into_iter().zip([9, 9, 77]) {
        let mut panel = two();
        assign(&mut panel, &NEW);
        change(&mut panel);
        let records = panel.records.clone();
        assert_eq!(give(&mut panel, address, 0xFA, &addressed(address, &NEW)), transmit(29));
        assert_eq!(panel.records, records);
        assert_eq!(panel.coordinator.phase, Phase::Idle);
    }
}

// ---- hearing ----------------------------------------------------------

#[test]
fn a_listed_board_is_heard_by_its_own_mac_alone() {
    for (mac, misses) in [(SECOND.mac, 0), (FIRST.mac, 2), (7777, 2)] {
        let mut panel = nearly_dropped();
        identify(&mut panel, &SECOND);
        acked(&mut panel, 5, mac);
        // the session of this ACK is another, and owes no list
        let record = *panel.record(2);
        assert_eq!((record.misses, record.session, record.owed), (misses, 2, false));

        let mut panel = nearly_dropped();
        identify(&mut panel, &SECOND);
        let answer = Identity { node_type: 165, mac, session: 5, version: 2 };
        assert_eq!(give(&mut panel, 5, 0xFB, &identified(&answer)), transmit(29));
        assert_eq!((panel.record(2).misses, panel.record(2).session), (misses, 2));
        assert_eq!(panel.record(1).misses, 0);
    }
}

// ---- when a discovery may be started -----------------------------------

#[test]
fn it_is_started_once_between_two_offers_while_someone_is_listed() {
    let mut panel = two();
    discover(&mut panel);
    assert_eq!(panel.quiet(), rest());
    refused(&mut panel, Refusal::Held, |panel, out| panel.discover(out));
    assert_eq!(turn(&mut panel).1, Exchange::Offer);
    assert_eq!(panel.quiet(), rest());
    assert_eq!(discover(&mut panel), 3);
}

#[test]
fn while_nobody_is_listed_it_is_started_again_and_again() {
    let mut panel = ready(&POOL);
    for _ in 0..3 {
        assert_eq!(discover(&mut panel), 1);
        assert_eq!(panel.quiet(), rest());
    }
}

/// Nobody is listed, so a second start is taken; once a join lists someone, the
/// first counts until an offer.
#[test]
fn the_memory_outlives_an_empty_table_and_ends_with_an_offer() {
    let mut panel = ready(&POOL);
    discover(&mut panel);
    assert_eq!(panel.quiet(), rest());
    panel.join(2, 101, 1, 2).unwrap();
    assert_eq!(turn(&mut panel).1, Exchange::List);
    panel.quiet().unwrap();
    panel.coordinator.held = false;
    refused(&mut panel, Refusal::Held, |panel, out| panel.discover(out));
    assert_eq!(turn(&mut panel).1, Exchange::Offer);
    assert!(!panel.coordinator.started);
}

#[test]
fn discover_is_refused_by_22_14_15_16_and_11() {
    let mut panel = two();
    panel.records[0].misses = 3;
    refused(&mut panel, Refusal::StateUnfit, |panel, out| panel.discover(out));
    let mut panel = with(&[FIRST, SECOND, NEW, Identity { mac: 104, ..NEW }]);
    refused(&mut panel, Refusal::Full, |panel, _| panel.discover(&mut []));
    panel.coordinator.started = true;
    refused(&mut panel, Refusal::Held, |panel, _| panel.discover(&mut []));
    panel.coordinator.started = false;
    panel.coordinator.held = true;
    refused(&mut panel, Refusal::Held, |panel, _| panel.discover(&mut []));
    panel.records[3].owed = true;
    refused(&mut panel, Refusal::Busy, |panel, _| panel.discover(&mut []));
    let mut panel = two();
    refused(&mut panel, Refusal::NoRoom, |panel, out| panel.discover(&mut out[..12]));
    turn(&mut panel);
    refused(&mut panel, Refusal::Busy, |panel, out| panel.discover(out));
}

// ---- refusals in the exchange -----------------------------------------

/// The panel in each wait and due: search, Get Node ID due, identify, the same
/// after an ACK, Set Address due, assign. The address at stake is NEW's.
fn stages(start: &Panel) -> [Panel; 6] {
    let mut panel = start.clone();
    discover(&mut panel);
    let search = panel.clone();
    assert_eq!(give(&mut panel, 0, 0xF9, &discovered(&NEW)), rest());
    let identify_due = panel.clone();
    let at = turn(&mut panel).0;
    let identify = panel.clone();
    acked(&mut panel, POOL[at - 1], 7777);
    let after_ack = panel.clone();
    let mut panel = identify.clone();
    assert_eq!(panel.quiet(), rest());
    let assign_due = panel.clone();
    turn(&mut panel);
    [search, identify_due, identify, after_ack, assign_due, panel]
}

#[test]
fn joins_and_discoveries_get_14_in_every_stage() {
    for start in [ready(&POOL), two()] {
        for mut panel in stages(&start) {
            refused(&mut panel, Refusal::Busy, |panel, _| panel.discover(&mut []));
            refused(&mut panel, Refusal::BadType, |panel, _| panel.join(165, 0, 0, 2));
            refused(&mut panel, Refusal::BadMac, |panel, _| panel.join(4, 0, 0, 2));
            for mac in [101, NEW.mac, 900] {
                refused(&mut panel, Refusal::Busy, |panel, _| panel.join(4, mac, 0, 2));
            }
        }
    }
}

#[test]
fn turns_get_18_in_waits_and_11_in_dues_and_19_only_at_rest() {
    for start in [ready(&POOL), two()] {
        let [search, identify_due, identify, after_ack, assign_due, assign] = stages(&start);
        for mut panel in [search, identify, after_ack, assign] {
            refused(&mut panel, Refusal::AwaitingReply, |panel, _| panel.turn(&mut []));
        }
        for (mut panel, length) in [(identify_due, 12), (assign_due, 31)] {
            let short = length - 1;
            assert_eq!(panel.clone().turn(&mut vec![0; short]), Err(Refusal::NoRoom));
            refused(&mut panel, Refusal::NoRoom, |panel, _| panel.turn(&mut []));
            assert!(panel.turn(&mut vec![0; length]).is_ok());
        }
    }
    let mut panel = ready(&POOL);
    discover(&mut panel);
    assert_eq!(panel.quiet(), rest());
    refused(&mut panel, Refusal::NobodyListed, |panel, out| panel.turn(out));
}

#[test]
fn in_dues_quiet_gets_20_and_every_frame_6() {
    for start in [ready(&POOL), two()] {
        let [_, identify_due, _, _, assign_due, _] = stages(&start);
        for mut panel in [identify_due, assign_due] {
            refused(&mut panel, Refusal::NotWaiting, |panel, _| panel.quiet());
            for source in [0, 2, 9, 255] {
                for message_type in [0, 3, 0x94, 0xF9, 0xFA, 0xFB] {
                    let frame = bytes(source, message_type, &[]);
                    refused_frame(&mut panel, Refusal::NotAwaited, &frame);
                }
            }
        }
    }
}

/// The types that no wait of the exchange takes are tried in all of them.
fn other_types(taken: &[u8]) -> impl Iterator<Item = u8> + '_ {
    (0..=255).filter(move |message_type| !taken.contains(message_type))
}

fn takes_only(panel: &mut Panel, source: u8, taken: &[u8]) {
    for other in (0..=255).filter(|&other| other != source) {
        for message_type in [0, 3, 0xF9, 0xFA, 0xFB] {
            refused_frame(panel, Refusal::NotAwaited, &bytes(other, message_type, &[0; 18]));
        }
    }
    for message_type in other_types(taken) {
        for payload in [&[][..], &[6; 17], &[1; 18], &[1; 19]] {
            let frame = bytes(source, message_type, payload);
            refused_frame(panel, Refusal::UnexpectedType, &frame);
        }
    }
}

#[test]
fn search_takes_a_discovery_response_from_address_0() {
    let [mut panel, ..] = stages(&two());
    takes_only(&mut panel, 0, &[0xF9]);
    for payload in [&discovered(&NEW)[..17], &[1; 19], &[]] {
        refused_frame(&mut panel, Refusal::UnexpectedType, &bytes(0, 0xF9, payload));
    }
}

#[test]
fn identify_takes_one_ack_and_a_node_id() {
    let [_, _, mut panel, mut after_ack, ..] = stages(&two());
    takes_only(&mut panel, 9, &[0, 0xFB]);
    takes_only(&mut after_ack, 9, &[0xFB]);
    let ack = ack_payload(NEW.mac, 3);
    refused_frame(&mut after_ack, Refusal::UnexpectedType, &bytes(9, 0, &ack));
    let long = [&ack[..], &[0]].concat();
    for payload in [&ack[..16], &long, &[], &[0; 17], &[0x15; 17]] {
        refused_frame(&mut panel, Refusal::UnexpectedType, &bytes(9, 0, payload));
    }
    for mut panel in [panel, after_ack] {
        for payload in [&identified(&NEW)[..16], &[1; 18], &[]] {
            refused_frame(&mut panel, Refusal::UnexpectedType, &bytes(9, 0xFB, payload));
        }
        let good = bytes(9, 0xFB, &identified(&NEW));
        refused_frame(&mut panel, Refusal::NoRoom, &good);
        let misfit = bytes(9, 0xFB, &identified(&misfits()[0]));
        refused_frame(&mut panel, Refusal::NoRoom, &misfit);
        assert_eq!(panel.frame(&good, &mut [0; 29]), joined(3));
    }
}

#[test]
fn assign_takes_the_echo_and_no_other() {
    let [.., mut panel] = stages(&two());
    takes_only(&mut panel, 9, &[0xFA]);
    let echo = addressed(9, &NEW);
    for place in 0..echo.len() {
        let mut other = echo.clone();
        other[place] ^= 1;
        refused_frame(&mut panel, Refusal::BadEcho, &bytes(9, 0xFA, &other));
    }
    for other in [&echo[..18], &[&echo[..], &[0]].concat(), &[]] {
        refused_frame(&mut panel, Refusal::BadEcho, &bytes(9, 0xFA, other));
    }
    refused_frame(&mut panel, Refusal::NoRoom, &bytes(9, 0xFA, &echo));
    assert_eq!(give(&mut panel, 9, 0xFA, &echo), joined(3));
}

#[test]
fn frames_are_refused_by_1_to_5_before_all_that() {
    for mut panel in stages(&two()) {
        let good = bytes(9, 0xFB, &identified(&NEW));
        refused_frame(&mut panel, Refusal::Short, &good[..11]);
        refused_frame(&mut panel, Refusal::LengthMismatch, &good[..28]);
        let mut long = good.clone();
        long[9] = 241;
        refused_frame(&mut panel, Refusal::OverLong, &long);
        let mut bad = good.clone();
        bad[1] ^= 1;
        refused_frame(&mut panel, Refusal::BadChecksum, &bad);
        let foreign = Frame { destination: 9, message_type: 0xF9, ..Frame::default() };
        refused_frame(&mut panel, Refusal::NotForUs, &bytes_of(&foreign));
    }
}

// ---- 23 ---------------------------------------------------------------

fn not_discovering(panel: &mut Panel, message_type: u8) {
    for source in [0, 2, 5, 9, 255] {
        let frame = bytes(source, message_type, &[0; 17]);
        refused_frame(panel, Refusal::NotDiscovering, &frame);
    }
}

#[test]
fn responses_of_the_exchange_get_23_where_none_runs() {
    let mut offered = two();
    turn(&mut offered);
    let mut listing = two();
    listing.join(2, 101, 1, 2).unwrap();
    let list_due = listing.clone();
    turn(&mut listing);
    for mut panel in [ready(&POOL), two(), offered, list_due, listing] {
        for message_type in 0xF9..=0xFB {
            not_discovering(&mut panel, message_type);
        }
        let foreign = Frame { destination: 0, message_type: 0xF9, ..Frame::default() };
        refused_frame(&mut panel, Refusal::NotForUs, &bytes_of(&foreign));
        for message_type in [0xF8, 0xFC] {
            let frame = bytes(99, message_type, &[]);
            refused_frame(&mut panel, Refusal::NotAwaited, &frame);
        }
    }
}

/// Board 1 asks board 2; its request is of this type.
fn forward_due(request_type: u8) -> Panel {
    let mut panel = two();
    turn(&mut panel);
    let request = Frame {
        destination: 255,
        source: 2,
        method: 3,
        parameter1: 2,
        message_type: request_type,
        ..Frame::default()
    };
    assert_eq!(panel.frame(&bytes_of(&request), &mut [0; 29]), transmit(29));
    panel
}

#[test]
fn the_response_of_a_forwarded_request_is_taken_as_such() {
    for request_type in 0x79..=0x7B {
        let response = request_type + 128;
        for acks in [false, true] {
            let mut panel = forward_due(request_type);
            not_discovering(&mut panel, response);
            turn(&mut panel);
            if acks {
                assert!(give(&mut panel, 5, 0, &ack_payload(SECOND.mac, 2)).is_ok());
            }
            for other in (0xF9..=0xFB).filter(|&other| other != response) {
                not_discovering(&mut panel, other);
            }
            refused_frame(&mut panel, Refusal::NotAwaited, &bytes(2, response, &[]));
            assert_eq!(give(&mut panel, 5, response, &[4]), transmit(29));
            not_discovering(&mut panel, response);
            turn(&mut panel);
            not_discovering(&mut panel, response);
        }
    }
}
