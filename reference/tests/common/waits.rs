//! Every wait of the panel and everything that it can have due, on a bus of one
//! subnet whose boards are of one version.

use super::{ack_payload, ready_on, rest, turn};
use reference::draft::Draft;
use reference::panel::{Action, Answer, Panel};
use reference::state::Phase;
use reference::version::{LATER, OLD};

pub const POOL: [u8; 4] = [2, 5, 9, 77];
/// A board that is discovered: type, MAC and session.
pub const NEW: (u8, u64, u64) = (5, 103, 3);

/// The subnet of the setup, and the version of the boards and of what is discovered.
#[derive(Clone, Copy, Debug)]
pub struct Bus {
    pub ours: u8,
    pub version: u8,
}

impl Bus {
    pub fn later(ours: u8) -> Bus {
        Bus { ours, version: LATER }
    }

    pub fn old(ours: u8) -> Bus {
        Bus { ours, version: OLD }
    }
}

/// Two boards at rest, with the MACs 1 and 2.
pub fn two(bus: Bus) -> Panel {
    let mut panel = ready_on(bus.ours, &POOL);
    for mac in [1, 2] {
        panel.join(2, mac, 100 + mac, bus.version).unwrap();
        panel.records.iter_mut().for_each(|record| record.owed = false);
        panel.coordinator.held = false;
    }
    panel
}

/// A frame to the panel on its own subnet.
pub fn to(panel: &Panel, source: u8, message_type: u8, payload: &[u8]) -> Draft {
    let (subnet, payload) = (panel.coordinator.subnet, payload.to_vec());
    Draft { destination: 255, source, subnet, message_type, payload, ..Draft::default() }
}

pub fn give(panel: &mut Panel, draft: &Draft) -> Answer {
    panel.frame(&draft.bytes(), &mut [0; 29])
}

pub fn ack(panel: &Panel, board: usize) -> Draft {
    let record = panel.record(board);
    to(panel, panel.address(board), 0, &ack_payload(record.mac, record.session))
}

pub fn numbers() -> Vec<u8> {
    [NEW.1.to_le_bytes(), NEW.2.to_le_bytes()].concat()
}

pub fn discovered(panel: &Panel, version: u8) -> Draft {
    let packet = if version == OLD { 0x20 } else { 0 };
    Draft { packet, ..to(panel, 0, 0xF9, &[&[NEW.0, 0][..], &numbers()].concat()) }
}

pub fn identified(panel: &Panel) -> Draft {
    to(panel, 9, 0xFB, &[&[NEW.0][..], &numbers()].concat())
}

pub fn addressed(panel: &Panel, version: u8) -> Draft {
    let subnet = if version == OLD { 2 } else { panel.coordinator.subnet };
    to(panel, 9, 0xFA, &[&[9, subnet][..], &numbers(), &[1]].concat())
}

pub fn listing(bus: Bus) -> Panel {
    let mut panel = two(bus);
    panel.join(2, 1, 101, bus.version).unwrap();
    panel
}

/// Board 1 asks board 2.
pub fn forward_due(bus: Bus) -> Panel {
    let mut panel = two(bus);
    turn(&mut panel);
    let request = Draft { method: 3, parameter1: 2, ..to(&panel, 2, 3, &[7]) };
    assert_eq!(give(&mut panel, &request).unwrap().action, Action::Transmit);
    assert!(matches!(panel.coordinator.phase, Phase::ForwardDue { .. }));
    panel
}

pub fn return_due(bus: Bus) -> Panel {
    let mut panel = after_turn(forward_due(bus));
    let response = to(&panel, 5, 131, &[8]);
    assert_eq!(give(&mut panel, &response).unwrap().action, Action::Transmit);
    panel
}

pub fn search(bus: Bus) -> Panel {
    let mut panel = two(bus);
    panel.discover(&mut [0; 13]).unwrap();
    panel
}

pub fn identify_due(bus: Bus) -> Panel {
    let mut panel = search(bus);
    let found = discovered(&panel, bus.version);
    assert_eq!(give(&mut panel, &found), rest());
    panel
}

pub fn assign_due(bus: Bus) -> Panel {
    let mut panel = after_turn(identify_due(bus));
    assert_eq!(panel.quiet(), rest());
    panel
}

pub fn after_turn(mut panel: Panel) -> Panel {
    turn(&mut panel);
    panel
}

/// After an ACK that does not end the wait.
pub fn after_ack(mut panel: Panel, draft: &Draft) -> Panel {
    assert!(matches!(give(&mut panel, draft).unwrap().action, Action::Wait { .. }));
    panel
}

/// Every wait, with the frames that it takes.
pub fn waits(bus: Bus) -> Vec<(Panel, Vec<Draft>)> {
    let offer = after_turn(two(bus));
    let delivered = to(&offer, 2, 1, &[4]);
    let passed_on = Draft { method: 3, parameter1: 2, ..delivered.clone() };
    let discarded = Draft { method: 3, parameter1: 40, ..delivered.clone() };
    let list = after_turn(listing(bus));
    let echo = to(&list, 2, 0x94, &list.list_to(1));
    let forward = after_turn(forward_due(bus));
    let response = to(&forward, 5, 131, &[8]);
    let forward_acked = after_ack(forward.clone(), &ack(&forward, 2));
    let returned = after_turn(return_due(bus));
    let identify = after_turn(identify_due(bus));
    let holder_ack = to(&identify, 9, 0, &ack_payload(NEW.1, NEW.2));
    let identify_acked = after_ack(identify.clone(), &holder_ack);
    let (search, assign) = (search(bus), after_turn(assign_due(bus)));
    let (node_id, found, settled) =
        (identified(&identify), discovered(&search, bus.version), addressed(&assign, bus.version));
    vec![
        (offer.clone(), vec![ack(&offer, 1), delivered, passed_on, discarded]),
        (list, vec![echo]),
        (forward.clone(), vec![ack(&forward, 2), response.clone()]),
        (forward_acked, vec![response]),
        (returned.clone(), vec![ack(&returned, 1)]),
        (search, vec![found]),
        (identify, vec![holder_ack, node_id.clone()]),
        (identify_acked, vec![node_id]),
        (assign, vec![settled]),
    ]
}

/// At rest, and with something due.
pub fn without_a_wait(bus: Bus) -> Vec<Panel> {
    let at_rest = [ready_on(bus.ours, &POOL), two(bus), listing(bus)];
    let due = [forward_due(bus), return_due(bus), identify_due(bus), assign_due(bus)];
    at_rest.into_iter().chain(due).collect()
}
