//! What the tests of the steps share; none of them uses all of it.

#![allow(dead_code)]

pub mod waits;

use reference::frame::{self, Frame};
use reference::panel::{Action, Answer, Outcome, Panel, Settings};
use reference::refusal::Refusal;
use reference::state::{Exchange, Phase};

pub const MAC: u64 = 0x0011_2233_4455_6677;
pub const SESSION: u64 = 0x8877_6655_4433_2211;
pub const SUBNET: u8 = 3;

pub fn ready(pool: &[u8]) -> Panel {
    ready_on(SUBNET, pool)
}

pub fn ready_on(subnet: u8, pool: &[u8]) -> Panel {
    let mut panel = Panel::default();
    let settings = Settings { subnet, internal: 1, mac: MAC, session: SESSION, pool };
    assert_eq!(panel.setup(&settings), Ok(pool.len()));
    panel
}

pub fn turn(panel: &mut Panel) -> (usize, Exchange, Vec<u8>) {
    let mut out = [0u8; 300];
    let outcome = panel.turn(&mut out).unwrap();
    match outcome.action {
        Action::Wait { board, exchange } => (board, exchange, out[..outcome.written].to_vec()),
        other => panic!("{other:?}"),
    }
}

pub fn bytes_of(frame: &Frame<'_>) -> Vec<u8> {
    let mut out = vec![0; 300];
    let count = frame::write(frame, &mut out).unwrap();
    out.truncate(count);
    out
}

pub fn ack_payload(mac: u64, session: u64) -> Vec<u8> {
    [&[6u8][..], &mac.to_le_bytes(), &session.to_le_bytes()].concat()
}

/// The call is refused with this number and changes neither panel nor bytes.
pub fn refused(
    panel: &mut Panel,
    refusal: Refusal,
    step: impl Fn(&mut Panel, &mut [u8]) -> Answer,
) {
    let before = panel.clone();
    let mut out = [0xEE; 28];
    assert_eq!(step(panel, &mut out), Err(refusal));
    assert_eq!((panel.clone(), out), (before, [0xEE; 28]));
}

pub fn refused_frame(panel: &mut Panel, refusal: Refusal, bytes: &[u8]) {
    refused(panel, refusal, |panel, out| panel.frame(bytes, out));
}

pub fn rest() -> Answer {
    Ok(Outcome { action: Action::Rest, written: 0, joined: 0, dropped: 0 })
}

pub fn transmit(count: usize) -> Answer {
    Ok(Outcome { action: Action::Transmit, written: count, joined: 0, dropped: 0 })
}

/// The board at which a request of this sender arrives, none if it is
/// discarded; as if the lists were out.
pub fn goes_to(panel: &Panel, sender: usize, method: u8, parameter1: u8) -> Option<usize> {
    let mut panel = panel.clone();
    panel.records.iter_mut().for_each(|record| record.owed = false);
    panel.coordinator.last_offered = sender - 1;
    let (board, exchange, _) = turn(&mut panel);
    assert_eq!((board, exchange), (sender, Exchange::Offer));
    let source = panel.address(sender);
    let request = Frame { destination: 255, source, message_type: 3, ..Frame::default() };
    let request = Frame { method, parameter1, ..request };
    assert_eq!(panel.frame(&bytes_of(&request), &mut [0; 29]), transmit(29));
    let passed_on = matches!(panel.coordinator.phase, Phase::ForwardDue { .. });
    passed_on.then(|| turn(&mut panel).0)
}
