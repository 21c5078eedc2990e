//! Two systems in one conduit (C-14): in every wait a frame of another subnet is
//! refused by 24, at its place among the numbers, and changes nothing. Where a 1.0
//! board may answer, subnet 2 is none of these (C-15).

mod common;

use common::waits::{ack, after_turn, give, to, two, waits, without_a_wait, Bus};
use common::{refused, refused_frame, rest, turn};
use reference::checksum;
use reference::draft::Draft;
use reference::frame;
use reference::generator;
use reference::language;
use reference::panel::Panel;
use reference::refusal::Refusal;
use reference::script::Player;
use reference::state::Exchange;
use reference::version::OLD;

/// The subnets of setups that are tried.
const OURS: [u8; 7] = [3, 2, 4, 1, 0, 254, 255];

/// Each of them with boards of either version.
fn buses() -> impl Iterator<Item = Bus> {
    OURS.into_iter().flat_map(|ours| [Bus::later(ours), Bus::old(ours)])
}

/// Our subnet and 0 are taken; 2 in a search, and wherever a 1.0 board is awaited or
/// was discovered.
fn taken(panel: &Panel, bus: Bus, subnet: u8) -> bool {
    let phase = &panel.coordinator.phase;
    let searches = matches!(phase.awaited(), Some((_, Exchange::Search)));
    let old = bus.version == OLD && (phase.awaited().is_some() || phase.discovers());
    subnet == bus.ours || subnet == 0 || subnet == 2 && (searches || old)
}

/// Subnets that a panel does not take now.
fn others(panel: &Panel, bus: Bus) -> Vec<u8> {
    let ours = bus.ours;
    let near = [ours.wrapping_add(1), ours.wrapping_sub(1), ours ^ 0x80, 2, 3, 255];
    near.into_iter().filter(|&subnet| !taken(panel, bus, subnet)).collect()
}

// ---- what is taken ------------------------------------------------------

/// With a subnet that is taken a frame is the same to the panel, whichever it is; with
/// any other it is refused by 24, and nothing changes.
#[test]
fn every_wait_takes_our_subnet_0_and_that_of_a_1_0_board_and_no_other() {
    for bus in buses() {
        for (panel, frames) in waits(bus) {
            for draft in frames {
                let (mut expected, mut expected_out) = (panel.clone(), [0; 29]);
                let answer = expected.frame(&draft.bytes(), &mut expected_out);
                assert!(answer.is_ok(), "{bus:?} {draft:?}");
                for subnet in 0..=255 {
                    let bytes = Draft { subnet, ..draft.clone() }.bytes();
                    let (mut after, mut out) = (panel.clone(), [0; 29]);
                    if taken(&panel, bus, subnet) {
                        assert_eq!(after.frame(&bytes, &mut out), answer);
                        assert_eq!((after, out), (expected.clone(), expected_out));
                    } else {
                        refused_frame(&mut after, Refusal::OtherSubnet, &bytes);
                    }
                }
            }
        }
    }
}

/// What came with subnet 0 goes on with ours.
#[test]
fn forwards_and_returns_have_our_subnet() {
    for ours in OURS {
        let mut panel = after_turn(two(Bus::later(ours)));
        let request = Draft { method: 3, parameter1: 2, subnet: 0, ..to(&panel, 2, 3, &[7]) };
        give(&mut panel, &request).unwrap();
        assert_eq!(frame::read(&turn(&mut panel).2, ours).unwrap().subnet, ours);
        let response = Draft { subnet: 0, ..to(&panel, 5, 131, &[8]) };
        give(&mut panel, &response).unwrap();
        assert_eq!(frame::read(&turn(&mut panel).2, ours).unwrap().subnet, ours);
    }
}

/// Whatever the panel beside it sends to its boards gets 24, or is not for us where
/// subnet 2 is taken; what it sends to all of every subnet is not for a coordinator.
#[test]
fn what_another_panel_sends_is_refused() {
    let mut sent = Vec::new();
    for due in without_a_wait(Bus::later(2)).iter_mut().skip(1) {
        sent.push(turn(due).2);
    }
    let mut request = [0; 13];
    two(Bus::later(2)).discover(&mut request).unwrap();
    sent.push(request.to_vec());
    let mut ack = [0; 29];
    let mut offer = after_turn(two(Bus::later(2)));
    let asked = to(&offer, 2, 1, &[]);
    offer.frame(&asked.bytes(), &mut ack).unwrap();
    sent.push(ack.to_vec());
    assert_eq!(sent.iter().filter(|bytes| bytes[2] == 0).count(), 2);
    for bus in [Bus::later(3), Bus::old(3)] {
        for (mut panel, _) in waits(bus) {
            for bytes in &sent {
                let heard = taken(&panel, bus, bytes[2]);
                let number = if heard { Refusal::NotForUs } else { Refusal::OtherSubnet };
                refused_frame(&mut panel, number, bytes);
            }
        }
    }
}

// ---- the order of the numbers ------------------------------------------

#[test]
fn unfit_state_and_1_to_4_come_before_24() {
    for bus in buses() {
        for (panel, frames) in waits(bus) {
            for subnet in others(&panel, bus) {
                let mut panel = panel.clone();
                let good = Draft { subnet, ..frames[0].clone() }.bytes();
                refused_frame(&mut panel, Refusal::OtherSubnet, &good);
                refused_frame(&mut panel, Refusal::Short, &good[..11]);
                let mut long = good.clone();
                long[9] = 241;
                refused_frame(&mut panel, Refusal::OverLong, &long);
                refused_frame(&mut panel, Refusal::LengthMismatch, &good[..good.len() - 1]);
                for place in [0, 1, 2, 8, good.len() - 1] {
                    let mut bad = good.clone();
                    bad[place] ^= 4;
                    refused_frame(&mut panel, Refusal::BadChecksum, &bad);
                }
                panel.records[0].misses = 3;
                refused_frame(&mut panel, Refusal::StateUnfit, &good);
            }
        }
    }
}

/// The frame is refused with this number on the subnets taken, and by 24 on others.
fn comes_after_24(panel: &mut Panel, bus: Bus, refusal: Refusal, draft: &Draft) {
    for subnet in [bus.ours, 0, 2].into_iter().chain(others(panel, bus)) {
        let heard = taken(panel, bus, subnet);
        let number = if heard { refusal } else { Refusal::OtherSubnet };
        refused_frame(panel, number, &Draft { subnet, ..draft.clone() }.bytes());
    }
}

#[test]
fn numbers_5_6_7_and_23_come_after_24_in_every_wait() {
    for bus in buses() {
        for (mut panel, frames) in waits(bus) {
            for draft in frames {
                for destination in [0, 2, 254] {
                    let foreign = Draft { destination, ..draft.clone() };
                    comes_after_24(&mut panel, bus, Refusal::NotForUs, &foreign);
                }
                for source in [3, 77, 255] {
                    let other = Draft { source, ..draft.clone() };
                    comes_after_24(&mut panel, bus, Refusal::NotAwaited, &other);
                }
                let untaken = Draft { message_type: 128, ..draft.clone() };
                comes_after_24(&mut panel, bus, Refusal::UnexpectedType, &untaken);
                if !panel.coordinator.phase.discovers() {
                    for message_type in 0xF9..=0xFB {
                        let stray = Draft { message_type, ..draft.clone() };
                        comes_after_24(&mut panel, bus, Refusal::NotDiscovering, &stray);
                    }
                }
            }
        }
    }
}

#[test]
fn numbers_8_9_and_11_come_after_24() {
    for bus in buses() {
        for (mut panel, frames) in waits(bus) {
            let exchange = panel.coordinator.phase.awaited().unwrap().1;
            for draft in frames {
                if matches!(exchange, Exchange::List | Exchange::Assign { .. }) {
                    let other = Draft { payload: vec![1], ..draft.clone() };
                    comes_after_24(&mut panel, bus, Refusal::BadEcho, &other);
                }
                if (1..=127).contains(&draft.message_type) {
                    let unknown = Draft { method: 4, ..draft.clone() };
                    comes_after_24(&mut panel, bus, Refusal::BadMethod, &unknown);
                }
                // the room lent is one byte short of an ACK
                let acknowledged = draft.message_type != 0 && exchange != Exchange::Search;
                if acknowledged {
                    comes_after_24(&mut panel, bus, Refusal::NoRoom, &draft);
                }
            }
        }
    }
}

#[test]
fn without_a_wait_24_comes_before_5_23_and_6() {
    for bus in buses() {
        for mut panel in without_a_wait(bus) {
            let stray = to(&panel, 2, 3, &[7]);
            comes_after_24(&mut panel, bus, Refusal::NotAwaited, &stray);
            let foreign = Draft { destination: 9, ..stray.clone() };
            comes_after_24(&mut panel, bus, Refusal::NotForUs, &foreign);
            let discovers = panel.coordinator.phase.discovers();
            let number = if discovers { Refusal::NotAwaited } else { Refusal::NotDiscovering };
            comes_after_24(&mut panel, bus, number, &Draft { message_type: 0xFB, ..stray });
        }
    }
}

#[test]
fn before_a_setup_it_is_22() {
    let draft = Draft { destination: 255, subnet: 9, ..Draft::default() };
    let bytes = draft.bytes();
    refused(&mut Panel::default(), Refusal::StateUnfit, |panel, out| panel.frame(&bytes, out));
}

// ---- a frame of another subnet is not heard -----------------------------

/// The same board of the other system answers each time.
#[test]
fn a_board_that_only_the_other_system_answers_for_is_dropped_at_the_third() {
    for bus in buses() {
        let mut panel = two(bus);
        panel.records[1] = Default::default();
        for dropped in [0, 0, 1] {
            turn(&mut panel);
            for subnet in others(&panel, bus) {
                let bytes = Draft { subnet, ..ack(&panel, 1) }.bytes();
                refused_frame(&mut panel, Refusal::OtherSubnet, &bytes);
            }
            assert_eq!(panel.quiet().unwrap().dropped, dropped);
        }
    }
}

/// Two misses stay two until the board itself answers in the same wait.
#[test]
fn misses_are_cleared_by_our_board_alone() {
    for bus in buses() {
        let mut panel = two(bus);
        panel.records[0].misses = 2;
        turn(&mut panel);
        let answer = ack(&panel, 1);
        for subnet in others(&panel, bus) {
            let bytes = Draft { subnet, ..answer.clone() }.bytes();
            refused_frame(&mut panel, Refusal::OtherSubnet, &bytes);
            assert_eq!(panel.record(1).misses, 2);
        }
        assert_eq!(panel.clone().quiet().unwrap().dropped, 1);
        assert_eq!(give(&mut panel, &answer), rest());
        assert_eq!(panel.record(1).misses, 0);
    }
}

/// In every wait, an exchange's too, quiet does what it would have done.
#[test]
fn quiet_after_24_is_quiet() {
    for (panel, frames) in waits(Bus::later(3)).into_iter().chain(waits(Bus::old(3))) {
        let mut plain = panel.clone();
        let answer = plain.quiet();
        for draft in frames {
            let mut panel = panel.clone();
            let bytes = Draft { subnet: 4, ..draft }.bytes();
            refused_frame(&mut panel, Refusal::OtherSubnet, &bytes);
            assert_eq!((panel.quiet(), panel), (answer, plain.clone()));
        }
    }
}

// ---- whole series -------------------------------------------------------

/// The line with another subnet in its frame, not that of 1.0 boards either, and check
/// bytes that fit.
fn of_another_subnet(line: &str, ours: u8) -> Option<String> {
    let (start, digits) = line.rsplit_once(' ')?;
    let mut bytes = language::pairs(digits).filter(|bytes| bytes.len() >= 12)?;
    bytes[2] = [ours.wrapping_add(1), 255, 254]
        .into_iter()
        .find(|subnet| ![ours, 0, 2].contains(subnet))?;
    let body = bytes.len() - 2;
    let tail = checksum::check_bytes(&bytes[..body]);
    bytes[body..].copy_from_slice(&tail);
    Some(format!("{start} {}", language::hex(&bytes)))
}

/// The other system says everything first that our boards say, and no answer
/// is another for it.
#[test]
fn a_series_goes_on_as_if_the_other_system_were_not_there() {
    for seed in 200..203 {
        let (mut alone, mut beside, mut said) = (Player::default(), Player::default(), 0);
        generator::generate(seed, 4000, &mut |line| {
            let before = beside.panel.clone();
            let answer = alone.play(line.as_bytes());
            let refused = answer.as_ref().map_or(true, |text| text.starts_with("refuse"));
            if line.starts_with("frame ") && !refused {
                if let Some(other) = of_another_subnet(line, before.coordinator.subnet) {
                    assert_eq!(beside.play(other.as_bytes()).unwrap(), "refuse 24", "{other}");
                    assert_eq!(beside.panel, before);
                    said += 1;
                }
            }
            let heard = beside.play(line.as_bytes());
            let bad = |text: &Option<String>| matches!(text, Some(text) if text.starts_with("bad"));
            // a bad line is told with its number, which differs
            assert!(heard == answer || bad(&heard) && bad(&answer), "{line}");
        });
        assert!(said > 500);
    }
}
