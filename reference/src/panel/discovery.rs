//! The AutoNet exchange (C-11; 000, 11.10 and 11.11): discover asks who has no
//! address, Get Node ID asks whether the address at stake is free, Set Address
//! gives it away. It ends with one join, or it breaks off. All of it goes by the
//! version of what was discovered (C-15).

use super::{ack_of, low_byte_first, Action, Answer, Outcome, Panel};
use super::{PACKET_PLAIN, R2R_LENGTH, RESPONSE, TYPE_R2R, UNADDRESSED};
use crate::frame::{self, Frame, COORDINATOR, COORDINATOR_TYPE, OVERHEAD};
use crate::refusal::{refuse_if, Refusal};
use crate::state::{Exchange, Identity, Phase};
use crate::version::{self, PACKET_VERSION};

/// 003, 6.6 to 6.8: the three requests and their responses.
pub const TYPE_DISCOVER: u8 = 0x79;
pub const TYPE_ADDRESS: u8 = 0x7A;
pub const TYPE_IDENTIFY: u8 = 0x7B;
pub const TYPE_DISCOVERED: u8 = 0xF9;
pub const TYPE_ADDRESSED: u8 = 0xFA;
pub const TYPE_IDENTIFIED: u8 = 0xFB;
/// 003, table 58: node type, reserved, MAC and session.
pub const DISCOVERED_LENGTH: usize = 18;
/// 003, tables 59 and 60: address, subnet, MAC, session and a last byte.
pub const ADDRESS_LENGTH: usize = 19;
/// 003, table 62: node type, MAC and session.
pub const IDENTIFIED_LENGTH: usize = 17;
/// 003, table 59: what the last byte has to be.
const WRITE_ENABLED: u8 = 1;
/// 003, table 57: the filter that every node type passes.
const EVERY_TYPE: u8 = 0;

impl Panel {
    /// Discover: 22, then as the join of a new MAC 14 to 16, then 11.
    pub fn discover(&mut self, out: &mut [u8]) -> Answer {
        self.check_fit()?;
        refuse_if(self.busy(), Refusal::Busy)?;
        refuse_if(self.coordinator.held || self.started_before(), Refusal::Held)?;
        let at = self.free_position()?;
        let request = broadcast(TYPE_DISCOVER, PACKET_VERSION, &[EVERY_TYPE]);
        let written = frame::write(&request, out)?;
        self.coordinator.started = true;
        Ok(self.wait(at, Exchange::Search, written))
    }

    /// While someone is listed, one discovery at most between two offers.
    fn started_before(&self) -> bool {
        self.coordinator.started && self.listed().next().is_some()
    }

    /// Get Node ID, to the address at stake on the subnet of what was discovered.
    pub(super) fn transmit_identify(
        &self,
        at: usize,
        found: Identity,
        out: &mut [u8],
    ) -> Result<(usize, Exchange, usize), Refusal> {
        let subnet = self.subnet_of_version(found.version);
        let request = Frame { subnet, ..self.own(at, TYPE_IDENTIFY, PACKET_PLAIN, &[]) };
        let written = frame::write(&request, out)?;
        Ok((at, Exchange::Identify { found, acked: false }, written))
    }

    /// Set Address, to all: whom it is for knows itself by MAC and session.
    pub(super) fn transmit_assign(
        &self,
        at: usize,
        found: Identity,
        out: &mut [u8],
    ) -> Result<(usize, Exchange, usize), Refusal> {
        let payload = self.address_payload(at, &found);
        let written = frame::write(&broadcast(TYPE_ADDRESS, PACKET_PLAIN, &payload), out)?;
        Ok((at, Exchange::Assign { found }, written))
    }

    /// 003, table 59; the response echoes it.
    fn address_payload(&self, at: usize, found: &Identity) -> [u8; ADDRESS_LENGTH] {
        let mut payload = [WRITE_ENABLED; ADDRESS_LENGTH];
        payload[0] = self.address(at);
        payload[1] = self.subnet_of_version(found.version);
        payload[2..10].copy_from_slice(&found.mac.to_le_bytes());
        payload[10..18].copy_from_slice(&found.session.to_le_bytes());
        payload
    }

    /// 23: a response of the exchange while none runs, unless it answers a
    /// request that was forwarded and is awaited.
    pub(super) fn out_of_place(&self, message_type: u8) -> bool {
        let phase = &self.coordinator.phase;
        let answers = match phase.awaited() {
            Some((_, Exchange::Forward { request_type, .. })) => {
                message_type == request_type + RESPONSE
            }
            _ => false,
        };
        let response = (TYPE_DISCOVERED..=TYPE_IDENTIFIED).contains(&message_type);
        response && !phase.discovers() && !answers
    }

    /// A frame in one of the exchange's waits, from the address awaited: 7, 8
    /// and 11.
    pub(super) fn discovery_frame(
        &mut self,
        at: usize,
        exchange: Exchange,
        frame: &Frame<'_>,
        out: &mut [u8],
    ) -> Answer {
        match (exchange, frame.message_type) {
            (Exchange::Search, TYPE_DISCOVERED) => {
                let found = discovered(frame).ok_or(Refusal::UnexpectedType)?;
                Ok(self.found(found))
            }
            (Exchange::Identify { found, acked: false }, TYPE_R2R) => {
                let (mac, _) = ack_of(frame.payload).ok_or(Refusal::UnexpectedType)?;
                self.hear(at, mac);
                Ok(self.wait(at, Exchange::Identify { found, acked: true }, 0))
            }
            (Exchange::Identify { found, .. }, TYPE_IDENTIFIED) => {
                let holder = identified(frame.payload, found.version);
                self.finish(at, &holder.ok_or(Refusal::UnexpectedType)?, out)
            }
            (Exchange::Assign { found }, TYPE_ADDRESSED) => {
                let echo = self.address_payload(at, &found);
                refuse_if(frame.payload != echo, Refusal::BadEcho)?;
                self.finish(at, &found, out)
            }
            _ => Err(Refusal::UnexpectedType),
        }
    }

    /// Whoever was found is kept until an address is settled for him. He has
    /// none yet, so nothing is written to him. Where his join would be refused,
    /// the exchange breaks off.
    fn found(&mut self, found: Identity) -> Outcome {
        self.come_to_rest();
        if let Ok(at) = self.place_for(&found) {
            self.coordinator.phase = Phase::IdentifyDue { at, found };
        }
        Outcome::rest()
    }

    /// The exchange ends with an ACK to the sender, who joins if the join is
    /// accepted and takes the very position at stake. The room is tested before
    /// anything changes, since the ACK's index is that of the records after it.
    /// Its subnet is the sender's, though another may be listed there.
    fn finish(&mut self, at: usize, board: &Identity, out: &mut [u8]) -> Answer {
        refuse_if(out.len() < OVERHEAD + R2R_LENGTH, Refusal::NoRoom)?;
        self.come_to_rest();
        let joins = self.place_for(board) == Ok(at);
        if joins {
            self.admit(at, board);
        } else {
            self.hear(at, board.mac);
        }
        let written = self.write_ack(at, self.subnet_of_version(board.version), out)?;
        let joined = if joins { at } else { 0 };
        Ok(Outcome { joined, ..Outcome::new(Action::Transmit, written) })
    }

    /// Ends the exchange: what was discovered is forgotten, and unless a join
    /// follows it has broken off.
    fn come_to_rest(&mut self) {
        self.coordinator.phase = Phase::Idle;
    }

    /// Somebody else may sit at a listed board's address, so only its own MAC
    /// is a sign of life.
    fn hear(&mut self, at: usize, mac: u64) {
        let record = self.record_mut(at);
        if record.listed() && record.mac == mac {
            record.misses = 0;
        }
    }

    /// Nobody answered at the address at stake: it is free, and Set Address is
    /// due. Any other quiet breaks off. It is a miss for no board.
    pub(super) fn discovery_quiet(&mut self, at: usize, exchange: Exchange) -> Outcome {
        match exchange {
            Exchange::Identify { found, acked: false } => {
                self.coordinator.phase = Phase::AssignDue { at, found };
            }
            _ => self.come_to_rest(),
        }
        Outcome::rest()
    }
}

/// To address 0 on subnet 0, as 003, 6.6 and 6.7 have it.
fn broadcast(message_type: u8, packet: u8, payload: &[u8]) -> Frame<'_> {
    Frame {
        destination: UNADDRESSED,
        source: COORDINATOR,
        node_type: COORDINATOR_TYPE,
        message_type,
        packet,
        payload,
        ..Frame::default()
    }
}

/// 003, table 58: whom a Node Discovery Response tells of; its second byte is
/// reserved and not looked at. Its packet number tells the version.
fn discovered(frame: &Frame<'_>) -> Option<Identity> {
    let (payload, version) = (frame.payload, version::of_packet(frame.packet));
    (payload.len() == DISCOVERED_LENGTH).then(|| identity(payload[0], &payload[2..], version))
}

/// 003, table 62: whom a Get Node ID Response tells of. He answers on the subnet of
/// what was discovered, so he is of its version.
fn identified(payload: &[u8], version: u8) -> Option<Identity> {
    (payload.len() == IDENTIFIED_LENGTH).then(|| identity(payload[0], &payload[1..], version))
}

/// A node type, MAC and session from 16 bytes, and a version.
fn identity(node_type: u8, rest: &[u8], version: u8) -> Identity {
    let (mac, session) = rest.split_at(8);
    Identity { node_type, mac: low_byte_first(mac), session: low_byte_first(session), version }
}
