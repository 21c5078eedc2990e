//! The coordinator's steps: join, discover, turn, frame and quiet, and the
//! setup that makes a fresh start (01, "Steps"; C-11). What a discovery does in
//! them, how a board comes and goes, the node list and the subnets stand in files
//! of their own.

mod discovery;
mod listing;
mod node_list;
mod subnets;

pub use discovery::{
    ADDRESS_LENGTH, DISCOVERED_LENGTH, IDENTIFIED_LENGTH, TYPE_ADDRESS, TYPE_ADDRESSED,
    TYPE_DISCOVER, TYPE_DISCOVERED, TYPE_IDENTIFIED, TYPE_IDENTIFY,
};

use crate::frame::{self, Frame, COORDINATOR, COORDINATOR_TYPE};
use crate::refusal::{refuse_if, Refusal};
use crate::routing;
use crate::state::{self, Coordinator, Exchange, Identity, Message, Phase, Record, RECORDS};
use crate::version;

/// 003, 6.1: message type of the R2R and of its ACK.
pub const TYPE_R2R: u8 = 0x00;
/// 003, 5.14: the node list and its echo.
pub const TYPE_LIST: u8 = 0x14;
pub const TYPE_ECHO: u8 = 0x94;
/// 003, tables 48 and 49: the R2R codes.
pub const CODE_OFFER: u8 = 0x00;
pub const CODE_ACK: u8 = 0x06;
/// 003, tables 48 and 49: code, MAC and session.
pub const R2R_LENGTH: usize = 17;
/// 003, 4.3: the dataflow bit, set on R2Rs and ACKs only.
pub const PACKET_DATAFLOW: u8 = 0x80;
pub const PACKET_PLAIN: u8 = 0x00;
/// A response's type is its request's and this (01, "Frame").
pub const RESPONSE: u8 = 128;
/// 003, 6.6: the address of a board that has none, and of all boards.
pub const UNADDRESSED: u8 = 0;

/// What a setup is given (01, "Boards and positions").
#[derive(Clone, Copy, Debug)]
pub struct Settings<'a> {
    pub subnet: u8,
    pub internal: u8,
    pub mac: u64,
    pub session: u64,
    pub pool: &'a [u8],
}

/// What the panel now does.
#[derive(Clone, Copy, Debug, PartialEq, Eq)]
pub enum Action {
    Wait { board: usize, exchange: Exchange },
    Deliver,
    Transmit,
    Rest,
}

/// The answer of an accepted step; 0 stands for no position.
#[derive(Clone, Copy, Debug, PartialEq, Eq)]
pub struct Outcome {
    pub action: Action,
    pub written: usize,
    pub joined: usize,
    pub dropped: usize,
}

impl Outcome {
    fn new(action: Action, written: usize) -> Outcome {
        Outcome { action, written, joined: 0, dropped: 0 }
    }

    fn rest() -> Outcome {
        Outcome::new(Action::Rest, 0)
    }
}

pub type Answer = Result<Outcome, Refusal>;

/// What an accepted frame is to the wait it came in.
enum Accepted {
    Ack { session: u64 },
    Request,
    Echo,
    Response { requester: usize },
}

#[derive(Clone, Debug, PartialEq, Eq)]
pub struct Panel {
    pub records: Vec<Record>,
    pub coordinator: Coordinator,
}

impl Default for Panel {
    fn default() -> Panel {
        let records = vec![Record::default(); RECORDS];
        Panel { records, coordinator: Coordinator::default() }
    }
}

impl Panel {
    /// Setup: 22 (only if not forty records), 21, 13; gives k.
    pub fn setup(&mut self, settings: &Settings<'_>) -> Result<usize, Refusal> {
        refuse_if(self.records.len() != RECORDS, Refusal::StateUnfit)?;
        refuse_if(!state::pool_fits(settings.pool), Refusal::BadPool)?;
        refuse_if(!state::mac_fits(settings.mac), Refusal::BadMac)?;
        self.records.fill(Record::default());
        self.coordinator = Coordinator {
            pool: settings.pool.to_vec(),
            subnet: settings.subnet,
            internal: settings.internal,
            mac: settings.mac,
            session: settings.session,
            phase: Phase::Idle,
            last_offered: 0,
            held: false,
            started: false,
        };
        Ok(settings.pool.len())
    }

    /// Join: 22, 12 to 15, 25, 16. Of the version byte 1 is a 1.0 board (C-15).
    pub fn join(&mut self, node_type: u8, mac: u64, session: u64, version: u8) -> Answer {
        self.check_fit()?;
        let board = Identity { node_type, mac, session, version: version::of_join(version) };
        let position = self.place_for(&board)?;
        self.admit(position, &board);
        Ok(Outcome { joined: position, ..Outcome::rest() })
    }

    /// 12 to 15, 25 and 16: the position that a join of this board takes, its own
    /// where the MAC is listed, else the lowest free one.
    fn place_for(&self, board: &Identity) -> Result<usize, Refusal> {
        refuse_if(!state::type_fits(board.node_type), Refusal::BadType)?;
        refuse_if(!state::mac_fits(board.mac), Refusal::BadMac)?;
        refuse_if(self.busy(), Refusal::Busy)?;
        refuse_if(self.coordinator.held, Refusal::Held)?;
        refuse_if(self.too_many_types_with(board), Refusal::TooManyTypes)?;
        match self.position_of(board.mac) {
            Some(position) => Ok(position),
            None => self.free_position(),
        }
    }

    /// 25: whether the listed boards with this one, in the place of its own record
    /// if it has one, are a 1.0 board and more than 15 types. Whether there is room
    /// for it is not asked.
    fn too_many_types_with(&self, board: &Identity) -> bool {
        let others: Vec<Record> =
            self.records.iter().copied().filter(|record| record.mac != board.mac).collect();
        let mut boards = state::boards(&others);
        boards.push((board.node_type, board.version));
        version::too_many_types(&boards)
    }

    /// 16: the lowest free position, freed ones included. No listed board has
    /// its address, because the pool rises strictly (C-23).
    fn free_position(&self) -> Result<usize, Refusal> {
        let free = self.types().iter().position(|&kind| kind == 0);
        free.map(|place| place + 1).ok_or(Refusal::Full)
    }

    /// The board is listed there, anew or again, as what it now says it is: of a
    /// listed board only MAC and address stay (C-12). The list is owed to all,
    /// and further joins are held.
    fn admit(&mut self, position: usize, board: &Identity) {
        listing::list(&mut self.records, position, board);
        self.owe_to_all();
        self.coordinator.held = true;
    }

    /// 14: a wait, a discovery, or a forward, return or list that is due.
    fn busy(&self) -> bool {
        self.coordinator.phase != Phase::Idle || self.records.iter().any(|record| record.owed)
    }

    /// Turn: 22, 18, 19, 11; else the next transmission is written. A discovery
    /// goes on though nobody is listed.
    pub fn turn(&mut self, out: &mut [u8]) -> Answer {
        self.check_fit()?;
        let phase = &self.coordinator.phase;
        refuse_if(phase.awaited().is_some(), Refusal::AwaitingReply)?;
        let nobody = self.listed().next().is_none();
        refuse_if(nobody && !phase.discovers(), Refusal::NobodyListed)?;
        let (board, exchange, written) = self.transmit_next(out)?;
        Ok(self.wait(board, exchange, written))
    }

    /// From now on the panel waits.
    fn wait(&mut self, board: usize, exchange: Exchange, written: usize) -> Outcome {
        self.coordinator.phase = Phase::Waiting { board, exchange };
        Outcome::new(Action::Wait { board, exchange }, written)
    }

    /// First a return, else a forward, else what a discovery has due, else a
    /// list owed, else an offer.
    fn transmit_next(&mut self, out: &mut [u8]) -> Result<(usize, Exchange, usize), Refusal> {
        match &self.coordinator.phase {
            Phase::ReturnDue { to, response } => {
                let written = frame::write(&self.passed_on(*to, 0, response), out)?;
                Ok((*to, Exchange::Return, written))
            }
            Phase::ForwardDue { to, requester, request } => {
                let index = self.record(*requester).index;
                let written = frame::write(&self.passed_on(*to, index, request), out)?;
                let (requester, request_type) = (*requester, request.message_type);
                let exchange = Exchange::Forward { requester, request_type, acked: false };
                Ok((*to, exchange, written))
            }
            Phase::IdentifyDue { at, found } => self.transmit_identify(*at, *found, out),
            Phase::AssignDue { at, found } => self.transmit_assign(*at, *found, out),
            _ => self.transmit_own(out),
        }
    }

    /// The list to the lowest position owed, else an offer.
    fn transmit_own(&mut self, out: &mut [u8]) -> Result<(usize, Exchange, usize), Refusal> {
        let owed = self.listed().find(|&position| self.record(position).owed);
        match owed {
            Some(board) => self.transmit_list(board, out),
            None => self.transmit_offer(out),
        }
    }

    /// 003, 5.14: the node list, packet number 0; the board's mark is cleared.
    fn transmit_list(
        &mut self,
        board: usize,
        out: &mut [u8],
    ) -> Result<(usize, Exchange, usize), Refusal> {
        let list = self.list_to(board);
        let written = frame::write(&self.own(board, TYPE_LIST, PACKET_PLAIN, &list), out)?;
        self.record_mut(board).owed = false;
        Ok((board, Exchange::List, written))
    }

    /// 003, 6.1: the R2R; an offer ends the hold on joins, and a discovery may
    /// be started again.
    fn transmit_offer(&mut self, out: &mut [u8]) -> Result<(usize, Exchange, usize), Refusal> {
        let board = self.next_offered();
        let payload = self.r2r_payload(CODE_OFFER);
        let written = frame::write(&self.own(board, TYPE_R2R, PACKET_DATAFLOW, &payload), out)?;
        self.coordinator.last_offered = board;
        self.coordinator.held = false;
        self.coordinator.started = false;
        Ok((board, Exchange::Offer, written))
    }

    /// The first listed position after the last one offered, from k to 1.
    fn next_offered(&self) -> usize {
        let last = self.coordinator.last_offered;
        let after = self.listed().find(|&position| position > last);
        after.or_else(|| self.listed().next()).unwrap_or(0)
    }

    /// Frame: 22, 1 to 4, 24, 5, 23, 6 to 9, then 11. It is read on the subnets
    /// that are now taken (C-14, C-15).
    pub fn frame(&mut self, bytes: &[u8], out: &mut [u8]) -> Answer {
        self.check_fit()?;
        let frame = self.read(bytes)?;
        refuse_if(frame.destination != COORDINATOR, Refusal::NotForUs)?;
        refuse_if(self.out_of_place(frame.message_type), Refusal::NotDiscovering)?;
        let (board, exchange) = self.awaited(frame.source)?;
        if exchange.discovers() {
            return self.discovery_frame(board, exchange, &frame, out);
        }
        let accepted = self.judge(board, exchange, &frame)?;
        let written = match accepted {
            Accepted::Ack { .. } => 0,
            _ => self.write_ack(board, self.subnet_at(board), out)?,
        };
        self.record_mut(board).misses = 0;
        Ok(Outcome::new(self.accept(board, exchange, accepted, &frame), written))
    }

    /// 6: the wait in which a frame from this address is awaited.
    fn awaited(&self, source: u8) -> Result<(usize, Exchange), Refusal> {
        let (board, exchange) = self.coordinator.phase.awaited().ok_or(Refusal::NotAwaited)?;
        let awaited = match exchange {
            Exchange::Search => UNADDRESSED,
            _ => self.address(board),
        };
        refuse_if(source != awaited, Refusal::NotAwaited)?;
        Ok((board, exchange))
    }

    /// 7 to 9: what the frame is in this wait.
    fn judge(
        &self,
        board: usize,
        exchange: Exchange,
        frame: &Frame<'_>,
    ) -> Result<Accepted, Refusal> {
        match (exchange, frame.message_type) {
            (Exchange::Offer | Exchange::Return, TYPE_R2R) => self.judge_ack(board, frame),
            (Exchange::Forward { acked: false, .. }, TYPE_R2R) => self.judge_ack(board, frame),
            (Exchange::Offer, 1..=127) => {
                refuse_if(frame.method > 3, Refusal::BadMethod)?;
                Ok(Accepted::Request)
            }
            (Exchange::List, TYPE_ECHO) => {
                refuse_if(frame.payload != self.list_to(board), Refusal::BadEcho)?;
                Ok(Accepted::Echo)
            }
            (Exchange::Forward { requester, request_type, .. }, kind)
                if kind == request_type + RESPONSE =>
            {
                Ok(Accepted::Response { requester })
            }
            _ => Err(Refusal::UnexpectedType),
        }
    }

    /// 003, table 49: 17 bytes, code 6, the record's MAC, any session.
    fn judge_ack(&self, board: usize, frame: &Frame<'_>) -> Result<Accepted, Refusal> {
        let (mac, session) = ack_of(frame.payload).ok_or(Refusal::UnexpectedType)?;
        refuse_if(mac != self.record(board).mac, Refusal::UnexpectedType)?;
        Ok(Accepted::Ack { session })
    }

    /// The ACK due to the sender of a request or response, on his subnet.
    fn write_ack(&self, board: usize, subnet: u8, out: &mut [u8]) -> Result<usize, Refusal> {
        let payload = self.r2r_payload(CODE_ACK);
        let ack = Frame { subnet, ..self.own(board, TYPE_R2R, PACKET_DATAFLOW, &payload) };
        frame::write(&ack, out)
    }

    /// Each accepted frame ends its wait, except an ACK after a forward.
    fn accept(
        &mut self,
        board: usize,
        exchange: Exchange,
        accepted: Accepted,
        frame: &Frame<'_>,
    ) -> Action {
        match accepted {
            Accepted::Ack { session } => self.accept_ack(board, exchange, session),
            Accepted::Request => self.accept_request(board, frame),
            Accepted::Echo => {
                self.coordinator.phase = Phase::Idle;
                Action::Transmit
            }
            Accepted::Response { requester } => {
                let response = Message::of(frame);
                self.coordinator.phase = Phase::ReturnDue { to: requester, response };
                Action::Transmit
            }
        }
    }

    /// 000, 7.10.2: another session replaces the old, the list is owed to all.
    fn accept_ack(&mut self, board: usize, exchange: Exchange, session: u64) -> Action {
        if self.record(board).session != session {
            self.record_mut(board).session = session;
            self.owe_to_all();
        }
        if let Exchange::Forward { requester, request_type, .. } = exchange {
            let exchange = Exchange::Forward { requester, request_type, acked: true };
            self.coordinator.phase = Phase::Waiting { board, exchange };
            return Action::Wait { board, exchange };
        }
        self.coordinator.phase = Phase::Idle;
        Action::Rest
    }

    /// Method 0 is delivered; 1 to 3 resolve by 000, 6.3. No such board, or
    /// the sender itself: discarded.
    fn accept_request(&mut self, sender: usize, frame: &Frame<'_>) -> Action {
        self.coordinator.phase = Phase::Idle;
        if frame.method == 0 {
            return Action::Deliver;
        }
        let found = routing::resolve(&self.types(), frame.method, frame.parameter1);
        if let Some(to) = found.filter(|&to| to != sender) {
            let request = Message::of(frame);
            self.coordinator.phase = Phase::ForwardDue { to, requester: sender, request };
        }
        Action::Transmit
    }

    /// Quiet: 22, 20; ends the wait, with a miss if nothing was accepted.
    pub fn quiet(&mut self) -> Answer {
        self.check_fit()?;
        let (board, exchange) = self.coordinator.phase.awaited().ok_or(Refusal::NotWaiting)?;
        if exchange.discovers() {
            return Ok(self.discovery_quiet(board, exchange));
        }
        self.coordinator.phase = Phase::Idle;
        let heard = matches!(exchange, Exchange::Forward { acked: true, .. });
        let dropped = if heard { 0 } else { self.miss(board) };
        Ok(Outcome { dropped, ..Outcome::rest() })
    }

    /// One miss more; the third drops the board. Gives the position dropped.
    fn miss(&mut self, board: usize) -> usize {
        if self.record(board).misses < 2 {
            self.record_mut(board).misses += 1;
            return 0;
        }
        listing::clear(&mut self.records, board);
        self.owe_to_all();
        if self.listed().next().is_none() {
            self.coordinator.held = false;
        }
        board
    }

    /// 22 comes first in every step.
    fn check_fit(&self) -> Result<(), Refusal> {
        refuse_if(!state::fit(&self.records, &self.coordinator), Refusal::StateUnfit)
    }

    pub fn record(&self, position: usize) -> &Record {
        &self.records[position - 1]
    }

    fn record_mut(&mut self, position: usize) -> &mut Record {
        &mut self.records[position - 1]
    }

    /// Position i stands for the pool's i-th address.
    pub fn address(&self, position: usize) -> u8 {
        self.coordinator.pool[position - 1]
    }

    /// The types at positions 1 to k, 0 if free.
    pub fn types(&self) -> Vec<u8> {
        let k = self.coordinator.pool.len();
        self.records.iter().take(k).map(|record| record.node_type).collect()
    }

    /// The listed positions, lowest first.
    pub fn listed(&self) -> impl Iterator<Item = usize> + '_ {
        (1..=self.records.len()).filter(|&position| self.record(position).listed())
    }

    pub fn position_of(&self, mac: u64) -> Option<usize> {
        self.listed().find(|&position| self.record(position).mac == mac)
    }

    /// The payload of a node list to this board, in the form that it reads.
    pub fn list_to(&self, board: usize) -> Vec<u8> {
        match self.record(board).version {
            version::OLD => self.condensed_list(),
            _ => self.node_list(),
        }
    }

    /// The full list, to boards that are not 1.0 boards.
    pub fn node_list(&self) -> Vec<u8> {
        node_list::full(&self.records, self.coordinator.internal)
    }

    /// The list to 1.0 boards.
    pub fn condensed_list(&self) -> Vec<u8> {
        node_list::condensed(&self.records, self.coordinator.internal)
    }

    fn owe_to_all(&mut self) {
        for record in self.records.iter_mut().filter(|record| record.listed()) {
            record.owed = true;
        }
    }

    /// 003, tables 48 and 49 with the panel's own MAC and session, low byte
    /// first (01, house).
    fn r2r_payload(&self, code: u8) -> [u8; R2R_LENGTH] {
        let mut payload = [code; R2R_LENGTH];
        payload[1..9].copy_from_slice(&self.coordinator.mac.to_le_bytes());
        payload[9..17].copy_from_slice(&self.coordinator.session.to_le_bytes());
        payload
    }

    /// Own frames: the board's subnet, method 0, parameter 1 0, parameter 2 the
    /// index on record, which is 0 where nobody is listed.
    fn own<'a>(&self, board: usize, message_type: u8, packet: u8, payload: &'a [u8]) -> Frame<'a> {
        Frame {
            destination: self.address(board),
            source: COORDINATOR,
            subnet: self.subnet_at(board),
            method: 0,
            parameter1: 0,
            parameter2: self.record(board).index,
            node_type: COORDINATOR_TYPE,
            message_type,
            packet,
            payload,
        }
    }

    /// Forward and return keep what was received, but for the addresses, the
    /// subnet and parameter 2 (01; 000, 5.1.5 and 6.3).
    fn passed_on<'a>(&self, board: usize, parameter2: u8, message: &'a Message) -> Frame<'a> {
        Frame {
            destination: self.address(board),
            source: COORDINATOR,
            subnet: self.subnet_at(board),
            method: message.method,
            parameter1: message.parameter1,
            parameter2,
            node_type: message.node_type,
            message_type: message.message_type,
            packet: message.packet,
            payload: &message.payload,
        }
    }
}

/// 003, table 49: the MAC and the session of an ACK of that form.
fn ack_of(payload: &[u8]) -> Option<(u64, u64)> {
    let form = payload.len() == R2R_LENGTH && payload[0] == CODE_ACK;
    form.then(|| (low_byte_first(&payload[1..9]), low_byte_first(&payload[9..17])))
}

fn low_byte_first(bytes: &[u8]) -> u64 {
    bytes.iter().rev().fold(0, |value, &byte| (value << 8) | u64::from(byte))
}

#[cfg(test)]
mod tests {
    use super::*;

    #[test]
    fn numbers_go_low_byte_first() {
        assert_eq!(low_byte_first(&[1, 2, 0, 0, 0, 0, 0, 0x80]), 0x8000_0000_0000_0201);
    }
}
