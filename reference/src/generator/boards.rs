//! What boards send: each has its habits.

use super::{frame_text, Generator, Mode};
use crate::draft::Draft;
use crate::frame::{COORDINATOR, MAX_PAYLOAD};
use crate::line::{Kind, Line};
use crate::panel::{CODE_ACK, PACKET_DATAFLOW, RESPONSE, TYPE_ECHO, TYPE_R2R, UNADDRESSED};
use crate::panel::{TYPE_ADDRESS, TYPE_DISCOVER, TYPE_IDENTIFY};
use crate::state::{Exchange, Phase};

/// The length of an ACK's frame.
pub(super) const ACK_LENGTH: usize = 29;

/// How a board behaves when the panel waits for it.
#[derive(Clone, Copy, PartialEq, Eq)]
pub(super) enum Habit {
    Steady,
    Silent,
    Late,
    NewSession,
    NewMac,
    Spoken,
    Overheard,
}

const HABITS: [Habit; 9] = [
    Habit::Steady,
    Habit::Steady,
    Habit::Silent,
    Habit::Silent,
    Habit::Late,
    Habit::NewSession,
    Habit::NewMac,
    Habit::Spoken,
    Habit::Overheard,
];

impl Generator<'_> {
    /// Now and then, between two offers, a board takes up another habit.
    pub(super) fn change_habits(&mut self) {
        let between = self.panel().coordinator.phase == Phase::Idle && !self.list_owed();
        if self.mode != Mode::Calm && between && self.rng.chance(12) {
            if let Some(board) = self.any_listed() {
                let habit = self.rng.pick(&HABITS);
                let mac = self.panel().record(board).mac;
                self.habits.insert(mac, habit);
            }
        }
    }

    /// The awaited board does as it is used to.
    pub(super) fn habitual(&mut self, board: usize, exchange: Exchange) -> Line {
        let mac = self.panel().record(board).mac;
        let habit = self.habits.get(&mac).copied().unwrap_or(Habit::Steady);
        let habit = if self.mode == Mode::Calm { Habit::Steady } else { habit };
        match habit {
            Habit::Steady => self.answer_line(board, exchange),
            Habit::Silent => self.silence(),
            Habit::Late => self.late_habit(board, exchange),
            Habit::NewSession if self.rng.chance(40) => self.new_session_line(board),
            Habit::NewMac if self.rng.chance(50) => self.new_mac_line(board),
            Habit::Spoken if self.rng.chance(50) => self.other_source(board, exchange),
            // it is silent, but the other system is not
            Habit::Overheard if self.rng.chance(55) => self.overheard_answer(board, exchange),
            Habit::NewMac | Habit::Overheard => self.silence(),
            _ => self.answer_line(board, exchange),
        }
    }

    /// Its answer is kept and comes after the wait has ended, perhaps in the
    /// next one for this board.
    fn late_habit(&mut self, board: usize, exchange: Exchange) -> Line {
        let address = self.panel().address(board);
        let kept = self.late.as_ref().and_then(|bytes| bytes.get(1)) == Some(&address);
        if kept && self.rng.chance(50) {
            return self.late_line();
        }
        self.late = Some(self.answer(board, exchange).bytes());
        self.silence()
    }

    /// What a board should have sent before.
    pub(super) fn late_line(&mut self) -> Line {
        let bytes = self.late.take().unwrap_or_default();
        self.frame_line(Kind::Late, &bytes)
    }

    pub(super) fn silence(&self) -> Line {
        Line::new(Kind::Silent, "quiet")
    }

    pub(super) fn answer_line(&mut self, board: usize, exchange: Exchange) -> Line {
        let bytes = self.answer(board, exchange).bytes();
        self.frame_line(Kind::Answers, &bytes)
    }

    /// A frame that the wait accepts.
    pub(super) fn answer(&mut self, board: usize, exchange: Exchange) -> Draft {
        let acks = if self.mode == Mode::Calm { 80 } else { 25 };
        match exchange {
            Exchange::Offer if self.rng.chance(acks) => self.own_ack(board),
            Exchange::Offer => self.request(board),
            Exchange::List => {
                let list = self.panel().list_to(board);
                self.draft(board, TYPE_ECHO, list)
            }
            Exchange::Forward { acked: false, .. } if self.rng.chance(60) => self.own_ack(board),
            Exchange::Forward { request_type, .. } => self.response(board, request_type),
            Exchange::Return => self.own_ack(board),
            Exchange::Search => self.discovered(),
            Exchange::Identify { acked: false, .. } if self.rng.chance(50) => {
                self.holder_ack(board)
            }
            Exchange::Identify { .. } => self.identified(board),
            Exchange::Assign { found } => self.addressed(board, &found),
        }
    }

    /// A frame from the board to the panel; what is not examined is anything.
    pub(super) fn draft(&mut self, board: usize, message_type: u8, payload: Vec<u8>) -> Draft {
        let kind = self.panel().record(board).node_type;
        let odd = self.rng.byte();
        Draft {
            destination: COORDINATOR,
            source: self.source_of(board),
            subnet: self.spoken_subnet(board),
            method: self.rng.pick(&[0, 0, 1, 2, 3]),
            parameter1: self.rng.byte(),
            parameter2: self.rng.pick(&[0, 0, 0, odd]),
            node_type: self.rng.pick(&[kind, kind, kind, odd]),
            message_type,
            packet: self.rng.pick(&[0, 0, PACKET_DATAFLOW, 0x20, odd]),
            payload,
        }
    }

    /// Where its frames come from: its address, but in a search whoever answers
    /// has none.
    pub(super) fn source_of(&self, board: usize) -> u8 {
        match self.panel().coordinator.phase.awaited() {
            Some((_, Exchange::Search)) => UNADDRESSED,
            _ => self.panel().address(board),
        }
    }

    pub(super) fn own_ack(&mut self, board: usize) -> Draft {
        let (mac, session) = (self.panel().record(board).mac, self.panel().record(board).session);
        let other = self.any_session();
        let session = if self.rng.chance(3) { other } else { session };
        self.ack(board, mac, session)
    }

    pub(super) fn ack(&mut self, board: usize, mac: u64, session: u64) -> Draft {
        let mut payload = vec![CODE_ACK];
        payload.extend(mac.to_le_bytes());
        payload.extend(session.to_le_bytes());
        let draft = self.draft(board, TYPE_R2R, payload);
        let packet = self.rng.pick(&[PACKET_DATAFLOW, PACKET_DATAFLOW, draft.packet]);
        let method = self.rng.pick(&[0, 0, 0, draft.method, 200]);
        Draft { packet, method, ..draft }
    }

    pub(super) fn request(&mut self, board: usize) -> Draft {
        let any = self.rng.between(1, 127) as u8;
        let discovery = self.rng.pick(&[TYPE_DISCOVER, TYPE_ADDRESS, TYPE_IDENTIFY]);
        let types = [1, 2, 3, 3, 0x14, 0x5A, 127, any, any, discovery, discovery];
        let message_type = self.rng.pick(&types);
        let payload = self.payload();
        let method = self.rng.pick(&[0, 1, 1, 2, 2, 3, 3]);
        let parameter1 = self.target(board, method);
        Draft { method, parameter1, ..self.draft(board, message_type, payload) }
    }

    /// A listed board, another one if a few tries find it.
    pub(super) fn any_other(&mut self, sender: usize) -> usize {
        let tries: Vec<usize> = (0..4).filter_map(|_| self.any_listed()).collect();
        tries.into_iter().find(|&board| board != sender).unwrap_or(sender)
    }

    /// Parameter 1 of a request: mostly a board that is there.
    fn target(&mut self, sender: usize, method: u8) -> u8 {
        let any = self.rng.byte();
        let board = self.any_other(sender);
        let k = self.panel().coordinator.pool.len() as u8;
        let own = self.panel().record(sender).node_type;
        let other = self.panel().record(board).node_type;
        match method {
            1 => self.rng.pick(&[100, 101, 102, 103, 104, 105, 100, 101, 99, 106, any]),
            2 => {
                // perhaps one that a board had before it came back
                let some = self.any_type();
                self.rng.pick(&[other, other, other, other, other, own, some, some, 0, 165, any])
            }
            3 => {
                let board = board as u8;
                let choices = [board, board, board, board, sender as u8, 0, k, k + 1, 40, 41, any];
                self.rng.pick(&choices)
            }
            _ => self.rng.pick(&[0, 0, any]),
        }
    }

    pub(super) fn response(&mut self, board: usize, request_type: u8) -> Draft {
        let payload = self.payload();
        let draft = self.draft(board, request_type.wrapping_add(RESPONSE), payload);
        let any = self.rng.byte();
        Draft { method: self.rng.pick(&[draft.method, draft.method, draft.method, any]), ..draft }
    }

    /// Mostly short payloads, now and then the longest.
    pub(super) fn payload(&mut self) -> Vec<u8> {
        let length = match self.rng.below(25) {
            0 => MAX_PAYLOAD,
            1 => MAX_PAYLOAD - 1,
            2 => self.rng.between(0, MAX_PAYLOAD),
            3..=8 => 0,
            _ => self.rng.between(1, 20),
        };
        self.rng.bytes(length)
    }

    /// Room enough for an ACK, exactly or more.
    pub(super) fn frame_line(&mut self, kind: Kind, bytes: &[u8]) -> Line {
        let room = self.rng.pick(&[ACK_LENGTH, ACK_LENGTH, ACK_LENGTH + 1, 64, 300, 1024]);
        Line::new(kind, frame_text(room, bytes))
    }
}
