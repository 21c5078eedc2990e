//! What goes wrong while a board is awaited.

use super::boards::ACK_LENGTH;
use super::{frame_text, Generator};
use crate::draft::Draft;
use crate::line::{Kind, Line};
use crate::panel::{TYPE_ADDRESSED, TYPE_ECHO};
use crate::state::Exchange;

impl Generator<'_> {
    pub(super) fn wait_mishap(&mut self, board: usize, exchange: Exchange) -> Line {
        match self.rng.below(39) {
            0 => self.cut_line(board, exchange),
            1 => self.over_long_line(board, exchange),
            2 => self.longer_line(board, exchange),
            3 => self.damaged_line(board, exchange),
            4 => self.foreign_line(board, exchange),
            5 => self.other_source(board, exchange),
            6 => self.unexpected_line(board, exchange),
            7 => self.no_ack_line(board),
            8 => self.new_mac_line(board),
            9 => self.other_echo_line(board, exchange),
            10 | 11 => self.bad_method_line(board),
            12 => self.narrow_line(board, exchange),
            13 => self.turn_line(),
            14 => self.join_line(),
            15..=19 => self.silence(),
            20 if self.late.is_some() => self.late_line(),
            20 => self.join_line(),
            21 => self.new_session_line(board),
            22 => self.lone_ack_line(board),
            23 => self.zeroed_line(board, exchange),
            24 => self.bad_type_join(),
            25 => self.discover_line(),
            26 | 27 => self.misplaced_line(board),
            28..=30 => self.overheard_line(board, exchange),
            _ => self.faults_line(board, exchange),
        }
    }

    /// Refused by 1 or 3: the answer breaks off.
    pub(super) fn cut_line(&mut self, board: usize, exchange: Exchange) -> Line {
        let bytes = self.answer_of_any(board, exchange).bytes();
        let short = self.rng.below(12);
        let keep = self.rng.pick(&[0, 11, 12, short, bytes.len() - 1, bytes.len() - 1]);
        let kind = if keep < bytes.len() { Kind::Cut } else { Kind::Answers };
        self.frame_line(kind, &bytes[..keep])
    }

    /// Refused by 2: n above 240, with or without that many bytes.
    pub(super) fn over_long_line(&mut self, board: usize, exchange: Exchange) -> Line {
        let mut bytes = self.answer_of_any(board, exchange).bytes();
        bytes[9] = self.rng.between(241, 255) as u8;
        if self.rng.chance(30) {
            bytes.resize(12 + usize::from(bytes[9]), 0x33);
        }
        self.frame_line(Kind::OverLong, &bytes)
    }

    /// Refused by 3: two frames together, or bytes behind the frame.
    pub(super) fn longer_line(&mut self, board: usize, exchange: Exchange) -> Line {
        let mut bytes = self.answer_of_any(board, exchange).bytes();
        if self.rng.chance(60) {
            let more = self.answer(board, exchange).bytes();
            bytes.extend(more);
            return self.frame_line(Kind::RunTogether, &bytes);
        }
        let count = self.rng.pick(&[1, 1, 2, 40, 700]);
        bytes.extend(vec![0; count]);
        self.frame_line(Kind::Padded, &bytes)
    }

    /// Refused by 4, or by 2 or 3 if the length byte is hit.
    pub(super) fn damaged_line(&mut self, board: usize, exchange: Exchange) -> Line {
        let mut bytes = self.answer_of_any(board, exchange).bytes();
        let at = self.rng.below(bytes.len());
        bytes[at] ^= 1 << self.rng.below(8);
        self.frame_line(Kind::Damaged, &bytes)
    }

    /// Refused by 5: for another board, or for all.
    pub(super) fn foreign_line(&mut self, board: usize, exchange: Exchange) -> Line {
        let destination = self.not_ours();
        let bytes = Draft { destination, ..self.answer(board, exchange) }.bytes();
        self.frame_line(Kind::Foreign, &bytes)
    }

    pub(super) fn not_ours(&mut self) -> u8 {
        let any = self.rng.below(255) as u8;
        self.rng.pick(&[0, 254, any, any])
    }

    /// Refused by 6: another board answers for the awaited one, or a stranger.
    pub(super) fn other_source(&mut self, board: usize, exchange: Exchange) -> Line {
        let other = self.any_other(board);
        let (own, listed) = (self.source_of(board), self.panel().address(other));
        let any = self.rng.byte();
        let source = self.rng.pick(&[listed, listed, any, 0, 255]);
        let kind = match source {
            _ if source == own => Kind::Answers,
            _ if source == listed => Kind::ForAnother,
            _ => Kind::Stranger,
        };
        let bytes = Draft { source, ..self.answer(board, exchange) }.bytes();
        self.frame_line(kind, &bytes)
    }

    /// A type that is near what the wait takes.
    pub(super) fn unexpected_line(&mut self, board: usize, exchange: Exchange) -> Line {
        let message_type = self.near_type(exchange);
        let payload = self.payload();
        let bytes = self.draft(board, message_type, payload).bytes();
        self.frame_line(Kind::Unexpected, &bytes)
    }

    fn near_type(&mut self, exchange: Exchange) -> u8 {
        let any = self.rng.byte();
        let near = match exchange {
            Exchange::Forward { request_type, .. } => request_type.wrapping_add(127),
            _ => 128,
        };
        self.rng.pick(&[near, 128, 129, 1, 0x14, 0x93, 0x95, 0xF8, 0xFC, 255, any])
    }

    /// Type 0 of another form: wrong code, too short, too long, empty.
    pub(super) fn no_ack_line(&mut self, board: usize) -> Line {
        let mut draft = self.own_ack(board);
        match self.rng.below(5) {
            0 => draft.payload[0] = self.rng.pick(&[0, 0x15, 0x07, 0xFF]),
            1 => draft.payload.truncate(16),
            2 => draft.payload.push(0),
            3 => draft.payload.clear(),
            _ => draft.payload[1..9].reverse(),
        }
        let bytes = draft.bytes();
        self.frame_line(Kind::NoAck, &bytes)
    }

    /// An ACK with a MAC that is not the record's.
    pub(super) fn new_mac_line(&mut self, board: usize) -> Line {
        let record = *self.panel().record(board);
        let any = self.any_mac();
        let top = record.mac | (1 << 56);
        let mac = self.rng.pick(&[any, record.mac ^ 1, top, 0]);
        let kind = if mac == record.mac { Kind::Answers } else { Kind::NewMac };
        let bytes = self.ack(board, mac, record.session).bytes();
        self.frame_line(kind, &bytes)
    }

    /// An ACK with a session that is not the record's.
    pub(super) fn new_session_line(&mut self, board: usize) -> Line {
        let (record, session) = (*self.panel().record(board), self.any_session());
        let kind = if session == record.session { Kind::Answers } else { Kind::NewSession };
        let bytes = self.ack(board, record.mac, session).bytes();
        self.frame_line(kind, &bytes)
    }

    /// Refused by 8 after a list or Set Address: not what was sent.
    pub(super) fn other_echo_line(&mut self, board: usize, exchange: Exchange) -> Line {
        let message_type = match exchange {
            Exchange::Assign { .. } => TYPE_ADDRESSED,
            _ => TYPE_ECHO,
        };
        let echo = self.other_echo(board, exchange);
        let bytes = self.draft(board, message_type, echo).bytes();
        self.frame_line(Kind::OtherEcho, &bytes)
    }

    /// The list or the address that was sent, but for one place, or as it is sent
    /// to a board of another version.
    pub(super) fn other_echo(&mut self, board: usize, exchange: Exchange) -> Vec<u8> {
        let mut echo = match exchange {
            Exchange::Assign { found } => self.address_echo(board, &found),
            _ => self.panel().list_to(board),
        };
        let at = self.rng.below(echo.len());
        match self.rng.below(8) {
            0 => echo.push(0),
            1 => echo.truncate(echo.len() - 1),
            2 | 3 => echo[at] ^= 1,
            4..=6 => return self.of_other_version(board, exchange, echo),
            _ => echo.clear(),
        }
        echo
    }

    /// Refused by 9 after an offer.
    fn bad_method_line(&mut self, board: usize) -> Line {
        let method = self.rng.pick(&[4, 4, 5, 128, 255]);
        let bytes = Draft { method, ..self.request(board) }.bytes();
        self.frame_line(Kind::BadMethod, &bytes)
    }

    /// Refused by 11 if an ACK is due: one byte too few, or more.
    pub(super) fn narrow_line(&mut self, board: usize, exchange: Exchange) -> Line {
        let draft = self.acknowledged(board, exchange);
        let room = self.rng.pick(&[ACK_LENGTH - 1, ACK_LENGTH - 1, 0, 12]);
        let kind = if room + 1 == ACK_LENGTH { Kind::OneShort } else { Kind::Narrow };
        Line::new(kind, frame_text(room, &draft.bytes()))
    }

    /// An answer to which an ACK is due, where the wait takes one.
    pub(super) fn acknowledged(&mut self, board: usize, exchange: Exchange) -> Draft {
        match exchange {
            Exchange::Offer => self.request(board),
            Exchange::Forward { request_type, .. } => self.response(board, request_type),
            Exchange::Identify { .. } => self.identified(board),
            _ => self.answer(board, exchange),
        }
    }

    /// An ACK in any wait, with no room at all: none is needed.
    fn lone_ack_line(&mut self, board: usize) -> Line {
        let bytes = self.own_ack(board).bytes();
        Line::new(Kind::Answers, frame_text(0, &bytes))
    }

    /// A good answer whose check byte is 0 for 255.
    pub(super) fn zeroed_line(&mut self, board: usize, exchange: Exchange) -> Line {
        let bytes = self.answer(board, exchange).zeroed();
        self.frame_line(Kind::ZeroCheck, &bytes)
    }

    /// A frame when none is awaited, from anyone, and not always for us.
    pub(super) fn stray_line(&mut self) -> Line {
        if self.late.is_some() && self.rng.chance(60) {
            return self.late_line();
        }
        if let Some(board) = self.any_listed() {
            let draft = if self.rng.chance(50) { self.own_ack(board) } else { self.request(board) };
            let (others, percent) = (self.not_ours(), 25);
            let destination = if self.rng.chance(percent) { others } else { draft.destination };
            return self.frame_line(Kind::Plain, &Draft { destination, ..draft }.bytes());
        }
        let count = self.rng.between(0, 40);
        let noise = self.rng.bytes(count);
        self.frame_line(Kind::Plain, &noise)
    }
}
