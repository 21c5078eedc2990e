//! Discoveries: when the host starts one, who answers it, and what goes wrong.

use super::boards::ACK_LENGTH;
use super::joins::AT_THE_LIMIT;
use super::{Generator, Mode};
use crate::draft::Draft;
use crate::line::{Kind, Line};
use crate::panel::{TYPE_ADDRESSED, TYPE_DISCOVERED, TYPE_IDENTIFIED, UNADDRESSED};
use crate::state::{Exchange, Identity, Phase};
use crate::version::{OLD, PACKET_VERSION};

/// The length of a discovery's request.
const REQUEST_LENGTH: usize = 13;
/// Of a setup that is left in the middle of a discovery: its longest way.
const LONGEST_WAY: usize = 5;

impl Generator<'_> {
    /// At rest the host now and then starts a discovery, mostly where it may.
    pub(super) fn discovery_begins(&mut self) -> bool {
        let may = self.panel().clone().discover(&mut [0; REQUEST_LENGTH]).is_ok();
        let percent = match self.mode {
            _ if !may => 4,
            Mode::Calm => 60,
            _ => 70,
        };
        self.rng.chance(percent)
    }

    pub(super) fn discover_line(&mut self) -> Line {
        let room = self.rng.pick(&[REQUEST_LENGTH, REQUEST_LENGTH, REQUEST_LENGTH + 1, 300, 1024]);
        Line::plain(format!("discover {room}"))
    }

    /// Refused by 11 where a discovery may be started.
    pub(super) fn narrow_discover(&mut self) -> Line {
        let less = self.rng.below(REQUEST_LENGTH);
        let room = self.rng.pick(&[REQUEST_LENGTH - 1, REQUEST_LENGTH - 1, less, 0]);
        let kind = if room + 1 == REQUEST_LENGTH { Kind::OneShort } else { Kind::Narrow };
        Line::new(kind, format!("discover {room}"))
    }

    /// In a wait of the exchange somebody answers, or nobody does.
    pub(super) fn discovery_line(&mut self, at: usize, exchange: Exchange) -> Line {
        let calm = self.mode == Mode::Calm;
        let silent = match exchange {
            Exchange::Identify { acked: false, .. } if calm => 70,
            Exchange::Identify { acked: false, .. } => 42,
            _ if calm => 8,
            _ => 27,
        };
        if self.rng.chance(silent) {
            return self.silence();
        }
        self.answer_line(at, exchange)
    }

    /// A Node Discovery Response; one bit of its packet number tells the version.
    pub(super) fn discovered(&mut self) -> Draft {
        let board = self.unaddressed();
        let reserved = self.rng.byte();
        let payload = told(&[board.node_type, reserved], &board, &[]);
        let draft = self.draft(1, TYPE_DISCOVERED, payload);
        let version = if board.version == OLD { PACKET_VERSION } else { 0 };
        let packet = draft.packet & !PACKET_VERSION | version;
        Draft { source: UNADDRESSED, packet, ..draft }
    }

    /// A Get Node ID Response.
    pub(super) fn identified(&mut self, at: usize) -> Draft {
        let board = self.holder(at);
        self.draft(at, TYPE_IDENTIFIED, told(&[board.node_type], &board, &[]))
    }

    /// The ACK to Get Node ID.
    pub(super) fn holder_ack(&mut self, at: usize) -> Draft {
        let board = self.holder(at);
        self.ack(at, board.mac, board.session)
    }

    /// A Set Address Response.
    pub(super) fn addressed(&mut self, at: usize, found: &Identity) -> Draft {
        let echo = self.address_echo(at, found);
        self.draft(at, TYPE_ADDRESSED, echo)
    }

    pub(super) fn address_echo(&self, at: usize, found: &Identity) -> Vec<u8> {
        let subnet = self.panel().subnet_of_version(found.version);
        told(&[self.panel().address(at), subnet], found, &[1])
    }

    /// Who answers a search; now and then one that could not join.
    fn unaddressed(&mut self) -> Identity {
        let board = self.seeker();
        if self.rng.chance(8) {
            return self.misfit(board);
        }
        board
    }

    /// A new board, one that was dropped, or one that is listed and mostly comes
    /// back as something else (C-12).
    fn seeker(&mut self) -> Identity {
        let new = self.newcomer();
        if self.many_types() && self.rng.chance(AT_THE_LIMIT) {
            return self.seeker_at_the_limit(new);
        }
        // the last free position is kept for a while, or no discovery could start
        let listed = match self.mode {
            Mode::Calm => 5,
            _ if self.free() == 1 => 90,
            _ => 50,
        };
        if self.rng.chance(listed) {
            if let Some(board) = self.troubled() {
                return Identity { mac: self.panel().record(board).mac, ..new };
            }
        }
        if !self.away.is_empty() && self.rng.chance(50) {
            let place = self.rng.below(self.away.len());
            let (node_type, mac) = self.away[place];
            return Identity { node_type, mac, ..new };
        }
        new
    }

    /// Where the types are many (C-15), one who makes them too many, or who may only
    /// do so once his address has answered.
    fn seeker_at_the_limit(&mut self, new: Identity) -> Identity {
        let (node_type, mac, version) = self.at_the_limit();
        let own = self.panel().position_of(mac).map(|at| self.panel().record(at).node_type);
        let node_type = self.rng.pick(&[node_type, own.unwrap_or(node_type)]);
        Identity { node_type, mac, version, ..new }
    }

    /// Who sits at the address at stake: its listed board or the one that was
    /// found, as it was or as something else, somebody new, one that is listed
    /// elsewhere, or a misfit.
    fn holder(&mut self, at: usize) -> Identity {
        let (new, here, other) = (self.newcomer(), self.rightful(at), self.any_other(at));
        let elsewhere = self.panel().record(other).listed();
        if self.many_types() && self.rng.chance(AT_THE_LIMIT) {
            let node_type = self.unlisted_type();
            return Identity {
                node_type,
                mac: self.rng.pick(&[here.mac, here.mac, new.mac]),
                ..new
            };
        }
        match self.rng.below(18) {
            0 | 1 => self.misfit(new),
            2..=4 => Identity { node_type: self.rng.pick(&[0, 165]), ..here },
            5..=7 if elsewhere => self.identity_at(other),
            8 => here,
            9..=12 => Identity { mac: here.mac, ..new },
            _ => new,
        }
    }

    /// The board listed at the address at stake, else the one that was found.
    fn rightful(&self, at: usize) -> Identity {
        match self.panel().coordinator.phase.awaited() {
            _ if self.panel().record(at).listed() => self.identity_at(at),
            Some((_, Exchange::Identify { found, .. } | Exchange::Assign { found })) => found,
            _ => Identity::default(),
        }
    }

    fn identity_at(&self, board: usize) -> Identity {
        let record = *self.panel().record(board);
        let (node_type, version) = (record.node_type, record.version);
        Identity { node_type, mac: record.mac, session: record.session, version }
    }

    fn newcomer(&mut self) -> Identity {
        let (node_type, version) = (self.any_type(), self.any_version());
        Identity { node_type, mac: self.any_mac(), session: self.any_session(), version }
    }

    /// One whose join 12 or 13 would refuse.
    fn misfit(&mut self, board: Identity) -> Identity {
        let bad = self.bad_mac();
        match self.rng.below(2) {
            0 => Identity { mac: bad, ..board },
            _ => Identity { node_type: self.rng.pick(&[0, 165]), ..board },
        }
    }

    /// A listed board, mostly one of those that missed most.
    fn troubled(&mut self) -> Option<usize> {
        let panel = self.panel();
        let most = panel.records.iter().map(|record| record.misses).max();
        let missed: Vec<usize> =
            panel.listed().filter(|&board| Some(panel.record(board).misses) == most).collect();
        if !missed.is_empty() && self.rng.chance(70) {
            return Some(self.rng.pick(&missed));
        }
        self.any_listed()
    }

    /// What goes wrong in a wait of the exchange.
    pub(super) fn discovery_mishap(&mut self, at: usize, exchange: Exchange) -> Line {
        match self.rng.below(38) {
            0 => self.cut_line(at, exchange),
            1 => self.over_long_line(at, exchange),
            2 => self.longer_line(at, exchange),
            3 => self.damaged_line(at, exchange),
            4 => self.foreign_line(at, exchange),
            5 | 6 => self.other_source(at, exchange),
            7 => self.unexpected_line(at, exchange),
            8 => self.no_ack_line(at),
            9 => self.new_mac_line(at),
            10 | 33 | 34 => self.other_echo_line(at, exchange),
            11 => self.other_length_line(at, exchange),
            12..=14 => self.narrow_line(at, exchange),
            15 => self.turn_line(),
            16 => self.join_line(),
            17 => self.bad_type_join(),
            18 => self.discover_line(),
            19 => self.narrow_discover(),
            20 => self.zeroed_line(at, exchange),
            21 => self.holder_ack_line(at),
            22 | 23 => self.misplaced_line(at),
            24 if self.late.is_some() => self.late_line(),
            24 => self.silence(),
            25..=28 => self.overheard_line(at, exchange),
            _ => self.faults_line(at, exchange),
        }
    }

    /// Refused by 7, or by 8 in assign: a response of another length.
    fn other_length_line(&mut self, at: usize, exchange: Exchange) -> Line {
        let mut draft = self.acknowledged(at, exchange);
        match self.rng.below(4) {
            0 => draft.payload.push(0),
            1 => draft.payload.truncate(draft.payload.len() - 1),
            2 => draft.payload.clear(),
            _ => draft.payload.extend([0; ACK_LENGTH]),
        }
        let bytes = draft.bytes();
        self.frame_line(Kind::OtherLength, &bytes)
    }

    /// An ACK, which identify takes once.
    fn holder_ack_line(&mut self, at: usize) -> Line {
        let bytes = self.holder_ack(at).bytes();
        self.frame_line(Kind::Answers, &bytes)
    }

    pub(super) fn misplaced_line(&mut self, board: usize) -> Line {
        let bytes = self.misplaced(board).bytes();
        self.frame_line(Kind::Misplaced, &bytes)
    }

    /// A response of the exchange where none is expected, or another one than
    /// the one that is: mostly from the board awaited or from address 0.
    pub(super) fn misplaced(&mut self, board: usize) -> Draft {
        let found = self.newcomer();
        let other = self.any_other(board);
        let (other, own) = (self.panel().address(other), self.source_of(board));
        let drafts = [self.discovered(), self.identified(board), self.addressed(board, &found)];
        let draft = drafts[self.rng.below(drafts.len())].clone();
        let source = self.rng.pick(&[draft.source, own, own, other, UNADDRESSED]);
        Draft { source, ..draft }
    }

    /// A start that ends in the middle of a discovery: the setup that follows
    /// clears it.
    pub(super) fn abandoned_discovery(&mut self, k: usize) {
        let line = self.setup_line(k);
        self.emit(line);
        for _ in 0..self.rng.between(1, LONGEST_WAY) {
            let line = match self.panel().coordinator.phase.clone() {
                Phase::Idle => self.discover_line(),
                Phase::Waiting { exchange: Exchange::Identify { acked: true, .. }, .. } => return,
                Phase::Waiting { board, exchange: Exchange::Identify { .. } } => {
                    let acks = self.rng.chance(35);
                    if acks {
                        self.holder_ack_line(board)
                    } else {
                        self.silence()
                    }
                }
                Phase::Waiting { board, exchange } => self.answer_line(board, exchange),
                _ => self.turn_line(),
            };
            self.emit(line);
        }
    }
}

/// MAC and session, low byte first, between what stands before and behind.
fn told(before: &[u8], board: &Identity, behind: &[u8]) -> Vec<u8> {
    [before, &board.mac.to_le_bytes(), &board.session.to_le_bytes(), behind].concat()
}
