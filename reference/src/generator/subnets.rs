//! Two systems in one conduit (C-14): the boards of ours put their subnet or 0 into
//! their frames, and now and then the other system is overheard. The subnet of a 1.0
//! board is 2 (C-15).

use super::boards::ACK_LENGTH;
use super::{frame_text, Generator, Mode};
use crate::draft::Draft;
use crate::frame::{ALL_SUBNETS, COORDINATOR};
use crate::line::{Kind, Line};
use crate::state::{Exchange, Phase};
use crate::version::{OLD, OLD_SUBNET};

impl Generator<'_> {
    /// The subnet that a board speaks on: mostly the one that it was assigned.
    pub(super) fn spoken_subnet(&mut self, board: usize) -> u8 {
        let (own, ours) = (self.assigned_subnet(board), self.panel().coordinator.subnet);
        self.rng.pick(&[own, own, own, own, own, ALL_SUBNETS, ALL_SUBNETS, ALL_SUBNETS, ours])
    }

    /// In an exchange it is that of what was discovered; in a search nobody has one.
    fn assigned_subnet(&mut self, board: usize) -> u8 {
        let panel = self.panel();
        match panel.coordinator.phase {
            Phase::IdentifyDue { found, .. }
            | Phase::AssignDue { found, .. }
            | Phase::Waiting {
                exchange: Exchange::Identify { found, .. } | Exchange::Assign { found },
                ..
            } => panel.subnet_of_version(found.version),
            Phase::Waiting { exchange: Exchange::Search, .. } => {
                let ours = panel.coordinator.subnet;
                self.rng.pick(&[ours, OLD_SUBNET])
            }
            _ => panel.subnet_at(board),
        }
    }

    /// What a board of the other version would echo: the other form of the list, or
    /// an address on the other subnet.
    pub(super) fn of_other_version(
        &mut self,
        board: usize,
        exchange: Exchange,
        mut echo: Vec<u8>,
    ) -> Vec<u8> {
        let ours = self.panel().coordinator.subnet;
        match exchange {
            Exchange::Assign { found } => {
                let other = if found.version == OLD { ours } else { OLD_SUBNET };
                echo[1] = self.rng.pick(&[other, other, ALL_SUBNETS]);
                echo
            }
            _ if self.panel().record(board).version == OLD => self.panel().node_list(),
            _ => self.panel().condensed_list(),
        }
    }

    /// A subnet that it does not take: often that of 1.0 boards, else next to ours,
    /// a bit away from it, one of the usual ones, or any.
    pub(super) fn other_subnet(&mut self) -> u8 {
        let ours = self.panel().coordinator.subnet;
        if !self.panel().takes(OLD_SUBNET) && self.rng.chance(55) {
            return OLD_SUBNET;
        }
        loop {
            let (any, bit) = (self.rng.byte(), 1 << self.rng.below(8));
            let near = [ours.wrapping_add(1), ours.wrapping_sub(1), ours ^ bit];
            let subnet = self.rng.pick(&[near[0], near[1], near[2], 3, 255, any]);
            if !self.panel().takes(subnet) {
                return subnet;
            }
        }
    }

    /// Refused by 24: the other system's board at the address awaited says what
    /// ours should say.
    pub(super) fn overheard_answer(&mut self, board: usize, exchange: Exchange) -> Line {
        let draft = self.answer(board, exchange);
        self.of_other_system(draft)
    }

    /// Refused by 24, in a wait: mostly what it would take, else a response of a
    /// discovery, or a frame of the other panel.
    pub(super) fn overheard_line(&mut self, board: usize, exchange: Exchange) -> Line {
        let draft = match self.rng.below(8) {
            0 | 1 => self.misplaced(board),
            2 => self.of_other_panel(board),
            _ => self.answer(board, exchange),
        };
        self.of_other_system(draft)
    }

    /// Refused by 24 when nothing is awaited, too.
    pub(super) fn overheard_stray(&mut self) -> Line {
        let board = self.any_listed().unwrap_or(1);
        let draft = match self.rng.below(5) {
            0 => self.own_ack(board),
            1 => self.request(board),
            2 => self.of_other_panel(board),
            _ => self.misplaced(board),
        };
        self.of_other_system(draft)
    }

    /// What the wait would take, but now and then of the other system: 1 to 4 come
    /// before 24.
    pub(super) fn answer_of_any(&mut self, board: usize, exchange: Exchange) -> Draft {
        let draft = self.answer(board, exchange);
        let (other, percent) = (self.other_subnet(), 20);
        let subnet = if self.rng.chance(percent) { other } else { draft.subnet };
        Draft { subnet, ..draft }
    }

    /// To a board of the other system, from the panel there.
    fn of_other_panel(&mut self, board: usize) -> Draft {
        let draft = if self.rng.chance(50) { self.own_ack(board) } else { self.request(board) };
        Draft { destination: draft.source, source: COORDINATOR, ..draft }
    }

    /// The frame as the other system would send it, now and then with a check
    /// byte 0, or where there is no room for an ACK.
    fn of_other_system(&mut self, draft: Draft) -> Line {
        let draft = Draft { subnet: self.other_subnet(), ..draft };
        let zeroed = self.mode != Mode::Calm && self.rng.chance(5);
        let bytes = if zeroed { draft.zeroed() } else { draft.bytes() };
        if self.rng.chance(10) {
            return Line::new(Kind::OtherSubnet, frame_text(ACK_LENGTH - 1, &bytes));
        }
        self.frame_line(Kind::OtherSubnet, &bytes)
    }
}
