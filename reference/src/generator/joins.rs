//! Joins and turns: what the panel's own side does between two waits.

use super::{Generator, Mode};
use crate::line::{Kind, Line};

/// Of a hundred joins where the types are many, so many are at their limit (C-15).
pub(super) const AT_THE_LIMIT: usize = 50;

impl Generator<'_> {
    pub(super) fn idle_line(&mut self) -> Line {
        if self.list_owed() {
            return self.turn_line();
        }
        if self.discovery_begins() {
            let narrow = self.rng.chance(8);
            return if narrow { self.narrow_discover() } else { self.discover_line() };
        }
        let nobody = self.panel().listed().next().is_none();
        let percent = match self.mode {
            _ if self.panel().coordinator.held => 1,
            _ if nobody => 75,
            Mode::Calm if !self.full() => 85,
            _ if self.many_types() => 30,
            _ if self.free() == 1 => 3,
            _ => 2 + 24 / self.panel().coordinator.pool.len(),
        };
        if self.rng.chance(percent) {
            return self.join_line();
        }
        self.turn_line()
    }

    /// A new board, one that was dropped, or one that is listed and mostly comes
    /// back as something else (C-12).
    pub(super) fn join_line(&mut self) -> Line {
        if self.many_types() && self.rng.chance(AT_THE_LIMIT) {
            return self.limit_line();
        }
        let back = if self.mode == Mode::Calm { 4 } else { 35 };
        if self.rng.chance(back) {
            if let Some(board) = self.any_listed() {
                let mac = self.panel().record(board).mac;
                let node_type = self.any_type();
                return Line::new(Kind::ComesBack, self.join_of(node_type, mac));
            }
        }
        if !self.away.is_empty() && self.rng.chance(50) {
            let place = self.rng.below(self.away.len());
            let (node_type, mac) = self.away[place];
            return Line::new(Kind::Rejoins, self.join_of(node_type, mac));
        }
        let (node_type, mac) = (self.any_type(), self.any_mac());
        Line::plain(self.join_of(node_type, mac))
    }

    /// Refused by 25, or just not.
    fn limit_line(&mut self) -> Line {
        let (node_type, mac, version) = self.at_the_limit();
        let listed = self.panel().position_of(mac).is_some();
        let kind = if listed { Kind::ComesBack } else { Kind::Plain };
        Line::new(kind, self.join_as(node_type, mac, version))
    }

    /// As one of the boards of this house.
    pub(super) fn join_of(&mut self, node_type: u8, mac: u64) -> String {
        let version = self.any_version();
        self.join_as(node_type, mac, version)
    }

    fn join_as(&mut self, node_type: u8, mac: u64, version: u8) -> String {
        let (session, byte) = (self.any_session(), self.version_byte(version));
        format!("join {node_type} {mac} {session} {byte}")
    }

    /// A turn with room enough; the length due is learnt from a copy.
    pub(super) fn turn_line(&mut self) -> Line {
        let due = self.length_due();
        let room = self.rng.pick(&[due, due + 1, 300, 300, 1024]);
        Line::plain(format!("turn {room}"))
    }

    fn length_due(&self) -> usize {
        let mut copy = self.panel().clone();
        copy.turn(&mut [0; 300]).map_or(0, |outcome| outcome.written)
    }

    /// When nothing is awaited, something that is refused.
    pub(super) fn idle_mishap(&mut self) -> Line {
        match self.rng.below(18) {
            0 => Line::plain("quiet"),
            1 | 2 => self.stray_line(),
            3 => self.bad_type_join(),
            4 => self.bad_mac_join(),
            5..=7 => self.narrow_turn(),
            8 | 9 => self.discover_line(),
            10 => self.narrow_discover(),
            11 | 12 => self.misplaced_line(1),
            13..=15 => self.overheard_stray(),
            _ => self.join_line(),
        }
    }

    /// Refused by 12, whatever the MAC; a listed one is not retyped by it.
    pub(super) fn bad_type_join(&mut self) -> Line {
        let (node_type, mac) = (self.rng.pick(&[0, 165]), self.any_mac());
        let bad = self.bad_mac();
        let listed = self.any_listed().map_or(mac, |board| self.panel().record(board).mac);
        let mac = self.rng.pick(&[mac, listed, bad]);
        Line::plain(self.join_of(node_type, mac))
    }

    fn bad_mac_join(&mut self) -> Line {
        let (node_type, mac) = (self.any_type(), self.bad_mac());
        Line::plain(self.join_of(node_type, mac))
    }

    /// Refused by 11: one byte too few for what is due, or more.
    fn narrow_turn(&mut self) -> Line {
        let due = self.length_due();
        let less = self.rng.below(due);
        let room = self.rng.pick(&[due.saturating_sub(1), due.saturating_sub(1), less, 0]);
        let kind = if room + 1 == due { Kind::OneShort } else { Kind::Narrow };
        Line::new(kind, format!("turn {room}"))
    }
}
