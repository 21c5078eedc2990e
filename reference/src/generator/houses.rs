//! The houses that a panel is put into (C-15): how many of their boards speak 1.0,
//! and how many types they are of.

use super::Generator;
use crate::panel::Panel;
use crate::prng::Prng;
use crate::state;
use crate::version::{self, LATER, MOST_TYPES, OLD};

/// Node types of the boards; several of a kind, so that indexes differ.
const FEW_TYPES: [u8; 12] = [1, 2, 2, 3, 4, 5, 5, 9, 21, 12, 24, 255];
/// More of them than a condensed list has bytes for.
const MANY_TYPES: [u8; 20] =
    [1, 2, 3, 4, 5, 9, 21, 12, 24, 255, 6, 7, 8, 10, 11, 13, 14, 16, 17, 18];
/// From so many addresses on boards can be of too many types for a condensed list, one
/// that finds no position counted in; some of these pools have many types.
const LARGE_POOL: usize = 15;
/// This one always has: it is large enough, and few lists follow a join in it.
pub(super) const LIMIT_POOL: usize = 17;

/// Which boards speak 1.0.
#[derive(Clone, Copy, PartialEq, Eq)]
enum Versions {
    AllOld,
    AllLater,
    Half,
    FewOld,
    OneOld,
}

const HOUSES: [Versions; 7] = {
    use Versions::*;
    [AllOld, AllLater, Half, AllLater, AllOld, FewOld, Half]
};
/// Those in which the types come to their limit.
const LIMIT_HOUSES: [Versions; 7] = {
    use Versions::*;
    [OneOld, Half, AllLater, FewOld, OneOld, AllOld, FewOld]
};

#[derive(Clone, Copy)]
pub(super) struct House {
    versions: Versions,
    types: &'static [u8],
}

impl House {
    pub(super) fn plain() -> House {
        House { versions: Versions::Half, types: &FEW_TYPES }
    }

    /// The house of this number for a pool of k addresses: the kinds take turns, so
    /// that each pool has all of them over a few scripts.
    pub(super) fn numbered(number: u64, k: usize, rng: &mut Prng) -> House {
        let kinds = if k == LIMIT_POOL { LIMIT_HOUSES } else { HOUSES };
        let many = k == LIMIT_POOL || k >= LARGE_POOL && rng.chance(50);
        House {
            versions: kinds[(number % kinds.len() as u64) as usize],
            types: if many { &MANY_TYPES } else { &FEW_TYPES },
        }
    }
}

fn types_listed(panel: &Panel) -> usize {
    version::different_types(&state::boards(&panel.records))
}

impl Generator<'_> {
    /// Where the types are many, often one that nobody has yet.
    pub(super) fn any_type(&mut self) -> u8 {
        let many = self.house.types.len() > FEW_TYPES.len();
        if many && self.rng.chance(50) {
            return self.unlisted_type();
        }
        self.rng.pick(self.house.types)
    }

    /// The version of a board that comes, now or again. Where there are too many
    /// types for a 1.0 board, some try all the same.
    pub(super) fn any_version(&mut self) -> u8 {
        let old_listed = state::boards(&self.panel().records).iter().any(|board| board.1 == OLD);
        let percent = match self.house.versions {
            Versions::AllOld => 100,
            Versions::Half => 50,
            Versions::FewOld => 12,
            Versions::OneOld if !old_listed => 40,
            Versions::AllLater if types_listed(self.panel()) > MOST_TYPES => 45,
            Versions::AllLater | Versions::OneOld => 0,
        };
        if self.rng.chance(percent) {
            OLD
        } else {
            LATER
        }
    }

    /// The byte of a join for a version: 1 alone is 1.0, so the others take turns.
    pub(super) fn version_byte(&mut self, version: u8) -> u8 {
        if version == OLD || self.rng.chance(15) {
            return version;
        }
        self.version_byte
    }

    /// One that a board has joined with has had its turn.
    pub(super) fn next_version_byte(&mut self) {
        let next = self.version_byte.wrapping_add(1);
        self.version_byte = if next == OLD { LATER } else { next };
    }

    /// Whether the types come near what a condensed list has room for.
    pub(super) fn many_types(&self) -> bool {
        types_listed(self.panel()) + 1 >= MOST_TYPES
    }

    /// Who joins where the types are many: type, MAC and version of a new board or
    /// a listed one, so that the types become one more or stay as many as they are.
    pub(super) fn at_the_limit(&mut self) -> (u8, u64, u8) {
        let (new, unlisted) = (self.any_mac(), self.unlisted_type());
        let (listed, version) = (self.any_listed().unwrap_or(1), self.any_version());
        let chosen = match self.rng.below(9) {
            0 | 1 => return (unlisted, new, version),
            2 => return (self.any_type(), new, version),
            3 | 4 => self.one_where(shared),
            5 => self.one_where(|panel, board| !shared(panel, board)),
            6 | 7 => self.one_where(|panel, board| panel.record(board).version == OLD),
            _ => None,
        };
        let record = *self.panel().record(chosen.unwrap_or(listed));
        let node_type = self.rng.pick(&[unlisted, unlisted, record.node_type]);
        (node_type, record.mac, version)
    }

    fn one_where(&mut self, holds: impl Fn(&Panel, usize) -> bool) -> Option<usize> {
        let panel = self.panel();
        let boards: Vec<usize> = panel.listed().filter(|&board| holds(panel, board)).collect();
        (!boards.is_empty()).then(|| self.rng.pick(&boards))
    }

    /// A type that nobody has, if there is one.
    pub(super) fn unlisted_type(&mut self) -> u8 {
        let types = self.panel().types();
        let open: Vec<u8> =
            self.house.types.iter().copied().filter(|kind| !types.contains(kind)).collect();
        let types = if open.is_empty() { self.house.types } else { &open };
        self.rng.pick(types)
    }
}

/// Whether another board is of this one's type.
fn shared(panel: &Panel, board: usize) -> bool {
    let kind = panel.record(board).node_type;
    panel.listed().any(|other| other != board && panel.record(other).node_type == kind)
}

#[cfg(test)]
mod tests {
    use super::*;

    #[test]
    fn a_pool_has_every_kind_of_house_over_seven_scripts() {
        let mut rng = Prng::new(1);
        for k in [1, 15, 17, 40] {
            let mut house = |number| House::numbered(number, k, &mut rng);
            let versions: Vec<Versions> = (5..12).map(|number| house(number).versions).collect();
            for kind in [Versions::AllOld, Versions::AllLater, Versions::Half, Versions::FewOld] {
                assert!(versions.contains(&kind));
            }
            let many = (0..50).filter(|&number| house(number).types.len() == MANY_TYPES.len());
            let expected = [0..=0, 1..=49, 50..=50];
            let which = usize::from(k >= LARGE_POOL) + usize::from(k == LIMIT_POOL);
            assert!(expected[which].contains(&many.count()), "{k}");
        }
    }
}
