//! Seeded scripts for `replay`. The generator plays its own copy of the panel,
//! so it knows what each line meets and can answer as the boards would.

mod boards;
mod discoveries;
mod faults;
mod houses;
mod joins;
mod mishaps;
mod setups;
mod subnets;
mod words;

pub use words::doubtful;

use crate::coverage::Coverage;
use crate::language::hex;
use crate::line::{Kind, Line};
use crate::panel::Panel;
use crate::prng::Prng;
use crate::script::Player;
use crate::state::{Exchange, Phase};
use crate::version::{LATER, OLD};
use boards::Habit;
use houses::{House, LIMIT_POOL};
use std::collections::BTreeMap;

/// Lines played before the first setup.
const OPENING: usize = 24;
/// The pools of a script, by number of addresses, and of a hundred lines so many for
/// each of them. Large and small ones come by turns, so that a setup has old records
/// to clear. The largest takes turns with the next one, because it is long until
/// either is full.
const POOLS: [(usize, usize); 7] =
    [(3, 10), (LARGEST, 30), (1, 6), (15, 13), (2, 8), (LIMIT_POOL, 22), (8, 11)];
const LARGEST: usize = 40;
/// Of a hundred joins and drops, so many have a table behind them.
const SHOWN: usize = 80;
/// Of a hundred waits in which the other system was heard last, so many end
/// with quiet at once (C-14).
const NOTHING_ELSE: usize = 25;

/// So many version bytes lie between the first of one seed and of the next (C-15).
const VERSION_BYTES: u64 = 13;

/// How much goes wrong.
#[derive(Clone, Copy, PartialEq, Eq)]
enum Mode {
    Calm,
    Mixed,
    Storm,
}

pub struct Generator<'a> {
    rng: Prng,
    player: Player,
    habits: BTreeMap<u64, Habit>,
    away: Vec<(u8, u64)>,
    house: House,
    /// The number of the house.
    houses: u64,
    /// The version byte of the next join of a later board.
    version_byte: u8,
    mode: Mode,
    late: Option<Vec<u8>>,
    /// The last line let a board come or go.
    moved: bool,
    /// The last line was a frame of the other system.
    overheard: bool,
    left: usize,
    coverage: Coverage,
    sink: &'a mut dyn FnMut(&str),
}

/// Writes `count` lines of script to the sink and tells what they reached.
pub fn generate(seed: u64, count: usize, sink: &mut dyn FnMut(&str)) -> Coverage {
    let mut generator = Generator {
        rng: Prng::new(seed),
        player: Player::default(),
        habits: BTreeMap::new(),
        away: Vec::new(),
        house: House::plain(),
        houses: seed,
        version_byte: first_version_byte(seed),
        mode: Mode::Calm,
        late: None,
        moved: false,
        overheard: false,
        left: 0,
        coverage: Coverage::default(),
        sink,
    };
    generator.run(count);
    generator.coverage
}

/// Never that of a 1.0 board.
fn first_version_byte(seed: u64) -> u8 {
    match seed.wrapping_mul(VERSION_BYTES) as u8 {
        OLD => LATER,
        byte => byte,
    }
}

/// The same as one text, each line ended.
pub fn script(seed: u64, count: usize) -> (String, Coverage) {
    let mut text = String::new();
    let coverage = generate(seed, count, &mut |line| {
        text.push_str(line);
        text.push('\n');
    });
    (text, coverage)
}

impl Generator<'_> {
    fn run(&mut self, count: usize) {
        let opening = OPENING.min(count);
        self.opening(opening);
        let rest = count - opening;
        let mut given = 0;
        let less = self.rng.below(2);
        for (place, (k, share)) in POOLS.into_iter().enumerate() {
            let last = place + 1 == POOLS.len();
            let k = if k == LARGEST { k - less } else { k };
            let lines = if last { rest - given } else { rest * share / 100 };
            given += lines;
            self.segment(k, lines);
        }
    }

    /// Plays a line on the own panel, counts it and hands it out.
    fn emit(&mut self, line: Line) {
        if self.left == 0 {
            return;
        }
        self.left -= 1;
        let before = self.player.panel.clone();
        let answer = self.player.play(line.text.as_bytes());
        self.coverage.note(&before, &line, answer.as_deref(), &self.player.panel);
        let answer = answer.unwrap_or_default();
        self.moved = answer.contains("joined") || answer.contains("dropped");
        if answer.starts_with("rest joined") {
            self.next_version_byte();
        }
        self.overheard = line.kind == Kind::OtherSubnet;
        self.remember_dropped(&before);
        (self.sink)(&line.text);
    }

    /// A board just dropped may come back later.
    fn remember_dropped(&mut self, before: &Panel) {
        if let Some((board, _)) = before.coordinator.phase.awaited() {
            let (old, new) = (before.record(board), &self.player.panel.records[board - 1]);
            if old.listed()
                && !new.listed()
                && self.player.panel.coordinator.pool == before.coordinator.pool
            {
                self.away.push((old.node_type, old.mac));
                self.habits.insert(old.mac, Habit::Steady);
            }
        }
    }

    /// Before a first setup: every step gets 22.
    fn opening(&mut self, lines: usize) {
        self.left = lines;
        let fixed = [
            "# before a setup",
            "table",
            "join 5 7 9 2",
            "discover 300",
            "turn 300",
            "quiet",
            "frame 300",
        ];
        for line in fixed {
            self.emit(Line::plain(line));
        }
        while self.left > 0 {
            let line = match self.rng.below(4) {
                0 => self.bad_line(),
                1 => self.refused_setup(),
                2 => self.stray_line(),
                _ => Line::plain(self.join_of(5, 7)),
            };
            self.emit(line);
        }
    }

    /// One fresh start and what follows it.
    fn segment(&mut self, k: usize, lines: usize) {
        self.left = lines;
        self.houses = self.houses.wrapping_add(1);
        self.house = House::numbered(self.houses, k, &mut self.rng);
        if self.rng.chance(50) {
            let line = self.refused_setup();
            self.emit(line);
        }
        for _ in 0..self.rng.below(4) {
            self.abandoned_discovery(k);
        }
        let line = self.setup_line(k);
        self.emit(line);
        self.habits.clear();
        self.away.clear();
        self.late = None;
        let mut filled = false;
        while self.left > 0 {
            let used = lines - self.left;
            filled = filled || self.full() || 100 * used > 65 * lines;
            self.mode = if filled { mode_after(used, lines) } else { Mode::Calm };
            self.change_habits();
            let line = self.next_line();
            self.emit(line);
        }
    }

    fn panel(&self) -> &Panel {
        &self.player.panel
    }

    fn full(&self) -> bool {
        self.free() == 0
    }

    fn free(&self) -> usize {
        self.panel().coordinator.pool.len() - self.panel().listed().count()
    }

    fn list_owed(&self) -> bool {
        self.panel().records.iter().any(|record| record.owed)
    }

    fn any_listed(&mut self) -> Option<usize> {
        let listed: Vec<usize> = self.panel().listed().collect();
        (!listed.is_empty()).then(|| self.rng.pick(&listed))
    }

    /// Who comes or goes moves the indexes of others (C-13), which a table shows.
    fn next_line(&mut self) -> Line {
        if self.moved && self.rng.chance(SHOWN) {
            return Line::plain("table");
        }
        if self.rng.chance(3) {
            return self.oddity();
        }
        let waits = self.panel().coordinator.phase.awaited().is_some();
        if self.overheard && waits && self.rng.chance(NOTHING_ELSE) {
            return self.silence();
        }
        let percent = self.mishap_percent();
        let wrong = self.rng.chance(percent);
        match self.panel().coordinator.phase.clone() {
            Phase::Waiting { board, exchange } if exchange.discovers() && wrong => {
                self.discovery_mishap(board, exchange)
            }
            Phase::Waiting { board, exchange } if exchange.discovers() => {
                self.discovery_line(board, exchange)
            }
            Phase::Waiting { board, exchange } if wrong => self.wait_mishap(board, exchange),
            Phase::Waiting { board, exchange } => self.habitual(board, exchange),
            _ if wrong => self.idle_mishap(),
            Phase::Idle => self.idle_line(),
            _ => self.turn_line(),
        }
    }

    /// How often something goes wrong: more in the exchanges that are rare,
    /// less in the lists, of which there are many.
    fn mishap_percent(&self) -> usize {
        let common = match self.mode {
            Mode::Calm => 5,
            Mode::Mixed => 25,
            Mode::Storm => 55,
        };
        match &self.panel().coordinator.phase {
            phase if phase.discovers() && self.mode == Mode::Calm => 40,
            phase if phase.discovers() => 65,
            Phase::Waiting { exchange: Exchange::List, .. } => common / 2,
            Phase::Waiting { exchange: Exchange::Offer, .. } | Phase::Idle => common,
            _ => 45,
        }
    }
}

fn frame_text(room: usize, bytes: &[u8]) -> String {
    if bytes.is_empty() {
        return format!("frame {room}");
    }
    format!("frame {room} {}", hex(bytes))
}

/// After the table was full once the modes take turns.
fn mode_after(used: usize, lines: usize) -> Mode {
    let stage = (lines / 16).max(12);
    [Mode::Mixed, Mode::Storm, Mode::Mixed, Mode::Calm][used / stage % 4]
}

#[cfg(test)]
mod tests {
    use super::*;

    #[test]
    fn scripts_have_the_lines_asked_for_and_are_the_same_again() {
        for count in [0, 1, 24, 25, 1000] {
            let (text, _) = script(3, count);
            assert_eq!(text.matches('\n').count(), count);
            assert_eq!(text, script(3, count).0);
        }
    }

    #[test]
    fn every_answer_that_can_be_given_is_reached() {
        let mut whole = Coverage::default();
        for seed in 1..=20 {
            let (text, coverage) = script(seed, 16000);
            assert!(text.len() < crate::language::SCRIPT_LIMIT);
            assert_eq!(coverage.bytes(), text.len() as u64);
            whole.add(&coverage);
        }
        assert_eq!(whole.missing(), Vec::<String>::new());
    }
}
