//! The lines of C-16 that ask for a record, to fetch it or to answer with it: each by
//! where the record is, and by what went before.

use super::rooms::standing;
use super::shared::Before;
use super::slots::{Slot, Slots, SLOT_SIZE};
use super::stores::RECORD;
use super::texts::{case, holding, row};
use super::Counted;
use crate::shared::Source;

pub const FETCH: &str = "fetch";
pub const WRITE_ANSWER: &str = "write-answer";
/// What can be wrong: 22, 22, 11.
pub const ASK_FAULTS: [&str; 3] =
    ["the network's copy of another size", "the factory image of another size", "no room"];
/// Which images have the record.
pub const IN_NETWORK: &str = "in the network's copy alone";
pub const IN_BOTH: &str = "in both images";
pub const IN_FACTORY: &str = "in the factory image alone";
pub const IN_NEITHER: &str = "in neither image";
/// Which one it is served from.
pub const FROM: [&str; 2] = ["from the network's copy", "from the factory image"];
pub const FROM_NEITHER: &str = "from neither image";
/// Which slots there are besides the one that has it.
pub const OF_SEVERAL: &str = "of several slots with its sector the lowest";
pub const BEHIND_IDLE: &str = "behind a free slot with its sector";
pub const IDLE: [&str; 2] = [
    "a free slot of the network's copy with its sector",
    "a free slot of the factory image with it",
];
/// What went before.
pub const STORED: &str = "stored by a line";
pub const SPARED: &str = "where a bad image line would have changed it";
/// What the numbers of a row are.
pub const IDLE_LENGTH: &str = "length byte of a free slot with its sector";

/// A line that asks for a record, and what it meets.
pub struct Asked<'a> {
    pub sector: u8,
    pub images: [&'a [u8]; 2],
    /// Their slots; none where an image has another size.
    pub slots: [Option<Slots>; 2],
    pub before: &'a Before,
    pub head: &'a str,
}

impl Asked<'_> {
    pub fn note_fetch(&self, counted: &mut Counted) {
        self.note(counted, FETCH, false);
    }

    pub fn note_answer(&self, counted: &mut Counted, room: usize) {
        let served = self.served();
        let due = served.map_or(0, |(_, slot)| 1 + usize::from(slot.length));
        self.note(counted, WRITE_ANSWER, room < due);
        if self.slots.iter().any(Option::is_none) {
            return;
        }
        if room < due {
            counted.rows.count(row(WRITE_ANSWER, self.head, "ROOM"), room);
        }
        if due > 0 {
            counted.rows.count(row(WRITE_ANSWER, self.head, "SECTOR"), self.sector.into());
        }
        if let Some(standing) = standing(room, due) {
            counted.cases.count(ask_case(WRITE_ANSWER, from(served), standing, self.head));
            counted.rows.count(row(WRITE_ANSWER, self.head, standing), due);
        }
    }

    fn note(&self, counted: &mut Counted, line: &str, narrow: bool) {
        let [network, factory] = [0, 1].map(|at| self.slots[at].is_none());
        let faults = holding(&[network, factory, narrow], &ASK_FAULTS);
        counted.cases.count(case(line, &faults, self.head));
        for at in [0, 1] {
            if self.slots[at].is_none() {
                counted.rows.count(row(line, self.head, ASK_FAULTS[at]), self.images[at].len());
            }
        }
        if !network && !factory {
            self.note_place(counted, line);
            self.note_idle(counted, line);
            self.note_before(counted, line);
        }
    }

    /// The slots in use for the sector.
    fn holders(&self, at: usize) -> Vec<Slot> {
        self.slots[at].as_ref().map_or(Vec::new(), |slots| slots.holders(self.sector))
    }

    /// The free slots that have the sector.
    fn idle(&self, at: usize) -> Vec<Slot> {
        self.slots[at].as_ref().map_or(Vec::new(), |slots| slots.idle(self.sector))
    }

    /// The image, and the slot in it, that the record is served from.
    fn served(&self) -> Option<(usize, Slot)> {
        [0, 1].into_iter().find_map(|at| self.holders(at).first().map(|slot| (at, *slot)))
    }

    fn note_place(&self, counted: &mut Counted, line: &str) {
        let [network, factory] = [0, 1].map(|at| !self.holders(at).is_empty());
        let place = match (network, factory) {
            (true, false) => IN_NETWORK,
            (true, true) => IN_BOTH,
            (false, true) => IN_FACTORY,
            (false, false) => IN_NEITHER,
        };
        counted.cases.count(case(line, &[place], self.head));
        let from = from(self.served());
        let mut count =
            |what: &str, number| counted.rows.count(ask_row(line, self.head, from, what), number);
        count("SECTOR", self.sector.into());
        if let Some((at, slot)) = self.served() {
            count("SLOT", slot.number);
            count(RECORD, slot.length.into());
            let several = self.holders(at).len() > 1;
            let behind = self.idle(at).iter().any(|idle| idle.number < slot.number);
            for what in holding(&[several, behind], &[OF_SEVERAL, BEHIND_IDLE]) {
                counted.cases.count(ask_case(line, from, what, self.head));
            }
        }
    }

    /// Free slots with the sector: they say nothing, whatever else is there.
    fn note_idle(&self, counted: &mut Counted, line: &str) {
        let served = self.served();
        for at in [0, 1] {
            let idle = self.idle(at);
            if !idle.is_empty() {
                counted.cases.count(ask_case(line, from(served), IDLE[at], self.head));
            }
            for slot in idle.iter().filter(|_| served.is_none()) {
                let row = ask_row(line, self.head, FROM_NEITHER, IDLE_LENGTH);
                counted.rows.count(row, slot.length.into());
            }
        }
    }

    /// What went before: it was stored, or a line was refused or bad that would have
    /// changed it.
    fn note_before(&self, counted: &mut Counted, line: &str) {
        let served = self.served();
        let from = from(served);
        if let Some((at, slot)) = served {
            let in_network = at == Source::Network as usize;
            if in_network && self.before.stored.contains(&slot.number) {
                let row = ask_row(line, self.head, STORED, RECORD);
                counted.rows.count(row, slot.length.into());
            }
            if SLOT_SIZE * (slot.number - 1) < self.before.spared[at] {
                counted.cases.count(ask_case(line, from, SPARED, self.head));
            }
        }
        match &self.before.in_vain {
            Some((sector, answer)) if *sector == self.sector => {
                counted.cases.count(ask_case(line, from, &in_vain(answer), self.head));
            }
            _ => (),
        }
    }
}

fn from(served: Option<(usize, Slot)>) -> &'static str {
    served.map_or(FROM_NEITHER, |(at, _)| FROM[at])
}

/// Behind a line that should have stored a record of this sector and did not.
pub fn in_vain(answer: &str) -> String {
    format!("behind a store of its sector with {answer}")
}

/// The case of what is asked for, by where it is served from.
pub fn ask_case(line: &str, from: &str, what: &str, head: &str) -> String {
    case(line, &[from, what], head)
}

pub fn ask_row(line: &str, head: &str, from: &str, what: &str) -> String {
    row(line, head, &format!("{from}, {what}"))
}
