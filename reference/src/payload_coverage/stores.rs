//! The lines of C-16 that store: each by what is wrong, and by the slot that is
//! taken.

use super::slots::{Slot, Slots};
use super::texts::{case, holding, row};
use super::Counted;

pub const STORE: &str = "store";
/// What can be wrong: 22, 26, 27. An image of another size has no slots to look for.
pub const STORE_FAULTS: [&str; 3] =
    ["the network's copy of another size", "a length that is none", "all in use"];
/// This is not for a store to look at.
pub const FACTORY_OTHER: &str = "the factory image of another size";
/// Whether the sector had a record.
pub const NEW: &str = "a new sector";
pub const OWN: &str = "a sector that is there";
/// How a new record stands to the one that it replaces.
pub const SHORTER: &str = "a shorter record than before";
pub const AS_LONG: &str = "a record as long as before";
pub const LONGER: &str = "a longer record than before";
/// Which slots there are for it, besides the one that is taken.
pub const OF_SEVERAL: &str = "of several slots with its sector the lowest";
pub const BEHIND_FREE: &str = "its own slot behind a free one";
pub const BEHIND_IDLE: &str = "its own slot behind a free one with its sector";
pub const ALL_IN_USE: &str = "its own slot, all in use";
pub const FREE_WITH_IT: &str = "a free slot with its sector";
pub const FREE_BEFORE_IT: &str = "a free slot before one with its sector";
pub const IN_FACTORY: &str = "a new sector that the factory image has";
/// Every way to store a record.
pub const WAYS: [&str; 10] = [
    SHORTER,
    AS_LONG,
    LONGER,
    OF_SEVERAL,
    BEHIND_FREE,
    BEHIND_IDLE,
    ALL_IN_USE,
    FREE_WITH_IT,
    FREE_BEFORE_IT,
    IN_FACTORY,
];
/// A length that is none, but for what a byte cannot tell.
pub const LOST_BITS: &str = "a length that is none but for its high bits";
/// What the numbers of a row are.
pub const RECORD: &str = "record of so many bytes";
pub const USED: &str = "slots in use before";
pub const TAKEN_LENGTH: &str = "length byte of the free slot";
pub const FIRST_BYTE: &str = "first byte of the record";

/// A line that stores, and what it meets.
pub struct Store<'a> {
    pub sector: u8,
    pub record: &'a [u8],
    pub images: [&'a [u8]; 2],
    pub head: &'a str,
}

/// The row of what is stored for a sector that is new, or that is there.
pub fn store_row(head: &str, which: &str, what: &str) -> String {
    row(STORE, head, &format!("{which}, {what}"))
}

impl Store<'_> {
    pub fn note(&self, counted: &mut Counted) {
        let [network, factory] = self.images.map(Slots::of);
        let other_length = !matches!(self.record.len(), 6..=200);
        let full = network.as_ref().map_or(false, |slots| self.taken(slots).is_none());
        let mut faults = holding(&[network.is_none(), other_length, full], &STORE_FAULTS);
        counted.cases.count(case(STORE, &faults, self.head));
        if factory.is_none() {
            faults.push(FACTORY_OTHER);
            counted.cases.count(case(STORE, &faults, self.head));
        }
        match network {
            None => {
                let size = self.images[0].len();
                counted.rows.count(row(STORE, self.head, STORE_FAULTS[0]), size);
            }
            Some(_) if other_length => self.note_other_length(counted),
            Some(slots) => self.note_record(counted, &slots, factory.as_ref()),
        }
    }

    fn note_other_length(&self, counted: &mut Counted) {
        counted.rows.count(row(STORE, self.head, RECORD), self.record.len());
        if matches!(self.record.len() % 256, 6..=200) {
            counted.cases.count(case(STORE, &[LOST_BITS], self.head));
        }
    }

    /// The slot that should be taken.
    fn taken(&self, slots: &Slots) -> Option<Slot> {
        let holders = slots.holders(self.sector);
        holders.first().copied().or_else(|| slots.free().first().copied())
    }

    /// A record that could be stored, if there is a slot for it.
    fn note_record(&self, counted: &mut Counted, slots: &Slots, factory: Option<&Slots>) {
        let new = slots.holders(self.sector).is_empty();
        let named = |what: &str| store_row(self.head, if new { NEW } else { OWN }, what);
        counted.rows.count(named("SECTOR"), self.sector.into());
        counted.rows.count(named(RECORD), self.record.len());
        counted.rows.count(row(STORE, self.head, FIRST_BYTE), self.record[0].into());
        let in_factory = factory.map_or(false, |slots| !slots.holders(self.sector).is_empty());
        if new && in_factory {
            counted.cases.count(case(STORE, &[IN_FACTORY], self.head));
        }
        if let Some(slot) = self.taken(slots) {
            counted.rows.count(named("SLOT"), slot.number);
            counted.rows.count(named(USED), slots.used().len());
            match new {
                true => self.note_free(counted, slots, slot),
                false => self.note_own(counted, slots, slot),
            }
        }
    }

    /// A free slot is taken.
    fn note_free(&self, counted: &mut Counted, slots: &Slots, taken: Slot) {
        counted.rows.count(row(STORE, self.head, TAKEN_LENGTH), taken.length.into());
        let later = slots.idle(self.sector).iter().any(|slot| slot.number > taken.number);
        let holds = [taken.sector == self.sector, later];
        self.note_ways(counted, &holds, &[FREE_WITH_IT, FREE_BEFORE_IT]);
    }

    /// A record is replaced.
    fn note_own(&self, counted: &mut Counted, slots: &Slots, taken: Slot) {
        let (free, idle) = (slots.free(), slots.idle(self.sector));
        let behind = |slots: &[Slot]| slots.iter().any(|slot| slot.number < taken.number);
        let several = slots.holders(self.sector).len() > 1;
        let holds = [several, behind(&free), behind(&idle), free.is_empty()];
        self.note_ways(counted, &holds, &[OF_SEVERAL, BEHIND_FREE, BEHIND_IDLE, ALL_IN_USE]);
        let (length, before) = (self.record.len(), usize::from(taken.length));
        let holds = [length < before, length == before, length > before];
        self.note_ways(counted, &holds, &[SHORTER, AS_LONG, LONGER]);
    }

    fn note_ways(&self, counted: &mut Counted, holds: &[bool], ways: &[&str]) {
        for way in holding(holds, ways) {
            counted.cases.count(case(STORE, &[way], self.head));
        }
    }
}
