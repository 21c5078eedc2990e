//! Lines of C-16 that store, fetch and answer: the records of sectors that are there,
//! that are not, and that seem to be.

use super::words::Word;
use super::Generator;
use crate::images::Images;
use crate::language::{HEX_LIMIT, ROOM_LIMIT};
use crate::shared::{Source, LONGEST, SHORTEST, SLOT, SLOTS, SOURCES};

const MOST_ROOM: usize = ROOM_LIMIT as usize;
/// Somewhat more bytes than a record can have.
const LONGER: usize = 300;
/// So many sectors are tried for one that is wanted.
const TRIES: usize = 8;

impl Generator {
    pub(super) fn sector_words(&mut self) -> Vec<Word> {
        let stores = if self.series.filling { 55 } else { 28 };
        match self.rng.below(100) {
            draw if draw < stores => self.store_words(),
            draw if draw % 9 < 4 => self.fetch_words(),
            _ => self.answer_words(),
        }
    }

    fn store_words(&mut self) -> Vec<Word> {
        self.series.last = self.sector_to_store();
        let record = self.record();
        vec![Word::Name("store"), self.sector_word(), Word::hex(record)]
    }

    fn fetch_words(&mut self) -> Vec<Word> {
        self.series.last = self.sector_to_ask(25);
        vec![Word::Name("fetch"), self.sector_word()]
    }

    fn answer_words(&mut self) -> Vec<Word> {
        self.series.last = self.sector_to_ask(15);
        let room = self.room_to_answer();
        vec![Word::Name("write-answer"), Word::room(room), self.sector_word()]
    }

    fn sector_word(&self) -> Word {
        Word::byte("SECTOR", self.series.last)
    }

    fn sector_to_store(&mut self) -> u8 {
        match self.rng.below(100) {
            0..=59 if self.series.filling => self.new_sector(),
            0..=34 => self.rng.pick(&self.series.favourites),
            35..=64 => self.sector_in(Source::Network),
            65..=79 => self.sector_in(Source::Factory),
            80..=89 => self.series.last,
            _ => self.rng.byte(),
        }
    }

    /// In so many of a hundred cases a sector that is in neither image.
    fn sector_to_ask(&mut self, absent: usize) -> u8 {
        if self.rng.chance(absent) {
            return if self.rng.chance(60) { self.sector_of_free() } else { self.new_sector() };
        }
        match self.rng.below(100) {
            0..=27 => self.series.last,
            28..=35 => self.rng.pick(&self.series.favourites),
            36..=61 => self.sector_in(Source::Network),
            _ => self.sector_of_factory(),
        }
    }

    /// The sector of any slot, whether it is in use or not.
    fn sector_in(&mut self, source: Source) -> u8 {
        let (slot, any) = (self.rng.below(SLOTS), self.rng.byte());
        self.player.images.of(source).get(SLOT * slot).copied().unwrap_or(any)
    }

    /// A sector that neither image has.
    fn new_sector(&mut self) -> u8 {
        self.sector_for_which(|generator| generator.rng.byte(), in_neither)
    }

    /// A sector whose record the factory image has, and the network's copy has not.
    fn sector_of_factory(&mut self) -> u8 {
        let from_it = |images: &Images, sector| match images.fetch(sector) {
            Ok(Some(held)) => held.source == Source::Factory,
            _ => false,
        };
        self.sector_for_which(|generator| generator.sector_in(Source::Factory), from_it)
    }

    /// The sector of a slot, though no slot is in use for it.
    fn sector_of_free(&mut self) -> u8 {
        let source = self.rng.pick(&SOURCES);
        self.sector_for_which(|generator| generator.sector_in(source), in_neither)
    }

    /// A sector for which this holds, if one is drawn in a few tries; else the last.
    fn sector_for_which(
        &mut self,
        draw: impl Fn(&mut Generator) -> u8,
        holds: impl Fn(&Images, u8) -> bool,
    ) -> u8 {
        let mut sector = draw(self);
        for _ in 0..TRIES {
            if holds(&self.player.images, sector) {
                break;
            }
            sector = draw(self);
        }
        sector
    }

    /// A record, often as 5.10 has it, with its own length in front.
    fn record(&mut self) -> Vec<u8> {
        let size = self.record_size();
        let mut record = match self.rng.below(10) {
            0 => vec![0; size],
            1 => vec![255; size],
            _ => self.rng.bytes(size),
        };
        if let (Some(first), true) = (record.first_mut(), self.rng.chance(50)) {
            *first = size as u8;
        }
        record
    }

    /// Mostly a size that a record can have; else one beside them, or one that a byte
    /// could not tell from them.
    fn record_size(&mut self) -> usize {
        match self.rng.below(100) {
            0..=71 => self.rng.between(SHORTEST, LONGEST),
            72..=75 => SHORTEST,
            76..=79 => LONGEST,
            80..=83 => SHORTEST - 1,
            84..=87 => LONGEST + 1,
            88 | 89 => self.rng.below(SHORTEST),
            90..=96 => self.rng.between(LONGEST + 1, LONGER),
            97 | 98 => 256 + self.rng.between(SHORTEST, LONGEST),
            _ => self.rng.pick(&[0, 255, 256, 512, HEX_LIMIT]),
        }
    }

    /// What is due for the sector, one byte less, and any other.
    fn room_to_answer(&mut self) -> usize {
        let due = match self.player.images.fetch(self.series.last) {
            Ok(Some(held)) => 1 + held.record.len(),
            _ => 0,
        };
        let (less, more) = (self.rng.below(due), self.rng.between(due, MOST_ROOM));
        let near = due.saturating_sub(1);
        match self.rng.below(100) {
            0..=27 => due,
            28..=52 => near,
            53..=76 => due + 1,
            77..=84 => less,
            85..=90 => more,
            91..=95 => 0,
            _ => MOST_ROOM,
        }
    }
}

fn in_neither(images: &Images, sector: u8) -> bool {
    matches!(images.fetch(sector), Ok(None))
}
