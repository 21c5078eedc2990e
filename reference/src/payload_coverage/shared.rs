//! The lines of C-16 and the images that they are played on: what is set, and what
//! is remembered of the lines before.

use super::asked::Asked;
use super::slots::{self, Slots, IMAGE_SIZE};
use super::stores::Store;
use super::{set_images, Counted};
use crate::language;
use crate::payloads::Command;
use crate::shared::{Source, SOURCES};
use std::collections::BTreeSet;

#[derive(Clone, Debug)]
pub struct Shared {
    /// The network's copy and the factory image.
    images: [Vec<u8>; 2],
    before: Before,
}

/// What went before a line that asks for a record.
#[derive(Clone, Debug, Default)]
pub struct Before {
    /// The slots of the network's copy whose record a line stored.
    pub stored: BTreeSet<usize>,
    /// The last line that should have stored a record and did not: its sector, and
    /// its answer.
    pub in_vain: Option<(u8, String)>,
    /// How many bytes of each image the last line would have changed, if it is a bad
    /// one.
    pub spared: [usize; 2],
}

impl Default for Shared {
    fn default() -> Shared {
        let images = [vec![0; IMAGE_SIZE], vec![0; IMAGE_SIZE]];
        Shared { images, before: Before::default() }
    }
}

impl Shared {
    /// Notes the line and its answer.
    pub fn note(
        &mut self,
        counted: &mut Counted,
        line: &[u8],
        command: Option<&Command>,
        answer: &str,
    ) {
        let head = super::head_of(answer);
        match command {
            None => self.remember_bad(line, &head),
            Some(Command::Image { source, bytes }) => {
                set_images::note(counted, *source, bytes, &head);
                self.set(*source, bytes);
            }
            Some(Command::Store { sector, record }) => {
                let images = self.images();
                Store { sector: *sector, record, images, head: &head }.note(counted);
                self.remember_store(*sector, record, answer);
            }
            Some(Command::Fetch { sector }) => {
                self.asked(*sector, &head).note_fetch(counted);
            }
            Some(Command::WriteAnswer { room, sector }) => {
                self.asked(*sector, &head).note_answer(counted, *room);
            }
            Some(_) => (),
        }
    }

    fn images(&self) -> [&[u8]; 2] {
        [&self.images[0], &self.images[1]]
    }

    fn asked<'a>(&'a self, sector: u8, head: &'a str) -> Asked<'a> {
        let images = self.images();
        Asked { sector, images, slots: images.map(Slots::of), before: &self.before, head }
    }

    fn set(&mut self, source: Source, bytes: &[u8]) {
        self.images[source as usize] = bytes.to_vec();
        self.before.spared[source as usize] = 0;
        if source == Source::Network {
            self.before.stored.clear();
            self.before.in_vain = None;
        }
    }

    /// The record is put into the slot that the answer names.
    fn remember_store(&mut self, sector: u8, record: &[u8], answer: &str) {
        let slot = answer.strip_prefix("stored ").and_then(|slot| slot.parse().ok());
        self.before.in_vain = match slot {
            Some(slot) => {
                slots::put(&mut self.images[0], slot, sector, record);
                self.before.stored.insert(slot);
                self.before.spared[0] = 0;
                None
            }
            None => Some((sector, answer.to_string())),
        };
    }

    /// A bad line, as far as it can be understood.
    fn remember_bad(&mut self, line: &[u8], head: &str) {
        let text = String::from_utf8_lossy(line);
        let words: Vec<&str> = text.split(' ').collect();
        match words[..] {
            ["image", name, digits, ..] => {
                for source in SOURCES.into_iter().filter(|source| source.name() == name) {
                    self.before.spared[source as usize] = digits.len() / 2;
                }
            }
            ["store", sector, ..] => {
                let sector = language::byte(sector);
                self.before.in_vain = sector.map(|sector| (sector, head.to_string()));
            }
            _ => (),
        }
    }
}

#[cfg(test)]
mod tests {
    use super::super::{coverage, PayloadCoverage};
    use crate::language::hex;

    /// So often a case was met by these lines.
    fn of(lines: &[&str], case: &str) -> u64 {
        coverage(lines).counted.cases.of(case)
    }

    /// A line that sets an image in which slots 1 and 3 have sector 5, slot 2 has it
    /// too but is free, and all others are in use for sector 9.
    fn set(name: &str) -> String {
        let mut image = vec![9; 8080];
        for (slot, length) in [(0, 6), (1, 5), (2, 200)] {
            image[202 * slot..][..2].copy_from_slice(&[5, length]);
        }
        format!("image {name} {}", hex(&image))
    }

    const STORE: &str = "store 5 010203040506";
    const LONGER: &str = "store 5 01020304050607";

    #[test]
    fn what_is_asked_for_is_counted_by_where_it_is() {
        let (network, factory) = (set("network"), set("factory"));
        let cases = [
            (vec!["fetch 5"], "fetch, in neither image: none"),
            (vec![STORE, "fetch 5"], "fetch, in the network's copy alone: network"),
            (vec![&factory, "fetch 5"], "fetch, in the factory image alone: factory"),
            (vec![&factory, STORE, "fetch 5"], "fetch, in both images: network"),
            (vec!["write-answer 0 0"], NEITHER_ROOM),
            (vec![&network, "write-answer 6 5"], NETWORK_ROOM),
            (vec![&factory, "fetch 5"], FACTORY_LOWEST),
            (
                vec!["fetch 0"],
                "fetch, from neither image, a free slot of the factory image with it: none",
            ),
            (
                vec!["image network", "fetch 5"],
                "fetch, the network's copy of another size: refuse 22",
            ),
            (vec!["image factory", STORE, "write-answer 6 5"], FACTORY_OTHER),
        ];
        for (lines, case) in cases {
            assert_eq!(of(&lines, case), 1, "{case}");
        }
    }

    const NEITHER_ROOM: &str = "write-answer, from neither image, room to the byte: wrote";
    const NETWORK_ROOM: &str =
        "write-answer, from the network's copy, one byte less than is due: refuse 11";
    const FACTORY_LOWEST: &str =
        "fetch, from the factory image, of several slots with its sector the lowest: factory";
    const FACTORY_OTHER: &str =
        "write-answer, the factory image of another size, no room: refuse 22";

    #[test]
    fn what_is_stored_is_counted_by_its_slot() {
        let network = set("network");
        let cases = [
            (vec![STORE], "store, all is right: stored"),
            (vec!["store 0 010203040506"], "store, a free slot with its sector: stored"),
            (vec![STORE, LONGER], "store, a longer record than before: stored"),
            (vec![LONGER, STORE], "store, a shorter record than before: stored"),
            (vec![&network, STORE], "store, of several slots with its sector the lowest: stored"),
            (vec![&network, "store 5"], "store, a length that is none: refuse 26"),
            (vec!["image factory", STORE], "store, the factory image of another size: stored"),
            (vec!["image network", "store 5"], BOTH_FAULTS),
        ];
        for (lines, case) in cases {
            assert_eq!(of(&lines, case), 1, "{case}");
        }
        let rows = coverage(&[STORE, "store 6 010203040506"]).counted.rows;
        assert_eq!(rows.of("store: stored, a new sector, SLOT", 2), 1);
        assert_eq!(rows.of("store: stored, a new sector, slots in use before", 1), 1);
        assert_eq!(rows.of("store: stored, length byte of the free slot", 0), 2);
    }

    const BOTH_FAULTS: &str =
        "store, the network's copy of another size, a length that is none: refuse 22";

    /// Behind a line that changed nothing, what it would have changed is asked for.
    #[test]
    fn what_went_before_is_counted() {
        let served = |lines: &[&str], what: &str| {
            of(lines, &format!("fetch, from the network's copy, {what}: network"))
        };
        let spared = "where a bad image line would have changed it";
        assert_eq!(served(&[STORE, "image network 00 ", "fetch 5"], spared), 1);
        assert_eq!(served(&[STORE, "image factory 00 ", "fetch 5"], spared), 0);
        assert_eq!(served(&["image network 00 ", STORE, "fetch 5"], spared), 0);
        let other = ["store 6 010203040506", STORE];
        assert_eq!(served(&[other[0], other[1], "image network 00 ", "fetch 5"], spared), 0);
        for (line, answer) in [("store 5 01", "refuse 26"), ("store 5 0", "bad line")] {
            let behind = format!("behind a store of its sector with {answer}");
            assert_eq!(served(&[STORE, line, "fetch 5"], &behind), 1);
            assert_eq!(served(&[line, STORE, "fetch 5"], &behind), 0);
        }
    }

    #[test]
    fn a_script_does_not_hang_on_another() {
        let mut whole = PayloadCoverage::default();
        whole.add(&coverage(&[STORE]));
        whole.add(&coverage(&["fetch 5"]));
        assert_eq!(whole.counted.cases.of("fetch, in neither image: none"), 1);
    }
}
