//! An image as the counts see it: its slots, and what they say of a sector. That the
//! store says the same is seen in what a comparison reaches.

use std::collections::BTreeSet;

/// The size of an image, and of a slot in it.
pub const IMAGE_SIZE: usize = 8080;
pub const SLOT_SIZE: usize = 202;

/// A slot: its number, from 1 on, and its first two bytes.
#[derive(Clone, Copy, Debug, PartialEq, Eq)]
pub struct Slot {
    pub number: usize,
    pub sector: u8,
    pub length: u8,
}

impl Slot {
    pub fn in_use(&self) -> bool {
        matches!(self.length, 6..=200)
    }
}

/// The slots of an image; none where it has another size.
#[derive(Clone, Debug, PartialEq, Eq)]
pub struct Slots(Vec<Slot>);

impl Slots {
    pub fn of(image: &[u8]) -> Option<Slots> {
        let slot = |(at, bytes): (usize, &[u8])| Slot {
            number: at + 1,
            sector: bytes[0],
            length: bytes[1],
        };
        let slots = || Slots(image.chunks(SLOT_SIZE).enumerate().map(slot).collect());
        (image.len() == IMAGE_SIZE).then(slots)
    }

    pub fn all(&self) -> &[Slot] {
        &self.0
    }

    /// The slots in use for this sector.
    pub fn holders(&self, sector: u8) -> Vec<Slot> {
        self.which(|slot| slot.in_use() && slot.sector == sector)
    }

    /// The free slots that have this sector all the same.
    pub fn idle(&self, sector: u8) -> Vec<Slot> {
        self.which(|slot| !slot.in_use() && slot.sector == sector)
    }

    pub fn free(&self) -> Vec<Slot> {
        self.which(|slot| !slot.in_use())
    }

    pub fn used(&self) -> Vec<Slot> {
        self.which(Slot::in_use)
    }

    fn which(&self, holds: impl Fn(&Slot) -> bool) -> Vec<Slot> {
        self.0.iter().copied().filter(holds).collect()
    }

    /// How many slots are in use, and whether a sector is there twice.
    pub fn kind(&self) -> &'static str {
        let used = self.used();
        let sectors: BTreeSet<u8> = used.iter().map(|slot| slot.sector).collect();
        match (used.len(), sectors.len() < used.len()) {
            (0, _) => KINDS[0],
            (40, false) => KINDS[1],
            (40, true) => KINDS[2],
            (_, false) => KINDS[3],
            (_, true) => KINDS[4],
        }
    }
}

pub const KINDS: [&str; 5] = [
    "none in use",
    "all in use, no sector twice",
    "all in use, a sector twice",
    "some in use, no sector twice",
    "some in use, a sector twice",
];

/// Puts a record into a slot, by its number.
pub fn put(image: &mut [u8], number: usize, sector: u8, record: &[u8]) {
    let slot = image.chunks_mut(SLOT_SIZE).nth(number - 1);
    let bytes = [&[sector, record.len() as u8], record].concat();
    if let Some(place) = slot.and_then(|slot| slot.get_mut(..bytes.len())) {
        place.copy_from_slice(&bytes);
    }
}

#[cfg(test)]
mod tests {
    use super::*;

    /// Slots 2 and 40 have sector 9, slot 3 has it with length 5.
    fn image() -> Vec<u8> {
        let mut image = vec![0; 8080];
        put(&mut image, 2, 9, &[1; 6]);
        put(&mut image, 40, 9, &[2; 200]);
        put(&mut image, 3, 9, &[3; 5]);
        image
    }

    #[test]
    fn a_slot_is_in_use_by_its_length() {
        let slots = Slots::of(&image()).unwrap();
        let numbers = |slots: Vec<Slot>| slots.iter().map(|slot| slot.number).collect::<Vec<_>>();
        assert_eq!(numbers(slots.holders(9)), [2, 40]);
        assert_eq!(numbers(slots.idle(9)), [3]);
        assert_eq!(numbers(slots.used()), [2, 40]);
        assert_eq!((slots.free().len(), slots.idle(0).len()), (38, 37));
        assert_eq!((slots.all().len(), slots.holders(0).len()), (40, 0));
        assert_eq!(slots.all()[39], Slot { number: 40, sector: 9, length: 200 });
    }

    #[test]
    fn an_image_of_another_size_has_no_slots() {
        let sizes = (0..9000).filter(|&size| Slots::of(&vec![9; size]).is_some());
        assert_eq!(sizes.collect::<Vec<_>>(), [8080]);
    }

    #[test]
    fn an_image_is_of_a_kind() {
        let kind = |image: &[u8]| Slots::of(image).unwrap().kind();
        assert_eq!((kind(&[0; 8080]), kind(&[255; 8080])), (KINDS[0], KINDS[0]));
        assert_eq!((kind(&[9; 8080]), kind(&image())), (KINDS[2], KINDS[4]));
        let mut image = [9; 8080];
        for number in 1..=40 {
            put(&mut image, number, number as u8, &[0; 7]);
        }
        assert_eq!(kind(&image), KINDS[1]);
        put(&mut image, 7, 8, &[0; 5]);
        assert_eq!(kind(&image), KINDS[3]);
    }
}
