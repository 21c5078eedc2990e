//! Shared data for a replaced control: the records that boards keep on the network,
//! one for each sector node type (003, 5.10 and 5.11; C-16). Both images that hold
//! them are lent.

use crate::refusal::{refuse_if, Refusal};
use crate::room;

/// C-16: "at most 40", and a slot for each.
pub const SLOTS: usize = 40;
/// 003, Table 22: Application Shared Data, its own length byte included, has 6 to
/// 200 bytes.
pub const SHORTEST: usize = 6;
pub const LONGEST: usize = 200;
/// C-16: a slot is sector, length, record; the first two are a byte each.
pub const SLOT_FRONT: usize = 2;
pub const SLOT: usize = SLOT_FRONT + LONGEST;
pub const IMAGE: usize = SLOTS * SLOT;

/// The two images.
#[derive(Clone, Copy, Debug, PartialEq, Eq)]
pub enum Source {
    Network,
    Factory,
}

pub const SOURCES: [Source; 2] = [Source::Network, Source::Factory];

impl Source {
    pub fn name(self) -> &'static str {
        match self {
            Source::Network => "network",
            Source::Factory => "factory",
        }
    }
}

/// A record that was found: in which image, in which of its slots, from 1 on, and
/// the record as a part of that image.
#[derive(Clone, Copy, Debug, PartialEq, Eq)]
pub struct Held<'a> {
    pub source: Source,
    pub slot: usize,
    pub record: &'a [u8],
}

/// C-16: whether a record may have so many bytes. In a slot every other length says
/// that it is free.
pub fn is_length(length: usize) -> bool {
    (SHORTEST..=LONGEST).contains(&length)
}

/// The record of this sector: from the network's copy, or else from the factory
/// image. 22 where either of them has another size.
pub fn fetch<'a>(
    network: &'a [u8],
    factory: &'a [u8],
    sector: u8,
) -> Result<Option<Held<'a>>, Refusal> {
    fit(network)?;
    fit(factory)?;
    let held = |source: Source, image: &'a [u8]| {
        let (slot, record) = record_of(image, sector)?;
        Some(Held { source, slot, record })
    };
    Ok(held(Source::Network, network).or_else(|| held(Source::Factory, factory)))
}

/// Stores the record of this sector in the network's copy and gives its slot, from 1
/// on: that of the record which it replaces, else the lowest free one. 22, then 26,
/// then 27. All else in the image stays, what the slot has past the record too.
pub fn store(network: &mut [u8], sector: u8, record: &[u8]) -> Result<usize, Refusal> {
    fit(network)?;
    let length = u8::try_from(record.len()).map_err(|_| Refusal::BadLength)?;
    refuse_if(!is_length(record.len()), Refusal::BadLength)?;
    let own = record_of(network, sector).map(|(slot, _)| slot);
    let slot = own.or_else(|| free_slot(network)).ok_or(Refusal::NoSlot)?;
    let start = (slot - 1) * SLOT;
    network[start..start + SLOT_FRONT].copy_from_slice(&[sector, length]);
    network[start + SLOT_FRONT..][..record.len()].copy_from_slice(record);
    Ok(slot)
}

/// Writes the payload that answers a request for this sector (003, Table 25) at the
/// front of `out` and gives its length: the sector and its record, or nothing at
/// all where there is none. 22, then 11.
pub fn write_answer(
    network: &[u8],
    factory: &[u8],
    sector: u8,
    out: &mut [u8],
) -> Result<usize, Refusal> {
    let payload = match fetch(network, factory, sector)? {
        Some(held) => [&[sector], held.record].concat(),
        None => Vec::new(),
    };
    room::put(&payload, out)
}

/// C-16: "another image size gets 22".
fn fit(image: &[u8]) -> Result<(), Refusal> {
    refuse_if(image.len() != IMAGE, Refusal::StateUnfit)
}

/// The lowest slot, from 1 on, that has a record of this sector, and the record.
fn record_of(image: &[u8], sector: u8) -> Option<(usize, &[u8])> {
    let found = slots(image).find(|(_, slot)| slot[0] == sector && !is_free(slot));
    found.map(|(at, slot)| (at, &slot[SLOT_FRONT..][..usize::from(slot[1])]))
}

fn free_slot(image: &[u8]) -> Option<usize> {
    slots(image).find(|(_, slot)| is_free(slot)).map(|(at, _)| at)
}

/// The slots of an image, counted from 1.
fn slots(image: &[u8]) -> impl Iterator<Item = (usize, &[u8])> {
    (1..).zip(image.chunks_exact(SLOT))
}

/// The sector of a free slot says nothing.
fn is_free(slot: &[u8]) -> bool {
    !is_length(slot[1].into())
}

#[cfg(test)]
mod tests {
    use super::*;

    #[test]
    fn an_image_has_40_slots_of_202_bytes() {
        assert_eq!((SLOT, IMAGE), (202, 8080));
        let image = vec![0; IMAGE];
        let starts: Vec<usize> = slots(&image)
            .map(|(_, slot)| slot.as_ptr() as usize - image.as_ptr() as usize)
            .collect();
        assert_eq!(starts, (0..40).map(|at| 202 * at).collect::<Vec<_>>());
        assert!(slots(&image).all(|(_, slot)| slot.len() == 202));
    }

    #[test]
    fn a_length_outside_6_to_200_is_a_free_slot() {
        for length in 0..=255 {
            let mut image = vec![0xEE; IMAGE];
            image[..2].copy_from_slice(&[9, length]);
            let taken = (6..=200).contains(&length);
            assert_eq!(is_free(&image[..SLOT]), !taken);
            let expected = (1, &image[2..2 + usize::from(length)]);
            assert_eq!(record_of(&image, 9), taken.then_some(expected));
        }
    }

    #[test]
    fn the_record_is_a_part_of_the_image_that_held_it() {
        let (mut network, factory) = (vec![0; IMAGE], [0xEE, 6].repeat(IMAGE / 2));
        assert_eq!(store(&mut network, 9, &[1, 2, 3, 4, 5, 6, 7]), Ok(1));
        let held = fetch(&network, &factory, 9).unwrap().unwrap();
        assert_eq!((held.source, held.slot), (Source::Network, 1));
        assert!(std::ptr::eq(held.record, &network[2..9]));
        let held = fetch(&network, &factory, 0xEE).unwrap().unwrap();
        assert_eq!((held.source, held.slot), (Source::Factory, 1));
        assert!(std::ptr::eq(held.record, &factory[2..8]));
        assert_eq!(fetch(&network, &factory, 8), Ok(None));
    }
}
