//! Images of shared data in the making: blank, with some or all of their slots in
//! use, damaged, and of other sizes.

use crate::language::IMAGE_LIMIT;
use crate::prng::Prng;
use crate::shared::{is_length, IMAGE, LONGEST, SHORTEST, SLOT, SLOTS};

/// The lengths beside which a slot is free or in use, and those of blank images.
const EDGES: [u8; 6] =
    [0, SHORTEST as u8 - 1, SHORTEST as u8, LONGEST as u8, LONGEST as u8 + 1, 255];
/// Sizes that no image has: a byte less and more than it should, a slot more, two
/// images, the most that a line takes, and a byte more, which makes the line bad.
const LARGE_SIZES: [usize; 6] =
    [IMAGE - 1, IMAGE + 1, IMAGE + SLOT, 2 * IMAGE, IMAGE_LIMIT, IMAGE_LIMIT + 1];

/// An image of the right size, in the place of the one before.
pub fn image(rng: &mut Prng, before: &[u8]) -> Vec<u8> {
    match rng.below(100) {
        0..=8 => vec![0; IMAGE],
        9..=15 => vec![255; IMAGE],
        16..=31 => filled(rng, SLOTS, 256),
        32..=41 => few_sectors(rng, SLOTS),
        42..=57 => {
            let used = some_slots(rng);
            filled(rng, used, 256)
        }
        58..=67 => {
            let used = some_slots(rng);
            few_sectors(rng, used)
        }
        68..=77 => rng.bytes(IMAGE),
        _ => damaged(rng, before),
    }
}

fn some_slots(rng: &mut Prng) -> usize {
    let any = rng.between(0, SLOTS);
    rng.pick(&[any, any, any, any, any, any, 1, SLOTS - 1])
}

fn few_sectors(rng: &mut Prng, used: usize) -> Vec<u8> {
    let sectors = rng.between(1, SLOTS - 1);
    filled(rng, used, sectors)
}

/// So many slots are in use, anywhere, for so many different sectors; if there are
/// enough of these, no sector is there twice. The others are free, and many have the
/// sector of one in use all the same.
fn filled(rng: &mut Prng, used: usize, sectors: usize) -> Vec<u8> {
    let mut image = rng.bytes(IMAGE);
    let sectors = shuffled(rng, 256, sectors);
    let places = shuffled(rng, SLOTS, SLOTS);
    for (at, place) in places.into_iter().enumerate() {
        let own = sectors[at % sectors.len()];
        let of_one_in_use = sectors[rng.below(used.min(sectors.len()))];
        let (length, sector) = match at < used {
            true => (used_length(rng), own),
            false => (free_length(rng), rng.pick(&[own, of_one_in_use])),
        };
        image[SLOT * place..][..2].copy_from_slice(&[sector as u8, length]);
    }
    image
}

/// The first `count` of all numbers below the limit, in any order.
fn shuffled(rng: &mut Prng, limit: usize, count: usize) -> Vec<usize> {
    let mut numbers: Vec<usize> = (0..limit).collect();
    for at in 0..count {
        let other = rng.between(at, limit - 1);
        numbers.swap(at, other);
    }
    numbers.truncate(count);
    numbers
}

fn used_length(rng: &mut Prng) -> u8 {
    let any = rng.between(SHORTEST, LONGEST);
    rng.pick(&[any, any, any, any, any, any, any, any, SHORTEST, LONGEST]) as u8
}

fn free_length(rng: &mut Prng) -> u8 {
    loop {
        let (edge, any) = (rng.pick(&EDGES), rng.byte());
        let length = rng.pick(&[edge, any, any, any, any, any, any]);
        if !is_length(length.into()) {
            return length;
        }
    }
}

/// One to three slots have another length or another sector than before.
fn damaged(rng: &mut Prng, before: &[u8]) -> Vec<u8> {
    let used = rng.between(1, SLOTS);
    let mut image = if before.len() == IMAGE { before.to_vec() } else { filled(rng, used, 256) };
    for _ in 0..rng.between(1, 3) {
        let (any, other) = (rng.below(SLOTS), rng.below(SLOTS));
        let start = SLOT * rng.pick(&[0, any, any, SLOTS - 1]);
        let (byte, edge) = (rng.byte(), rng.pick(&EDGES));
        match rng.below(8) {
            0..=4 => image[start + 1] = edge,
            5 => image[start + 1] = byte,
            6 => image[start] = byte,
            _ => image[start] = image[SLOT * other],
        }
    }
    image
}

/// Bytes of another size than an image has: few, or about as many, mostly those of
/// the image before, so that a reader which does not look at the size finds records.
pub fn other_size(rng: &mut Prng, before: &[u8]) -> Vec<u8> {
    let (few, some) = (rng.between(2, SLOT - 1), rng.between(SLOT + 1, 3 * SLOT));
    let size = match rng.chance(25) {
        true => rng.pick(&LARGE_SIZES),
        false => rng.pick(&[0, 0, 1, 1, SLOT, SLOT, few, some]),
    };
    match rng.below(8) {
        0 => vec![0; size],
        1 => rng.bytes(size),
        _ if before.is_empty() => vec![255; size],
        _ => before.iter().copied().cycle().take(size).collect(),
    }
}

#[cfg(test)]
mod tests {
    use super::*;
    use crate::shared::{fetch, Source};

    #[test]
    fn a_filled_image_has_so_many_slots_in_use_for_so_many_sectors() {
        let mut rng = Prng::new(1);
        for used in 0..=SLOTS {
            for sectors in [1, 2, 39, 40, 256] {
                let image = filled(&mut rng, used, sectors);
                let slots = image.chunks(202).filter(|slot| (6..=200).contains(&slot[1]));
                assert_eq!((image.len(), slots.count()), (8080, used));
                let held = |sector: &u8| fetch(&[0; 8080], &image, *sector).unwrap().is_some();
                let different = (0..=255).filter(held).count();
                assert_eq!(different, used.min(sectors));
            }
        }
    }

    #[test]
    fn an_image_has_the_right_size_and_another_size_is_another() {
        let mut rng = Prng::new(2);
        for before in [vec![], vec![7], vec![7; 8080], vec![7; 8081]] {
            for _ in 0..200 {
                assert_eq!(image(&mut rng, &before).len(), 8080);
                assert_ne!(other_size(&mut rng, &before).len(), 8080);
            }
        }
    }

    #[test]
    fn a_damaged_image_is_the_one_before_but_for_a_few_bytes() {
        let mut rng = Prng::new(3);
        let before = filled(&mut rng, 20, 256);
        let mut served = 0;
        for _ in 0..500 {
            let image = damaged(&mut rng, &before);
            let other: Vec<usize> = (0..8080).filter(|&at| image[at] != before[at]).collect();
            assert!(other.len() <= 3 && other.iter().all(|at| at % 202 < 2));
            let held = (0..=255).filter_map(|sector| fetch(&image, &before, sector).unwrap());
            served += held.filter(|held| held.source == Source::Network).count();
        }
        assert!((500 * 18..500 * 23).contains(&served), "{served}");
    }
}
