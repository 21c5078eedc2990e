//! Shared data for a replaced control (003, 5.10 and 5.11; C-16), with images worked
//! out by hand: slot n begins at 202 times n - 1, and has sector, length, record.

use reference::prng::Prng;
use reference::refusal::Refusal;
use reference::shared::{fetch, store, write_answer, Held, Source};

const BLANK: [u8; 8080] = [0; 8080];

/// 003, Table 22: the shared data of a board of node type 2, control ID 0x0102 and
/// manufacturer ID 0x0304, low bytes first, with three bytes of its own. With its own
/// length byte it has nine.
const BOARD: [u8; 9] = [0x09, 0x02, 0x01, 0x04, 0x03, 0x02, 0xD1, 0xD2, 0xD3];

/// An image with these slots, from 1 on, in use or not: number, sector, length.
fn image(slots: &[(usize, u8, u8)]) -> Vec<u8> {
    let mut image: Vec<u8> = (0..8080).map(|at| (at % 251) as u8).collect();
    image.chunks_mut(202).for_each(|slot| slot[..2].copy_from_slice(&[0, 0]));
    for &(number, sector, length) in slots {
        image[202 * (number - 1)..][..2].copy_from_slice(&[sector, length]);
    }
    image
}

/// An image with forty slots in use for sectors 100 to 139.
fn full() -> Vec<u8> {
    image(&(1..=40).map(|number| (number, number as u8 + 99, 50)).collect::<Vec<_>>())
}

/// The image and slot that hold a sector.
fn holder(network: &[u8], factory: &[u8], sector: u8) -> Option<(Source, usize)> {
    fetch(network, factory, sector).unwrap().map(|held| (held.source, held.slot))
}

/// What every sector gets.
fn served<'a>(network: &'a [u8], factory: &'a [u8]) -> Vec<Option<Held<'a>>> {
    (0..=255).map(|sector| fetch(network, factory, sector).unwrap()).collect()
}

/// The store is refused with this number and changes no byte.
fn refused(network: &[u8], sector: u8, record: &[u8], refusal: Refusal) {
    let mut image = network.to_vec();
    assert_eq!(store(&mut image, sector, record), Err(refusal));
    assert!(image == network);
}

// ---- worked out by hand -------------------------------------------------

/// A board stores its data; the one that replaces it asks for it. In the blank image
/// slot 1 is taken: 02 09, then the nine bytes, and all else stays 0. By Table 25 the
/// answer is the sector and the nine bytes.
#[test]
fn a_board_is_replaced() {
    let mut network = BLANK;
    assert_eq!(store(&mut network, 2, &BOARD), Ok(1));
    assert_eq!(network[..11], [2, 9, 0x09, 0x02, 0x01, 0x04, 0x03, 0x02, 0xD1, 0xD2, 0xD3]);
    assert!(network[11..].iter().all(|&byte| byte == 0));
    let held = Held { source: Source::Network, slot: 1, record: &BOARD };
    assert_eq!(fetch(&network, &BLANK, 2), Ok(Some(held)));
    let mut out = [0xEE; 12];
    assert_eq!(write_answer(&network, &BLANK, 2, &mut out), Ok(10));
    let answer = [2, 0x09, 0x02, 0x01, 0x04, 0x03, 0x02, 0xD1, 0xD2, 0xD3, 0xEE, 0xEE];
    assert_eq!(out, answer);
}

/// 5.11: "if no shared data is available the response shall return with a Payload
/// length of 0x00"; there is room for nothing everywhere.
#[test]
fn no_record_is_answered_by_nothing() {
    for room in [0, 1, 201, 1024] {
        let mut out = vec![0xEE; room];
        assert_eq!(write_answer(&BLANK, &BLANK, 2, &mut out), Ok(0));
        assert_eq!(out, vec![0xEE; room]);
    }
}

/// A second board takes slot 2, at offset 202. The first one's data, when it is
/// stored again, shorter, stays in slot 1, and what was behind it stays there too.
#[test]
fn a_record_is_replaced_where_it_is() {
    let mut network = BLANK;
    assert_eq!(store(&mut network, 2, &BOARD), Ok(1));
    assert_eq!(store(&mut network, 4, &[0xA4; 200]), Ok(2));
    assert_eq!(network[202..206], [4, 200, 0xA4, 0xA4]);
    assert_eq!((network[403], network[404]), (0xA4, 0));
    assert_eq!(store(&mut network, 2, &[6, 5, 4, 3, 2, 1]), Ok(1));
    assert_eq!(network[..12], [2, 6, 6, 5, 4, 3, 2, 1, 0xD1, 0xD2, 0xD3, 0]);
    assert_eq!(fetch(&network, &BLANK, 2).unwrap().unwrap().record, [6, 5, 4, 3, 2, 1]);
    assert_eq!(fetch(&network, &BLANK, 4).unwrap().unwrap().record, [0xA4; 200]);
}

/// Slot 40 begins at 7,878, and with its 202 bytes the image ends.
#[test]
fn the_last_slot_ends_the_image() {
    let mut network = full();
    network[7879] = 0;
    assert_eq!(store(&mut network, 7, &[0x77; 200]), Ok(40));
    assert_eq!(network[7876..7880], [full()[7876], full()[7877], 7, 200]);
    assert_eq!(network[7880..], [0x77; 200]);
    assert_eq!(holder(&network, &BLANK, 7), Some((Source::Network, 40)));
}

// ---- which image and slot -----------------------------------------------

/// The network's copy is asked first, the factory image exactly where it has none.
#[test]
fn the_factory_image_is_asked_second() {
    let network = image(&[(3, 5, 20), (4, 6, 5)]);
    let factory = image(&[(7, 5, 30), (8, 6, 40), (9, 7, 201)]);
    assert_eq!(holder(&network, &factory, 5), Some((Source::Network, 3)));
    assert_eq!(holder(&network, &factory, 6), Some((Source::Factory, 8)));
    assert_eq!(holder(&network, &factory, 7), None);
    assert_eq!(holder(&BLANK, &factory, 5), Some((Source::Factory, 7)));
    assert_eq!(holder(&network, &BLANK, 6), None);
    assert_eq!(holder(&factory, &network, 5), Some((Source::Network, 7)));
    let held = fetch(&network, &factory, 6).unwrap().unwrap();
    assert!(std::ptr::eq(held.record, &factory[1416..1456]));
}

/// Both blank images are empty, for every sector, and can be stored in.
#[test]
fn all_0_and_all_255_are_empty() {
    for (network, factory) in [(0, 0), (0, 255), (255, 0), (255, 255)] {
        let mut network = vec![network; 8080];
        let factory = vec![factory; 8080];
        assert_eq!(served(&network, &factory), vec![None; 256]);
        for sector in [0, 255] {
            assert!(store(&mut network, sector, &[1; 6]).is_ok());
        }
        assert_eq!(holder(&network, &factory, 0), Some((Source::Network, 1)));
        assert_eq!(holder(&network, &factory, 255), Some((Source::Network, 2)));
    }
}

/// Every length byte in every slot, in either image: 195 of them are in use.
#[test]
fn every_length_byte_in_every_slot() {
    for number in 1..=40 {
        for length in 0..=255 {
            let held = (6..=200).contains(&length);
            let one = image(&[(number, 9, length)]);
            for (source, served) in [
                (Source::Network, fetch(&one, &BLANK, 9)),
                (Source::Factory, fetch(&BLANK, &one, 9)),
            ] {
                let record = &one[202 * number - 200..][..usize::from(length).min(200)];
                let expected = held.then_some(Held { source, slot: number, record });
                assert_eq!(served, Ok(expected), "{number} {length}");
            }
            let mut network = one.clone();
            let expected = if held { number } else { 1 };
            assert_eq!(store(&mut network, 9, &[1; 6]), Ok(expected));
        }
    }
}

/// Of several slots with one sector the lowest counts and is the one replaced; the
/// others stay, and stay in use.
#[test]
fn of_one_sector_the_lowest_slot_counts() {
    let mut network = full();
    for number in [5, 6, 40] {
        network[202 * (number - 1)] = 9;
    }
    assert_eq!(holder(&network, &BLANK, 9), Some((Source::Network, 5)));
    let before = network.clone();
    assert_eq!(store(&mut network, 9, &[1; 60]), Ok(5));
    assert!(network[..808] == before[..808] && network[870..] == before[870..]);
    refused(&network, 1, &[1; 60], Refusal::NoSlot);
}

/// A slot that is free by its length says nothing by its sector, where it stands
/// before the one in use and where it stands behind it.
#[test]
fn the_sector_of_a_free_slot_says_nothing() {
    for length in (0..=5).chain(201..=255) {
        let network = image(&[(1, 9, length), (2, 9, 6), (3, 9, length)]);
        assert_eq!(holder(&network, &BLANK, 9), Some((Source::Network, 2)));
        let mut other = network.clone();
        assert_eq!(store(&mut other, 9, &[1; 6]), Ok(2));
        let mut other = network.clone();
        assert_eq!(store(&mut other, 8, &[1; 6]), Ok(1));
        let network = image(&[(1, 9, length)]);
        let factory = image(&[(2, 9, 6)]);
        assert_eq!(holder(&network, &factory, 9), Some((Source::Factory, 2)));
        assert_eq!(holder(&network, &network, 9), None);
    }
}

// ---- storing ------------------------------------------------------------

/// Forty sectors are stored, each in the next slot; the next is refused, and the
/// forty can still be replaced.
#[test]
fn forty_are_stored_and_no_more() {
    let mut network = BLANK;
    for sector in 0..40 {
        let record = vec![sector; 6 + usize::from(sector)];
        assert_eq!(store(&mut network, 200 + sector, &record), Ok(1 + usize::from(sector)));
    }
    for sector in 0..=255 {
        match sector {
            200..=239 => {
                let mut network = network;
                assert_eq!(store(&mut network, sector, &[1; 200]), Ok(usize::from(sector) - 199));
            }
            _ => refused(&network, sector, &[1; 6], Refusal::NoSlot),
        }
    }
    // a slot that becomes free is the only one that is taken
    network[202 * 17 + 1] = 201;
    assert_eq!(store(&mut network, 1, &[1; 6]), Ok(18));
    refused(&network, 217, &[1; 6], Refusal::NoSlot);
}

/// A free slot below does not draw a record from its own slot.
#[test]
fn a_record_does_not_move() {
    let mut network = image(&[(2, 9, 50), (4, 8, 50)]);
    assert_eq!(store(&mut network, 9, &[1; 6]), Ok(2));
    assert_eq!(store(&mut network, 7, &[1; 6]), Ok(1));
    assert_eq!(store(&mut network, 8, &[1; 6]), Ok(4));
    assert_eq!(store(&mut network, 6, &[1; 6]), Ok(3));
    assert_eq!(store(&mut network, 5, &[1; 6]), Ok(5));
}

/// 26 for every length but 6 to 200, also where only a byte would take it, with a
/// slot for it and without.
#[test]
fn every_length_of_a_record() {
    for length in 0..=1024 {
        let record = vec![7; length];
        if (6..=200).contains(&length) {
            let mut network = BLANK;
            assert_eq!(store(&mut network, 7, &record), Ok(1));
            assert_eq!(network[..2], [7, length as u8]);
            assert_eq!(fetch(&network, &BLANK, 7).unwrap().unwrap().record, record);
            refused(&full(), 7, &record, Refusal::NoSlot);
        } else {
            refused(&BLANK, 7, &record, Refusal::BadLength);
            refused(&full(), 7, &record, Refusal::BadLength);
            refused(&full(), 100, &record, Refusal::BadLength);
        }
    }
}

/// What a record holds is not examined: its own length byte says what it likes.
#[test]
fn a_record_holds_any_bytes() {
    for first in 0..=255 {
        let record = [first, 0xFF, 0xFF, 0xFF, 0xFF, 0xFF, 0xFF];
        let mut network = BLANK;
        assert_eq!(store(&mut network, first, &record), Ok(1));
        let mut out = [0; 8];
        assert_eq!(write_answer(&network, &BLANK, first, &mut out), Ok(8));
        assert_eq!((out[0], &out[1..]), (first, &record[..]));
    }
}

// ---- sizes and rooms ----------------------------------------------------

/// Every size but one gets 22, before all else, where it is looked at: storing looks
/// at the network's copy alone.
#[test]
fn every_other_size_gets_22() {
    let bytes: Vec<u8> = full().into_iter().cycle().take(16_384).collect();
    for size in (0..=8300).chain([16_159, 16_160, 16_384]) {
        let other = &bytes[..size];
        let right = &bytes[..8080];
        if size == 8080 {
            assert_eq!(holder(other, right, 100), Some((Source::Network, 1)));
            continue;
        }
        for (network, factory) in [(other, right), (right, other), (other, other)] {
            assert_eq!(fetch(network, factory, 100), Err(Refusal::StateUnfit));
            let mut out = [0xEE; 4];
            let answer = write_answer(network, factory, 100, &mut out);
            assert_eq!((answer, out), (Err(Refusal::StateUnfit), [0xEE; 4]));
        }
        refused(other, 100, &[1; 6], Refusal::StateUnfit);
        refused(other, 7, &[1; 5], Refusal::StateUnfit);
    }
}

/// From no room to one byte more than the answer needs, from either image.
#[test]
fn every_room_for_every_answer() {
    for length in 6..=200 {
        let one = image(&[(3, 9, length)]);
        let record = &one[406..][..usize::from(length)];
        for (network, factory) in [(&one[..], &BLANK[..]), (&BLANK, &one), (&one, &one)] {
            for room in 0..=record.len() + 2 {
                let mut out = vec![0xEE; room];
                let written = write_answer(network, factory, 9, &mut out);
                if room <= record.len() {
                    assert_eq!((written, out), (Err(Refusal::NoRoom), vec![0xEE; room]));
                } else {
                    let rest = vec![0xEE; room - record.len() - 1];
                    assert_eq!(written, Ok(1 + record.len()));
                    assert_eq!(out, [&[9], record, &rest].concat());
                }
            }
        }
    }
}

// ---- any images ---------------------------------------------------------

/// Over any bytes: what is stored is what is served, from where it was stored; every
/// other sector is served as before, and from the same place; what is refused is
/// refused for want of a slot.
#[test]
fn what_is_stored_is_served_and_nothing_else_changes() {
    let mut rng = Prng::new(16);
    let mut slots = [0; 41];
    for _ in 0..300 {
        let mut network = match rng.below(3) {
            0 => full(),
            1 => vec![255; 8080],
            _ => rng.bytes(8080),
        };
        let factory = rng.bytes(8080);
        for _ in 0..8 {
            let (sector, size) = (rng.byte(), rng.between(6, 200));
            let record = rng.bytes(size);
            let before = network.clone();
            let slot = match store(&mut network, sector, &record) {
                Ok(slot) => slot,
                Err(refusal) => {
                    assert_eq!(refusal, Refusal::NoSlot);
                    let none_free = before.chunks(202).all(|slot| (6..=200).contains(&slot[1]));
                    let is_new = holder(&before, &[0; 8080], sector).is_none();
                    assert!(network == before && none_free && is_new);
                    continue;
                }
            };
            slots[slot] += 1;
            let held = Held { source: Source::Network, slot, record: &record };
            let mut expected = served(&before, &factory);
            expected[usize::from(sector)] = Some(held);
            assert!(served(&network, &factory) == expected);
            let (start, end) = (202 * (slot - 1), 202 * (slot - 1) + 2 + size);
            assert!(network[..start] == before[..start] && network[end..] == before[end..]);
        }
    }
    assert!(slots[1] > 0 && slots[2] > 0 && slots.iter().sum::<usize>() > 500);
}

/// What is answered is the sector and what is fetched, or nothing.
#[test]
fn an_answer_is_what_is_fetched() {
    let mut rng = Prng::new(17);
    let (mut answers, mut none) = (0, 0);
    for _ in 0..40 {
        let (network, factory) = (rng.bytes(8080), rng.bytes(8080));
        for sector in 0..=255 {
            let mut out = [0; 201];
            let count = write_answer(&network, &factory, sector, &mut out).unwrap();
            match fetch(&network, &factory, sector).unwrap() {
                Some(held) => {
                    assert_eq!(out[..count], [&[sector], held.record].concat());
                    answers += 1;
                }
                None => {
                    assert_eq!(count, 0);
                    none += 1;
                }
            }
        }
    }
    assert!(answers > 1000 && none > 1000);
}
