//! Seeded captures of line bytes for the program `framelist`. They hold frames of
//! its subnet, of subnet 0, and of other systems in the same conduit (C-14).

use crate::checksum;
use crate::finder::{INPUT_LIMIT, LISTED_SUBNET};
use crate::frame::{self, Frame, ALL_SUBNETS, MAX_PAYLOAD, OVERHEAD, PAYLOAD_AT};
use crate::prng::Prng;

/// The example printed in 01.
const PRINTED: [u8; 13] = [0x55, 2, 255, 3, 0, 0, 0, 0xA5, 0, 0, 0, 0x3D, 0x6D];

/// One capture; the first eleven indexes have fixed shapes.
pub fn capture(seed: u64, index: u64) -> Vec<u8> {
    let mut rng = Prng::new(seed ^ index.wrapping_mul(0xD6E8_FEB8_6659_FD93));
    match index {
        0 => Vec::new(),
        1 => PRINTED.to_vec(),
        2 => printed_on(4),
        3 => printed_on(ALL_SUBNETS),
        4 => PRINTED[1..12].to_vec(),
        5 => zeros_with_sums(),
        6 => frame_ending_at(&mut rng, LISTED_SUBNET, INPUT_LIMIT),
        7 => frame_ending_at(&mut rng, LISTED_SUBNET, INPUT_LIMIT + 1),
        8 => whole_frames(&mut rng, 2 * INPUT_LIMIT),
        9 => vec![0; 5000],
        10 => (0..=255).flat_map(printed_on).collect(),
        _ => any(&mut rng),
    }
}

/// The printed example with another subnet byte, and check bytes that fit.
fn printed_on(subnet: u8) -> Vec<u8> {
    let mut bytes = PRINTED.to_vec();
    bytes[3] = subnet;
    let tail = checksum::check_bytes(&bytes[1..11]);
    bytes[11..].copy_from_slice(&tail);
    bytes
}

/// Mostly mixtures; now and then one piece alone, or a frame near the limit.
fn any(rng: &mut Prng) -> Vec<u8> {
    match rng.below(24) {
        0 => piece(rng),
        1 => {
            let (end, subnet) = (INPUT_LIMIT - 2 + rng.below(5), any_subnet(rng));
            frame_ending_at(rng, subnet, end)
        }
        _ => mixture(rng),
    }
}

/// A subnet that is listed.
fn listed_subnet(rng: &mut Prng) -> u8 {
    rng.pick(&[LISTED_SUBNET, LISTED_SUBNET, ALL_SUBNETS])
}

/// A subnet of another system: near the one listed, or any.
fn other_subnet(rng: &mut Prng) -> u8 {
    loop {
        let any = rng.byte();
        let subnet = rng.pick(&[2, 4, 255, any]);
        if !frame::takes(LISTED_SUBNET, subnet) {
            return subnet;
        }
    }
}

/// One that is listed in so many of a hundred cases.
fn mixed_subnet(rng: &mut Prng, percent: usize) -> u8 {
    if rng.chance(percent) {
        listed_subnet(rng)
    } else {
        other_subnet(rng)
    }
}

/// Most frames are ones to be listed.
fn any_subnet(rng: &mut Prng) -> u8 {
    mixed_subnet(rng, 90)
}

/// Where two systems meet, either is as likely.
fn either_subnet(rng: &mut Prng) -> u8 {
    mixed_subnet(rng, 50)
}

/// Ten zeros and AA AA (01), several times, between runs of zeros.
fn zeros_with_sums() -> Vec<u8> {
    let mut line = Vec::new();
    for run in [10, 10, 22, 11, 250, 9] {
        line.extend(vec![0; run]);
        line.extend([0xAA, 0xAA]);
    }
    line
}

/// Noise, then a frame whose last byte is the given one, then more noise.
fn frame_ending_at(rng: &mut Prng, subnet: u8, end: usize) -> Vec<u8> {
    let last = good_frame_on(rng, subnet);
    let mut line = rng.bytes(end - last.len());
    line.extend(last);
    let tail = rng.between(0, 600);
    line.extend(rng.bytes(tail));
    line
}

fn whole_frames(rng: &mut Prng, least: usize) -> Vec<u8> {
    let mut line = Vec::new();
    while line.len() < least {
        line.extend(good_frame(rng));
    }
    line
}

/// Any pieces one after another; one in four is longer than 4,096 bytes.
fn mixture(rng: &mut Prng) -> Vec<u8> {
    let least = if rng.chance(25) { INPUT_LIMIT } else { rng.between(0, 3000) };
    let mut line = Vec::new();
    loop {
        line.extend(piece(rng));
        if line.len() > least {
            return line;
        }
    }
}

fn piece(rng: &mut Prng) -> Vec<u8> {
    match rng.below(15) {
        0 => noise(rng),
        1 => vec![rng.pick(&[0x00, 0xAA, 0xFF, 0x0C]); rng.between(1, 60)],
        2 | 3 => good_frame(rng),
        4 => longest_frame(rng),
        5 => whole_frames(rng, 100),
        6 => cut_frame(rng),
        7 => damaged_frame(rng),
        8 => over_long(rng),
        9 => zeroed_frame(rng),
        10 => nested(rng),
        11 => damaged_outside(rng),
        12 => side_by_side(rng),
        13 => overlapping(rng),
        _ => [cut_frame(rng), good_frame(rng)].concat(),
    }
}

fn noise(rng: &mut Prng) -> Vec<u8> {
    let count = rng.between(1, 40);
    rng.bytes(count)
}

fn good_frame(rng: &mut Prng) -> Vec<u8> {
    let subnet = any_subnet(rng);
    good_frame_on(rng, subnet)
}

fn good_frame_on(rng: &mut Prng, subnet: u8) -> Vec<u8> {
    let length = match rng.below(6) {
        0 => 0,
        1 => 17,
        2 => rng.between(1, 3),
        3 => rng.between(0, MAX_PAYLOAD),
        4 => rng.pick(&[1, 238, 239, 240]),
        _ => rng.between(0, 40),
    };
    frame_of(rng, subnet, length)
}

fn frame_of(rng: &mut Prng, subnet: u8, length: usize) -> Vec<u8> {
    let payload = rng.bytes(length);
    frame_around(rng, subnet, &payload)
}

/// A frame with this subnet, this payload and any other header.
fn frame_around(rng: &mut Prng, subnet: u8, payload: &[u8]) -> Vec<u8> {
    let frame = Frame {
        destination: rng.pick(&[255, 0, 1, 2, 16, 17, 254]),
        source: rng.pick(&[255, 0, 1, 2, 16, 17, 254]),
        subnet,
        method: rng.pick(&[0, 1, 2, 3, 4]),
        parameter1: rng.byte(),
        parameter2: rng.byte(),
        node_type: rng.pick(&[165, 1, 2, 5]),
        message_type: rng.byte(),
        packet: rng.pick(&[0, 0x80, 0x20]),
        payload,
    };
    let mut out = vec![0; OVERHEAD + payload.len()];
    let written = frame::write(&frame, &mut out).unwrap_or(0);
    out.truncate(written);
    out
}

fn longest_frame(rng: &mut Prng) -> Vec<u8> {
    let subnet = any_subnet(rng);
    frame_of(rng, subnet, MAX_PAYLOAD)
}

fn cut_frame(rng: &mut Prng) -> Vec<u8> {
    let mut bytes = good_frame(rng);
    let keep = rng.between(1, bytes.len() - 1);
    bytes.truncate(keep);
    bytes
}

fn damaged_frame(rng: &mut Prng) -> Vec<u8> {
    let mut bytes = good_frame(rng);
    let at = rng.below(bytes.len());
    bytes[at] ^= 1 << rng.below(8);
    bytes
}

/// Length above 240 with sums that would be good.
fn over_long(rng: &mut Prng) -> Vec<u8> {
    let length = rng.between(241, 255);
    let mut bytes = rng.bytes(10 + length);
    bytes[9] = length as u8;
    let tail = checksum::check_bytes(&bytes);
    bytes.extend(tail);
    bytes
}

/// A good frame with check byte 0 in place of 255.
fn zeroed_frame(rng: &mut Prng) -> Vec<u8> {
    loop {
        let bytes = good_frame(rng);
        if let Some(bytes) = zero_for_255(&bytes) {
            return bytes;
        }
    }
}

/// The frame with each check byte 255 made 0, if it has one.
pub fn zero_for_255(frame: &[u8]) -> Option<Vec<u8>> {
    let mut bytes = frame.to_vec();
    let body = bytes.len().checked_sub(2)?;
    for byte in &mut bytes[body..] {
        *byte = if *byte == 255 { 0 } else { *byte };
    }
    (bytes != frame).then_some(bytes)
}

/// A frame inside another's payload, or inside two. What lies inside a listed
/// one is not to be listed; what lies inside one of another system is to be
/// found, as if that were not there.
fn nested(rng: &mut Prng) -> Vec<u8> {
    let (subnet, length) = (either_subnet(rng), rng.between(0, 60));
    let mut bytes = frame_of(rng, subnet, length);
    for _ in 0..rng.between(1, 2) {
        let (before, behind) = (few_bytes(rng), few_bytes(rng));
        let subnet = either_subnet(rng);
        bytes = frame_around(rng, subnet, &[before, bytes, behind].concat());
    }
    bytes
}

/// Mostly none.
fn few_bytes(rng: &mut Prng) -> Vec<u8> {
    let some = rng.between(1, 20);
    let count = rng.pick(&[0, 0, some]);
    rng.bytes(count)
}

/// Frames of two systems, one directly behind the other.
fn side_by_side(rng: &mut Prng) -> Vec<u8> {
    let mut line = Vec::new();
    for _ in 0..rng.between(2, 4) {
        let (subnet, length) = (either_subnet(rng), rng.between(0, 40));
        line.extend(frame_of(rng, subnet, length));
    }
    line
}

/// A frame that begins in another's payload and ends behind it: the check bytes
/// of the one are a part of the payload of the other.
fn overlapping(rng: &mut Prng) -> Vec<u8> {
    let length = rng.between(2, 60);
    let inside = PAYLOAD_AT + rng.between(0, length - 2);
    let (subnet, before) = (either_subnet(rng), few_bytes(rng));
    let second = frame_of(rng, subnet, length);
    let subnet = either_subnet(rng);
    let first = frame_around(rng, subnet, &[&before[..], &second[..inside]].concat());
    let mut line = [&first[..], &second[inside + 2..PAYLOAD_AT + length]].concat();
    let tail = checksum::check_bytes(&line[PAYLOAD_AT + before.len()..]);
    line.extend(tail);
    line
}

/// A good frame inside a damaged one, which is to be found.
fn damaged_outside(rng: &mut Prng) -> Vec<u8> {
    let mut bytes = nested(rng);
    bytes[rng.below(9)] ^= 0x10;
    bytes
}

#[cfg(test)]
mod tests {
    use super::*;
    use crate::finder;

    #[test]
    fn captures_are_the_same_again_and_hold_frames() {
        let mut listed = 0;
        for index in 0..60 {
            let line = capture(5, index);
            assert_eq!(line, capture(5, index));
            listed += finder::list(&line).lines().count();
        }
        assert!(listed > 200);
    }

    #[test]
    fn a_frame_that_ends_at_the_limit_is_listed_and_one_past_it_not() {
        let last = |index| finder::list(&capture(5, index)).lines().last().map(str::to_string);
        let ends_at = |line: String| {
            let numbers: Vec<usize> = line.split(' ').map(|word| word.parse().unwrap()).collect();
            numbers[0] + 12 + numbers[4]
        };
        assert_eq!(last(6).map(ends_at), Some(4096));
        assert!(last(7).map(ends_at) < Some(4096));
    }

    #[test]
    fn the_printed_example_is_listed_on_subnets_3_and_0() {
        let listed = |index| finder::list(&capture(5, index));
        assert_eq!(capture(5, 2)[..4], [0x55, 2, 255, 4]);
        assert_eq!((listed(1), listed(2)), ("1 2 255 0 0\n".to_string(), String::new()));
        assert_eq!(listed(3), listed(1));
        assert_eq!(listed(10), "1 2 255 0 0\n40 2 255 0 0\n");
    }

    #[test]
    fn zeroed_frames_are_good_and_over_long_ones_are_not() {
        let mut rng = Prng::new(1);
        for _ in 0..50 {
            let zeroed = zeroed_frame(&mut rng);
            assert!(frame::read(&zeroed, zeroed[2]).is_ok());
            assert!(zeroed[zeroed.len() - 2..].contains(&0));
            let long = over_long(&mut rng);
            assert!(frame::read(&long, long[2]).is_err());
        }
    }

    #[test]
    fn overlapping_frames_are_both_good() {
        let mut rng = Prng::new(2);
        for _ in 0..50 {
            let line = overlapping(&mut rng);
            let first = OVERHEAD + usize::from(line[9]);
            assert!(frame::read(&line[..first], line[2]).is_ok());
            let ends_last = |start: &usize| {
                let second = &line[*start..];
                second.len() >= OVERHEAD && frame::read(second, second[2]).is_ok()
            };
            let second = (PAYLOAD_AT..line.len()).find(ends_last).unwrap();
            assert!(second + PAYLOAD_AT < first && first < line.len());
        }
    }
}
