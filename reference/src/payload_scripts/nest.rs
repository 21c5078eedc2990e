//! A frame in the making, with messages inside messages: of any depth, and with
//! whatever is wrong at any level.

use crate::captures::zero_for_255;
use crate::checksum;
use crate::encapsulation::{ENCAPSULATION, LEVEL, PACKET_HEADER};
use crate::frame::MAX_PAYLOAD;
use crate::prng::Prng;

/// The frame's bytes before its length: the header, message type and packet number.
const BEFORE_LENGTH: usize = 9;
const SUBNET_AT: usize = 2;
const TYPE_AT: usize = 7;
const PACKET_AT: usize = 8;

#[derive(Clone, Debug)]
pub struct Nest {
    front: [u8; BEFORE_LENGTH],
    /// The frame's payload, with all levels in it: each takes seven bytes, and the
    /// last three of these are type, packet number and length of what is in it.
    payload: Vec<u8>,
    depth: usize,
}

impl Nest {
    /// A plain message of so many bytes inside so many levels, all of them whole.
    pub fn new(rng: &mut Prng, depth: usize, size: usize) -> Nest {
        let payload = filling(rng, LEVEL * depth + size);
        let mut nest = Nest { front: [0; BEFORE_LENGTH], payload, depth };
        nest.front.copy_from_slice(&rng.bytes(BEFORE_LENGTH));
        if rng.chance(25) {
            nest.front[SUBNET_AT] = 0;
        }
        for level in 0..depth {
            nest.set_type(level, ENCAPSULATION);
        }
        nest.set_type(depth, plain_type(rng));
        for level in 1..=depth {
            nest.set_length(level, nest.size_in(level) as u8);
        }
        nest
    }

    /// The most bytes of a plain message inside so many levels.
    pub fn most(depth: usize) -> usize {
        MAX_PAYLOAD - LEVEL * depth
    }

    pub fn depth(&self) -> usize {
        self.depth
    }

    /// How many bytes the message in this level has as its payload.
    fn size_in(&self, level: usize) -> usize {
        self.payload.len() - LEVEL * level
    }

    /// The type of the message in this level; level 0 is the frame.
    pub fn set_type(&mut self, level: usize, message_type: u8) {
        match level {
            0 => self.front[TYPE_AT] = message_type,
            _ => self.payload[LEVEL * level - PACKET_HEADER] = message_type,
        }
    }

    /// The length byte of the message in this level, from 1 on.
    pub fn set_length(&mut self, level: usize, length: u8) {
        self.payload[LEVEL * level - 1] = length;
    }

    /// The frame, with its length and right check bytes.
    pub fn frame(&self) -> Vec<u8> {
        let length = self.payload.len() as u8;
        let mut bytes = [&self.front[..], &[length], &self.payload, &[0, 0]].concat();
        repair(&mut bytes);
        bytes
    }

    /// The frame with a check byte 0, by way of a packet number that gives one; the
    /// plain frame if none does.
    pub fn zeroed(mut self) -> Vec<u8> {
        let plain = self.frame();
        let found = (0..=255).find_map(|packet| {
            self.front[PACKET_AT] = packet;
            zero_for_255(&self.frame())
        });
        found.unwrap_or(plain)
    }
}

/// Any type but that of a level, often one that is near it.
pub fn plain_type(rng: &mut Prng) -> u8 {
    loop {
        let any = rng.byte();
        let message_type = if rng.chance(80) { any } else { rng.pick(&[0xFE, 0x7D, 0x7F]) };
        if message_type != ENCAPSULATION {
            return message_type;
        }
    }
}

/// So many bytes: mostly any, else all of them alike, as the type of a level is or
/// as an empty message is.
fn filling(rng: &mut Prng, size: usize) -> Vec<u8> {
    match rng.below(10) {
        0 => vec![ENCAPSULATION; size],
        1 => vec![0; size],
        _ => rng.bytes(size),
    }
}

/// Makes the check bytes right again.
pub fn repair(frame: &mut [u8]) {
    if let Some(body) = frame.len().checked_sub(2) {
        let tail = checksum::check_bytes(&frame[..body]);
        frame[body..].copy_from_slice(&tail);
    }
}

#[cfg(test)]
mod tests {
    use super::*;
    use crate::encapsulation::{unwrap, MOST_LEVELS};
    use crate::refusal::Refusal;

    #[test]
    fn a_nest_is_whole_at_every_depth_and_size() {
        let mut rng = Prng::new(1);
        for depth in 0..=6 {
            for size in 0..=Nest::most(depth) {
                let bytes = Nest::new(&mut rng, depth, size).frame();
                let read = unwrap(&bytes, bytes[SUBNET_AT]);
                let expected = match depth {
                    0..=MOST_LEVELS => Ok((depth, size)),
                    _ => Err(Refusal::TooDeep),
                };
                let found = read.map(|read| (read.levels.len(), read.plain.payload.len()));
                assert_eq!(found, expected);
            }
        }
    }

    #[test]
    fn a_nest_is_spoiled_where_it_should_be() {
        let mut rng = Prng::new(2);
        for level in 1..=4 {
            let mut nest = Nest::new(&mut rng, 5, 9);
            nest.set_type(level - 1, 0xFE);
            let bytes = nest.frame();
            let depth = unwrap(&bytes, bytes[SUBNET_AT]).map(|read| read.levels.len());
            assert_eq!(depth, Ok(level - 1));
            let mut nest = Nest::new(&mut rng, 5, 9);
            nest.set_length(level, 0);
            let bytes = nest.frame();
            assert_eq!(unwrap(&bytes, bytes[SUBNET_AT]), Err(Refusal::BadInner));
        }
    }

    #[test]
    fn a_check_byte_0_is_as_good() {
        let mut rng = Prng::new(3);
        let bytes = Nest::new(&mut rng, 2, 9).zeroed();
        assert!(bytes[bytes.len() - 2..].contains(&0) && checksum::is_good(&bytes));
    }
}
