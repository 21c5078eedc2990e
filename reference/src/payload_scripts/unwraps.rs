//! Lines of C-21 that unwrap: frames with messages inside messages, as a gateway
//! sends them, and as it should not.

use super::nest::{repair, Nest};
use super::words::Word;
use super::Generator;
use crate::encapsulation::{ENCAPSULATION, LEVEL, MOST_LEVELS};
use crate::frame::{ALL_SUBNETS, MAX_PAYLOAD, OVERHEAD};
use crate::language::HEX_LIMIT;

/// The deepest that a line goes: two levels more than are read.
pub const DEEPEST: usize = MOST_LEVELS + 2;
/// Up to so many bytes inside are few.
const FEW: usize = 30;
/// Where a frame has its length.
const LENGTH_AT: usize = 9;

impl Generator {
    pub(super) fn unwrap_words(&mut self) -> Vec<Word> {
        let frame = match self.rng.below(100) {
            0..=20 => self.right_nest().frame(),
            21 | 22 => self.right_nest().zeroed(),
            23..=59 => self.other_length().frame(),
            60..=63 => self.too_few().frame(),
            64..=71 => self.too_deep().frame(),
            72..=77 => self.other_type().frame(),
            78..=84 => self.any_byte(),
            85..=98 => self.frame_fault(),
            _ => self.no_frame(),
        };
        let ours = self.subnet_for(&frame);
        unwrap_line(ours, frame)
    }

    /// A frame that was just wrapped, under its own subnet, 0 or another.
    pub(super) fn unwrap_back(&mut self, frame: Vec<u8>) -> Vec<Word> {
        let ours = self.subnet_for(&frame);
        unwrap_line(ours, frame)
    }

    /// Mostly the frame's own.
    fn subnet_for(&mut self, frame: &[u8]) -> u8 {
        let own = frame.get(2).copied().unwrap_or(ALL_SUBNETS);
        match self.rng.below(100) {
            0..=76 => own,
            77..=84 => ALL_SUBNETS,
            _ => self.rng.byte(),
        }
    }

    fn right_nest(&mut self) -> Nest {
        let depth = self.rng.between(0, MOST_LEVELS);
        let size = self.size_inside(depth, 85);
        Nest::new(&mut self.rng, depth, size)
    }

    /// How many bytes are inside so many levels: in so many of a hundred cases any
    /// that fit, else few, so that scripts stay short.
    pub(super) fn size_inside(&mut self, depth: usize, percent: usize) -> usize {
        let most = if self.rng.chance(percent) { Nest::most(depth) } else { FEW };
        self.rng.between(0, most)
    }

    /// In one of the levels that are read the length byte is too large or too small,
    /// and there may be levels in it.
    fn other_length(&mut self) -> Nest {
        let level = self.rng.between(1, MOST_LEVELS);
        let (length, size) = self.unequal(Nest::most(level));
        let inner = (size / LEVEL).min(DEEPEST - level);
        let inner = self.rng.between(0, inner);
        let mut nest = Nest::new(&mut self.rng, level + inner, size - LEVEL * inner);
        nest.set_length(level, length as u8);
        nest
    }

    /// A length byte that is too large or too small for its bytes, often by one; of
    /// these there are at most so many.
    fn unequal(&mut self, most: usize) -> (usize, usize) {
        if self.rng.chance(50) {
            let length = self.rng.between(1, 255);
            let (near, any) = (length - 1, self.rng.below(length));
            (length, self.rng.pick(&[near, any]).min(most))
        } else {
            let length = self.rng.below(most);
            let (near, any) = (length + 1, self.rng.between(length + 1, most));
            (length, self.rng.pick(&[near, any]))
        }
    }

    /// A level without its seven bytes: a message of the type of a level, whose
    /// payload is none. The type of what would be inside may be that of a level too.
    fn too_few(&mut self) -> Nest {
        let (depth, size) = (self.rng.below(MOST_LEVELS), self.rng.below(LEVEL));
        let mut nest = Nest::new(&mut self.rng, depth, size);
        nest.set_type(depth, ENCAPSULATION);
        nest
    }

    /// A fifth level, which may have a sixth in it or be none at all: of any bytes,
    /// or of too few.
    fn too_deep(&mut self) -> Nest {
        let deeper = self.rng.chance(40);
        let depth = if deeper { self.rng.between(MOST_LEVELS + 1, DEEPEST) } else { MOST_LEVELS };
        let (any, few) = (self.size_inside(depth, 85), self.rng.below(LEVEL));
        let size = self.rng.pick(&[any, any, any, few]);
        let mut nest = Nest::new(&mut self.rng, depth, size);
        if deeper && self.rng.chance(50) {
            nest.set_length(MOST_LEVELS + 1, self.rng.byte());
        }
        if !deeper {
            nest.set_type(depth, ENCAPSULATION);
        }
        nest
    }

    /// One of the messages is of another type, mostly near that of a level: what is
    /// in it is then its payload, or what is its payload is then a level.
    fn other_type(&mut self) -> Nest {
        let depth = self.rng.between(0, DEEPEST);
        let size = self.size_inside(depth, 30);
        let mut nest = Nest::new(&mut self.rng, depth, size);
        let level = self.rng.between(0, nest.depth());
        let any = self.rng.byte();
        let types = [0xFE, 0xFE, 0x7D, 0x7F, 0x00, ENCAPSULATION, any];
        nest.set_type(level, self.rng.pick(&types));
        nest
    }

    /// Any byte of any frame is another one. Its check bytes are mostly right again.
    fn any_byte(&mut self) -> Vec<u8> {
        let depth = self.rng.between(0, DEEPEST);
        let size = self.size_inside(depth, 30);
        let mut bytes = Nest::new(&mut self.rng, depth, size).frame();
        let at = self.rng.below(bytes.len());
        bytes[at] = self.rng.byte();
        if self.rng.chance(75) {
            repair(&mut bytes);
        }
        bytes
    }

    /// The frame itself is not right, whatever is in it.
    fn frame_fault(&mut self) -> Vec<u8> {
        let nest = match self.rng.below(4) {
            0 => self.right_nest(),
            1 => self.other_length(),
            2 => self.too_few(),
            _ => self.too_deep(),
        };
        let mut bytes = nest.frame();
        match self.rng.below(10) {
            0 => bytes.truncate(self.rng.below(OVERHEAD)),
            1 | 2 => bytes.truncate(self.rng.below(bytes.len())),
            3 | 4 => self.lengthen(&mut bytes),
            5 | 6 => self.misstate(&mut bytes),
            _ => self.damage(&mut bytes),
        }
        bytes
    }

    /// Bytes follow the frame, now and then very many.
    fn lengthen(&mut self, bytes: &mut Vec<u8>) {
        let more = match self.rng.below(20) {
            0 => self.rng.below(HEX_LIMIT - bytes.len()),
            _ => self.rng.between(1, LEVEL + 1),
        };
        bytes.extend(self.rng.bytes(more));
    }

    /// The frame's own length is another one, near it or above the limit, with
    /// right check bytes; of those above the limit some have all their bytes.
    fn misstate(&mut self, bytes: &mut Vec<u8>) {
        let (any, above) = (self.rng.byte(), self.rng.between(MAX_PAYLOAD + 1, 255) as u8);
        let near = [bytes[LENGTH_AT].wrapping_add(1), bytes[LENGTH_AT].wrapping_sub(1)];
        bytes[LENGTH_AT] = self.rng.pick(&[any, above, above, near[0], near[1]]);
        if bytes[LENGTH_AT] == above && self.rng.chance(50) {
            let size = OVERHEAD + usize::from(above);
            bytes.resize(size, 0);
        }
        repair(bytes);
    }

    /// One or both of the check bytes are others.
    fn damage(&mut self, bytes: &mut [u8]) {
        let body = bytes.len() - 2;
        let (low, high) = (self.rng.byte() | 1, self.rng.pick(&[0, 0x80]));
        let at = self.rng.below(2);
        bytes[body + at] ^= low;
        bytes[body + 1 - at] ^= high;
    }

    /// Any bytes, or all of them alike.
    fn no_frame(&mut self) -> Vec<u8> {
        let size = self.rng.between(0, OVERHEAD + 20);
        match self.rng.below(3) {
            0 => vec![0; size],
            1 => vec![ENCAPSULATION; size],
            _ => self.rng.bytes(size),
        }
    }
}

fn unwrap_line(ours: u8, frame: Vec<u8>) -> Vec<Word> {
    vec![Word::Name("unwrap"), Word::byte("SUBNET", ours), Word::hex(frame)]
}
