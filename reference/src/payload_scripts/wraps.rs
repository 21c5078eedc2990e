//! Lines of C-21 that wrap: of every depth, with every length and room about what
//! is due, and with several faults at once.

use super::nest::plain_type;
use super::unwraps::DEEPEST;
use super::words::Word;
use super::Generator;
use crate::encapsulation::{ENCAPSULATION, LEVEL, MOST_LEVELS};
use crate::frame::{MAX_PAYLOAD, OVERHEAD};
use crate::language::{HEX_LIMIT, ROOM_LIMIT};

/// What stands between the room and the depth, a byte each.
pub const HEADER_FIELDS: [&str; 7] =
    ["DESTINATION", "SOURCE", "SUBNET", "METHOD", "PARAMETER1", "PARAMETER2", "KIND"];
/// What each level has, a byte each.
pub const LEVEL_FIELDS: [&str; 5] = ["CODE", "OPERAND1", "OPERAND2", "OPERAND3", "LEVEL PACKET"];
/// What the message inside has before its payload.
pub const INSIDE_FIELDS: [&str; 2] = ["TYPE", "PACKET"];

const MOST_ROOM: usize = ROOM_LIMIT as usize;

/// A line before its bytes are drawn.
struct Wrap {
    depth: usize,
    /// Whether the message inside has the type of a level.
    level_inside: bool,
    size: usize,
    room: usize,
}

/// The size of the frame around so many levels and so many bytes inside.
fn due(depth: usize, size: usize) -> usize {
    OVERHEAD + LEVEL * depth + size
}

impl Generator {
    pub(super) fn wrap_words(&mut self) -> Vec<Word> {
        let wrap = match self.rng.below(100) {
            0..=44 => self.wrap_right(),
            45..=66 => self.wrap_any_room(),
            67..=71 => self.wrap_near_limit(),
            72..=77 => self.wrap_too_long(),
            78..=84 => self.wrap_too_deep(),
            _ => self.wrap_faults(),
        };
        self.wrap_line(&wrap)
    }

    fn wrap_line(&mut self, wrap: &Wrap) -> Vec<Word> {
        let mut words = vec![Word::Name("wrap"), Word::room(wrap.room.min(MOST_ROOM))];
        words.extend(self.any_bytes(&HEADER_FIELDS));
        words.push(Word::depth(wrap.depth));
        for _ in 0..wrap.depth {
            words.extend(self.any_bytes(&LEVEL_FIELDS));
        }
        let message_type =
            if wrap.level_inside { ENCAPSULATION } else { plain_type(&mut self.rng) };
        words.push(Word::byte(INSIDE_FIELDS[0], message_type));
        words.extend(self.any_bytes(&INSIDE_FIELDS[1..]));
        words.push(Word::hex(self.rng.bytes(wrap.size.min(HEX_LIMIT))));
        words
    }

    fn any_bytes(&mut self, fields: &[&'static str]) -> Vec<Word> {
        let mut any = || {
            let any = self.rng.byte();
            self.rng.pick(&[any, any, any, any, any, 0, 255, ENCAPSULATION])
        };
        fields.iter().map(|field| Word::byte(field, any())).collect()
    }

    /// Enough room, often to the byte.
    fn room_to_wrap(&mut self, depth: usize, size: usize) -> usize {
        let due = due(depth, size);
        let more = self.rng.between(due, MOST_ROOM.max(due));
        self.rng.pick(&[due, due, due + 1, due + 1, more, MOST_ROOM])
    }

    fn wrap_right(&mut self) -> Wrap {
        let depth = self.rng.between(0, MOST_LEVELS);
        let size = self.size_inside(depth, 85);
        Wrap { depth, level_inside: false, size, room: self.room_to_wrap(depth, size) }
    }

    /// One byte less than is due, none, or anything up to one byte more.
    fn wrap_any_room(&mut self) -> Wrap {
        let right = self.wrap_right();
        let due = due(right.depth, right.size);
        let any = self.rng.between(0, due + 1);
        let room = self.rng.pick(&[due - 1, due - 1, any, any, 0]);
        Wrap { room, ..right }
    }

    /// The outermost payload is two bytes below the limit to two above, at each
    /// depth.
    fn wrap_near_limit(&mut self) -> Wrap {
        let depth = self.rng.between(0, MOST_LEVELS);
        let size = self.rng.between(MAX_PAYLOAD - 2, MAX_PAYLOAD + 2) - LEVEL * depth;
        let enough = self.room_to_wrap(depth, size);
        let room = self.rng.pick(&[enough, enough, due(depth, size) - 1]);
        Wrap { depth, level_inside: false, size, room }
    }

    /// Above the limit by little or by far, also so that a byte could not tell.
    fn wrap_too_long(&mut self) -> Wrap {
        let depth = self.rng.between(0, MOST_LEVELS);
        let outermost = match self.rng.below(20) {
            0 => HEX_LIMIT,
            1 => 512 + self.rng.below(MAX_PAYLOAD),
            2 | 3 => 256 + self.rng.below(MAX_PAYLOAD),
            _ => MAX_PAYLOAD + self.rng.between(1, 30),
        };
        let size = outermost - LEVEL * depth;
        Wrap { depth, level_inside: false, size, room: self.room_to_wrap(depth, size) }
    }

    /// More levels than four, or a message inside that is a level, or both.
    fn wrap_too_deep(&mut self) -> Wrap {
        let (depth, level_inside) = match self.rng.below(3) {
            0 => (self.rng.between(0, MOST_LEVELS), true),
            1 => (self.too_many_levels(), false),
            _ => (self.too_many_levels(), true),
        };
        let size = self.rng.between(0, 40);
        Wrap { depth, level_inside, size, room: self.room_to_wrap(depth, size) }
    }

    /// Five or six, now and then more, also so many that a byte could not tell them
    /// from none to four.
    fn too_many_levels(&mut self) -> usize {
        match self.rng.below(150) {
            0..=129 => self.rng.between(MOST_LEVELS + 1, DEEPEST),
            130..=147 => self.rng.between(DEEPEST + 1, 2 * DEEPEST),
            _ => 256 + self.rng.between(0, MOST_LEVELS),
        }
    }

    /// Any of: there are too many levels, the message inside is one, the payload is
    /// too long, there is no room for it.
    fn wrap_faults(&mut self) -> Wrap {
        let many = self.rng.chance(40);
        let depth = if many { self.too_many_levels() } else { self.rng.between(0, MOST_LEVELS) };
        let (level_inside, long, narrow) =
            (self.rng.chance(40), self.rng.chance(40), self.rng.chance(60));
        let near = (MAX_PAYLOAD + self.rng.between(1, 4)).saturating_sub(LEVEL * depth);
        let short = self.rng.between(0, 30);
        let size = if long { near } else { short };
        let less = self.rng.below(due(depth, size));
        let room = match narrow {
            true => self.rng.pick(&[due(depth, size) - 1, less, 0]),
            false => self.room_to_wrap(depth, size),
        };
        Wrap { depth, level_inside, size, room }
    }
}
