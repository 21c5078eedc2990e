//! Lines of C-22: texts and faults as boards send them, and as they should not.

use super::words::Word;
use super::Generator;
use crate::forms::{is_good, Form, FORMS};
use crate::frame::MAX_PAYLOAD;
use crate::language::{HEX_LIMIT, ROOM_LIMIT};

const MOST_ROOM: usize = ROOM_LIMIT as usize;

impl Generator {
    pub(super) fn text_words(&mut self) -> Vec<Word> {
        let form = self.rng.pick(&FORMS);
        match self.rng.below(100) {
            0..=5 => self.read_right(form),
            6..=25 => self.read_other_length(form),
            26..=34 => self.read_any(form),
            35..=50 => self.read_marked(form),
            51..=57 => self.read_faults(form),
            58..=63 => self.write_right(form),
            64..=73 => self.write_any_room(form),
            74..=79 => self.write_too_long(form),
            80..=94 => self.write_marked(form),
            _ => self.write_faults(form),
        }
    }

    /// A payload that was just written goes to its own reader, or to the other.
    pub(super) fn read_back(&mut self, form: &'static Form, payload: Vec<u8>) -> Vec<Word> {
        let reader = if self.rng.chance(75) { form.reader } else { form.other().reader };
        vec![Word::Name(reader), Word::hex(payload)]
    }

    fn read(&mut self, form: &'static Form, length: u8, text: &[u8]) -> Vec<Word> {
        let mut payload = self.fixed(form);
        payload.push(length);
        payload.extend(text);
        payload.truncate(HEX_LIMIT);
        vec![Word::Name(form.reader), Word::hex(payload)]
    }

    fn write(&mut self, form: &'static Form, room: usize, text: Vec<u8>) -> Vec<Word> {
        let fixed = self.fixed(form);
        let numbers = form.fields.iter().zip(fixed).map(|(field, value)| Word::byte(field, value));
        let mut words = vec![Word::Name(form.writer), Word::room(room.min(MOST_ROOM))];
        words.extend(numbers);
        words.push(Word::hex(text));
        words
    }

    /// The type, and the codes of a fault; now and then these are 0, as in the
    /// message that clears one.
    fn fixed(&mut self, form: &Form) -> Vec<u8> {
        let clears = self.rng.chance(10);
        let any = |generator: &mut Generator| {
            let (any, low) = (generator.rng.byte(), generator.rng.below(40) as u8);
            generator.rng.pick(&[any, any, any, low, 0, 255])
        };
        let mut fixed: Vec<u8> = form.fields.iter().map(|_| any(self)).collect();
        if clears {
            fixed[1..].fill(0);
        }
        fixed
    }

    /// So many bytes that may stand in a text, the first and the last of them
    /// more often.
    fn good_text(&mut self, size: usize) -> Vec<u8> {
        let mut byte = || {
            let any = self.rng.between(0x20, 0x7E) as u8;
            self.rng.pick(&[any, any, any, any, any, any, 0x20, 0x7E])
        };
        (0..size).map(|_| byte()).collect()
    }

    fn bad_byte(&mut self) -> u8 {
        loop {
            let any = self.rng.byte();
            let byte = self.rng.pick(&[any, any, 0x1F, 0x7F, 0x80, 0xFF, 0]);
            if !is_good(byte) {
                return byte;
            }
        }
    }

    /// A text that fits, with any byte in one place, often a bad one: the only
    /// place, the first, one in the middle or the last.
    fn marked_text(&mut self, form: &Form) -> Vec<u8> {
        let place = self.rng.below(4);
        let size = match place {
            0 => 1,
            2 => self.rng.between(3, form.most),
            _ => self.rng.between(2, form.most),
        };
        let at = match place {
            0 | 1 => 0,
            2 => self.rng.between(1, size - 2),
            _ => size - 1,
        };
        let mut text = self.good_text(size);
        text[at] = self.rng.byte();
        while is_good(text[at]) && self.rng.chance(40) {
            text[at] = self.rng.byte();
        }
        text
    }

    /// One to three bytes of the text are bad.
    fn spoil(&mut self, text: &mut [u8]) {
        for _ in 0..self.rng.between(1, 3) {
            let at = self.rng.below(text.len());
            text[at] = self.bad_byte();
        }
    }

    fn read_right(&mut self, form: &'static Form) -> Vec<Word> {
        let size = self.rng.between(0, form.most);
        let text = self.good_text(size);
        self.read(form, size as u8, &text)
    }

    /// Any length byte; the text is as long, a byte longer or shorter, longer by
    /// what a byte cannot tell, or of any length.
    fn read_other_length(&mut self, form: &'static Form) -> Vec<Word> {
        let length = usize::from(self.rng.byte());
        let any = self.rng.between(0, 255);
        let sizes = [length, length + 1, length.saturating_sub(1), length + 256, any];
        let size = self.rng.pick(&sizes);
        let text = self.good_text(size);
        self.read(form, length as u8, &text)
    }

    /// A payload of any size: noise, zeros, or right but for its size.
    fn read_any(&mut self, form: &'static Form) -> Vec<Word> {
        let size = match self.rng.below(20) {
            0 => self.rng.pick(&[MAX_PAYLOAD + 1, 255, 256, 257, 512, HEX_LIMIT]),
            1 => self.rng.between(MAX_PAYLOAD + 1, HEX_LIMIT),
            _ => self.rng.between(0, MAX_PAYLOAD),
        };
        let payload = match self.rng.below(4) {
            0 => self.rng.bytes(size),
            1 => vec![0; size],
            _ => {
                let length = size.saturating_sub(form.size(0));
                let mut payload = self.fixed(form);
                payload.push(length as u8);
                payload.extend(self.good_text(length));
                payload.truncate(size);
                payload
            }
        };
        vec![Word::Name(form.reader), Word::hex(payload)]
    }

    fn read_marked(&mut self, form: &'static Form) -> Vec<Word> {
        let text = self.marked_text(form);
        self.read(form, text.len() as u8, &text)
    }

    /// Any of: the lengths differ, the length is above the maximum, the text is
    /// bad.
    fn read_faults(&mut self, form: &'static Form) -> Vec<Word> {
        let (differ, long, bad) = (self.rng.chance(60), self.rng.chance(60), self.rng.chance(70));
        let near = self.rng.between(form.most + 1, form.most + 8);
        let far = self.rng.between(form.most + 1, 255);
        let length = match long {
            true => self.rng.pick(&[near, near, far]),
            false => self.rng.between(usize::from(bad), form.most),
        };
        let any = self.rng.between(1, 40);
        let size = match differ {
            true => self.rng.pick(&[length + 1, length.max(2) - 1, any]),
            false => length,
        };
        let mut text = self.good_text(size);
        if bad {
            self.spoil(&mut text);
        }
        self.read(form, length as u8, &text)
    }

    fn write_right(&mut self, form: &'static Form) -> Vec<Word> {
        let size = self.rng.between(0, form.most);
        let room = self.room_for(form, size);
        let text = self.good_text(size);
        self.write(form, room, text)
    }

    /// Enough room, often to the byte.
    fn room_for(&mut self, form: &Form, size: usize) -> usize {
        let need = form.size(size);
        let more = self.rng.between(need, MOST_ROOM.max(need));
        self.rng.pick(&[need, need, need + 1, more, MOST_ROOM])
    }

    /// A long text has more rooms that are too small, so that there are more of these.
    fn write_any_room(&mut self, form: &'static Form) -> Vec<Word> {
        let (any, other) = (self.rng.between(0, form.most), self.rng.between(0, form.most));
        let size = self.rng.pick(&[any, any.max(other)]);
        let room = self.rng.between(0, form.size(size) + 1);
        let text = self.good_text(size);
        self.write(form, room, text)
    }

    /// Above the maximum by one or by far, also so that a byte could not tell.
    fn write_too_long(&mut self, form: &'static Form) -> Vec<Word> {
        let size = match self.rng.below(20) {
            0..=3 => form.most + 1,
            4..=13 => self.rng.between(form.most + 1, MAX_PAYLOAD),
            14..=18 => 256 + self.rng.between(0, form.most),
            _ => self.rng.pick(&[241, 255, 256, 512, HEX_LIMIT, HEX_LIMIT]),
        };
        let room = self.room_for(form, size);
        let text = self.good_text(size);
        self.write(form, room, text)
    }

    fn write_marked(&mut self, form: &'static Form) -> Vec<Word> {
        let text = self.marked_text(form);
        let room = self.room_for(form, text.len());
        self.write(form, room, text)
    }

    /// Any of: the text is too long, it is bad, there is no room for it.
    fn write_faults(&mut self, form: &'static Form) -> Vec<Word> {
        let (long, bad, narrow) = (self.rng.chance(60), self.rng.chance(70), self.rng.chance(70));
        let near = self.rng.between(form.most + 1, form.most + 8);
        let size = match long {
            true => self.rng.pick(&[near, near, 80, 256]),
            false => self.rng.between(usize::from(bad), form.most),
        };
        let need = form.size(size);
        let less = self.rng.below(need);
        let room = match narrow {
            true => self.rng.pick(&[need - 1, less, 0]),
            false => self.room_for(form, size),
        };
        let mut text = self.good_text(size);
        if bad {
            self.spoil(&mut text);
        }
        self.write(form, room, text)
    }
}
