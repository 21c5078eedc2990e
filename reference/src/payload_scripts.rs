//! Seeded scripts for the program `payloads`. The generator plays its own copy of
//! the program, so that it can read what was just written and knows what the images
//! of shared data have.

mod images;
mod nest;
mod oddities;
mod opening;
mod sectors;
mod series;
mod texts;
mod unwraps;
mod words;
mod wraps;

pub use oddities::{Oddity, OF_HEX, OF_LEVELS, OF_LINES, OF_NUMBERS};
pub use series::IMAGE_LINE;
pub use words::{Line, DEPTH};
pub use wraps::{HEADER_FIELDS, INSIDE_FIELDS, LEVEL_FIELDS};

use crate::forms::{Form, FORMS};
use crate::language::SCRIPT_LIMIT;
use crate::payload_coverage::{self, PayloadCoverage};
use crate::payloads::Player;
use crate::prng::Prng;
use opening::OPENING;
use series::Series;
use words::Word;

/// Of a hundred payloads and frames that were written, so many are read next.
const READ_BACK: usize = 40;
/// Of a hundred other lines so many are of C-16.
const SHARED: usize = 14;
/// Of a hundred of those that are not so many are of C-21, the others of C-22.
const NESTS: usize = 40;
/// Of a hundred lines of C-21 so many unwrap.
const UNWRAPS: usize = 65;
/// Of a hundred lines so many are odd; those of C-22 have few words, so that fewer of
/// them will do.
const ODD: usize = 12;
const ODD_TEXTS: usize = 9;
/// A script of at most so many lines, but for those that fill it up, stays below
/// the 1 MiB that the program plays. A line of C-22 has some 170 bytes, one of C-21,
/// with a frame in it, some 275, one of C-16 some 100, and the images of a script have
/// some 160,000 digits: so that a script has some 940,000, and what is left is for one
/// that happens to have many lines of the longest.
pub const SCRIPT_LINES: usize = 4000;
/// So many scripts of the first seeds reach all that has to be reached.
#[cfg(test)]
const GATE_SCRIPTS: u64 = 100;
/// The comments that fill a script up to its limit.
const FILLING: usize = 60_000;

/// The names of what is odd about a line by its place.
pub const CUT: &str = "a line cut at the limit";
pub const ENDS_AT_LIMIT: &str = "a line that ends at the limit";
pub const FEED_AT_LIMIT: &str = "a line feed at the limit";
pub const OPEN_END: &str = "a last line without a line feed";

/// What a line wrote: the payload of a message, or a whole frame.
enum Written {
    Payload(&'static Form, Vec<u8>),
    Frame(Vec<u8>),
}

struct Generator {
    rng: Prng,
    player: Player,
    /// What the last line wrote.
    written: Option<Written>,
    series: Series,
    text: Vec<u8>,
    coverage: PayloadCoverage,
}

/// A script of so many lines and what it reaches. Of sixteen seeds one after
/// another four have a script that is filled up to the limit and goes beyond it,
/// and six one whose last line is not ended.
pub fn script(seed: u64, count: usize) -> (Vec<u8>, PayloadCoverage) {
    let mut generator = Generator {
        rng: Prng::new(seed),
        player: Player::default(),
        written: None,
        series: Series::default(),
        text: Vec::new(),
        coverage: PayloadCoverage::default(),
    };
    generator.run(count);
    match seed % 16 {
        place @ 1..=4 if count > 0 => generator.go_beyond(place),
        6 | 8 | 10 | 12 | 14 | 0 if count > 0 => generator.leave_open(),
        _ => (),
    }
    generator.coverage.end_script(generator.text.len());
    (generator.text, generator.coverage)
}

impl Generator {
    fn run(&mut self, count: usize) {
        for line in OPENING.iter().take(count) {
            self.emit(Line::plain(*line));
        }
        for _ in OPENING.len()..count {
            let line = self.next_line();
            self.emit(line);
        }
    }

    /// Plays a line as far as the limit lets it be seen, counts that, and puts the
    /// whole into the script.
    fn emit(&mut self, line: Line) {
        let left = SCRIPT_LIMIT.saturating_sub(self.text.len());
        let seen = line.text[..line.text.len().min(left)].to_vec();
        self.text.extend(line.text);
        self.text.push(b'\n');
        if left == 0 {
            self.coverage.note_past_limit();
            return;
        }
        let answer = self.player.play(&seen);
        self.written = answer.as_deref().and_then(|answer| written(&seen, answer));
        self.coverage.note(&Line { text: seen, oddity: line.oddity }, answer.as_deref());
    }

    fn next_line(&mut self) -> Line {
        if let Some(words) = self.words_back() {
            return Line::of(&words);
        }
        let (words, odd) = match self.rng.chance(SHARED) {
            true => match self.image_line() {
                Some(line) => return line,
                None => (self.sector_words(), ODD),
            },
            false if self.rng.chance(NESTS) => (self.nest_words(), ODD),
            false => (self.text_words(), ODD_TEXTS),
        };
        match self.rng.below(100) {
            draw if draw < odd => oddities::odd_line(&mut self.rng, &words),
            99 => self.passed_over(),
            _ => Line::of(&words),
        }
    }

    /// What the last line wrote is often read.
    fn words_back(&mut self) -> Option<Vec<Word>> {
        let written = self.written.take()?;
        self.rng.chance(READ_BACK).then(|| match written {
            Written::Payload(form, payload) => self.read_back(form, payload),
            Written::Frame(frame) => self.unwrap_back(frame),
        })
    }

    fn nest_words(&mut self) -> Vec<Word> {
        match self.rng.chance(UNWRAPS) {
            true => self.unwrap_words(),
            false => self.wrap_words(),
        }
    }

    /// An empty line, or a comment, which may hold any bytes.
    fn passed_over(&mut self) -> Line {
        let count = self.rng.below(40);
        let mut noise = self.rng.bytes(count);
        noise.retain(|&byte| byte != b'\n');
        match self.rng.below(4) {
            0 => Line::plain(""),
            1 => Line::plain("#read-display 0500"),
            2 => Line::plain("#\r"),
            _ => Line::plain([b"#", &noise[..]].concat()),
        }
    }

    /// Fills the script up to where it is not played any more, so that the limit
    /// cuts a line that is good without its end, or bad without it, or comes
    /// before or behind the line feed of a line.
    fn go_beyond(&mut self, place: u64) {
        let (line, longer) = ("read-display 07024142", "read-display 070241424344");
        let (name, line, seen) = match place {
            1 => (CUT, longer, line.len()),
            2 => (CUT, longer, line.len() + 1),
            3 => (ENDS_AT_LIMIT, line, line.len()),
            _ => (FEED_AT_LIMIT, line, line.len() + 1),
        };
        while self.text.len() + seen < SCRIPT_LIMIT {
            let size = FILLING.min(SCRIPT_LIMIT - seen - self.text.len()) - 1;
            self.emit(Line::plain(vec![b'#'; size]));
        }
        self.emit(Line::odd(line, name));
        self.emit(Line::plain("read-display 0500"));
    }

    /// The last line has no line feed.
    fn leave_open(&mut self) {
        self.emit(Line::odd("read-display 07024142", OPEN_END));
        self.text.pop();
    }
}

/// What this line wrote, by its answer, if there is a line that reads it.
fn written(line: &[u8], answer: &str) -> Option<Written> {
    let bytes = payload_coverage::written(answer)?;
    match FORMS.iter().find(|form| line.starts_with(form.writer.as_bytes())) {
        Some(form) => Some(Written::Payload(form, bytes)),
        None if line.starts_with(b"wrap") => Some(Written::Frame(bytes)),
        None => None,
    }
}

#[cfg(test)]
mod tests {
    use super::*;
    use crate::payloads;

    fn lines(text: &[u8]) -> usize {
        text.iter().filter(|&&byte| byte == b'\n').count()
    }

    #[test]
    fn scripts_have_the_lines_asked_for_and_are_the_same_again() {
        for count in [0, 1, OPENING.len(), OPENING.len() + 1, 500] {
            let (text, coverage) = script(5, count);
            assert_eq!((lines(&text), coverage.lines()), (count, count as u64));
            assert_eq!(text, script(5, count).0);
        }
    }

    #[test]
    fn scripts_stay_below_the_limit_or_go_beyond_it_as_they_should() {
        for seed in 1..=32 {
            let (text, coverage) = script(seed, SCRIPT_LINES);
            let beyond = (1..=4).contains(&(seed % 16));
            assert_eq!(text.len() > SCRIPT_LIMIT, beyond, "{seed}: {}", text.len());
            let open = seed % 2 == 0 && !beyond && text.last() != Some(&b'\n');
            assert_eq!(lines(&text) == SCRIPT_LINES, !beyond, "{seed}");
            assert_eq!(open, seed % 2 == 0 && !beyond, "{seed}");
            let answers = payloads::play_all(&text).lines().count() as u64;
            assert_eq!(answers, coverage.answers(), "{seed}");
        }
    }

    #[test]
    fn all_that_has_to_be_reached_is_reached() {
        let mut whole = PayloadCoverage::default();
        for seed in 1..=GATE_SCRIPTS {
            whole.add(&script(seed, SCRIPT_LINES).1);
        }
        assert_eq!(whole.missing(), Vec::<String>::new());
    }
}
