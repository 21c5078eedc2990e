//! Series of lines of C-16: each begins with images of its own, or goes on with those
//! that are there.

use super::images::{image, other_size};
use super::oddities::{bad_line, line_with, Oddity};
use super::words::{Line, Word};
use super::Generator;
use crate::language::IMAGE_LIMIT;
use crate::prng::Prng;
use crate::shared::{Source, IMAGE, SLOT, SOURCES};

pub const IMAGE_LINE: &str = "image";

/// The image lines of a script have at most so many digits together, some ten lines,
/// so that the script stays below its limit; what follows them goes on with the
/// images that are there.
const MOST_DIGITS: usize = 165_000;
/// Of a hundred series so many have images of other sizes first.
const OTHER_SIZES: usize = 50;
/// Of a hundred series so many fill the network's copy up.
const FILLING: usize = 30;
/// Of a hundred lines of C-16 so many are an image line that is bad, with few digits.
const BAD_IMAGES: usize = 2;

/// A part of a series.
enum Act {
    Set(Source, Vec<u8>),
    /// So many lines are played on the images that are set.
    Play(usize),
}

#[derive(Default)]
pub struct Series {
    /// What is to come, the next last.
    acts: Vec<Act>,
    /// The digits of all image lines so far.
    digits: usize,
    /// Whether most records that are stored have a new sector.
    pub filling: bool,
    /// Sectors that the lines come back to.
    pub favourites: [u8; 4],
    /// The sector of the line before.
    pub last: u8,
}

impl Generator {
    /// The next line of C-16, if it is one that sets an image, or that is bad and would
    /// set one.
    pub(super) fn image_line(&mut self) -> Option<Line> {
        if self.series.acts.is_empty() {
            self.begin_series();
        }
        match self.series.acts.pop() {
            Some(Act::Set(source, bytes)) => Some(self.set_image(source, bytes)),
            Some(Act::Play(lines)) => {
                if lines > 1 {
                    self.series.acts.push(Act::Play(lines - 1));
                }
                self.rng.chance(BAD_IMAGES).then(|| self.bad_image())
            }
            None => None,
        }
    }

    /// Images of other sizes, perhaps, with a few lines; then images of the right
    /// size, so that there is no other at the end, and many lines. Where the digits
    /// are used up, the lines alone.
    fn begin_series(&mut self) {
        let sources = self.sources();
        let mut acts = Vec::new();
        if self.rng.chance(OTHER_SIZES) {
            acts.extend(sources.iter().map(|source| self.act(*source, other_size)));
            acts.push(Act::Play(self.rng.between(4, 12)));
        }
        acts.extend(sources.iter().map(|source| self.act(*source, image)));
        let digits = self.series.digits + acts.iter().map(Act::digits).sum::<usize>();
        match digits > MOST_DIGITS {
            true => acts.clear(),
            false => self.series.digits = digits,
        }
        acts.push(Act::Play(self.rng.between(40, 68)));
        acts.reverse();
        self.series.acts = acts;
        self.series.filling = self.rng.chance(FILLING);
        self.series.favourites = [(); 4].map(|()| self.rng.byte());
    }

    /// Which images are set: those that have another size, or any.
    fn sources(&mut self) -> Vec<Source> {
        let images = &self.player.images;
        let other = |source: &Source| images.of(*source).len() != IMAGE;
        let others: Vec<Source> = SOURCES.into_iter().filter(other).collect();
        match self.rng.below(100) {
            _ if !others.is_empty() => others,
            0..=54 => vec![Source::Network],
            55..=89 => vec![Source::Factory],
            _ => SOURCES.to_vec(),
        }
    }

    /// Sets an image that is made from the one before.
    fn act(&mut self, source: Source, make: fn(&mut Prng, &[u8]) -> Vec<u8>) -> Act {
        Act::Set(source, make(&mut self.rng, self.player.images.of(source)))
    }

    fn set_image(&mut self, source: Source, bytes: Vec<u8>) -> Line {
        let size = bytes.len();
        let words = image_words(source, bytes);
        let oddity = match self.rng.below(100) {
            _ if size > IMAGE_LIMIT => Oddity::TooManyBytes,
            _ if size == IMAGE_LIMIT => Oddity::MostBytes,
            0..=11 => return line_with(&mut self.rng, Oddity::LowerCase, &words),
            12..=23 => return line_with(&mut self.rng, Oddity::MixedCase, &words),
            _ => return Line::of(&words),
        };
        Line { oddity: Some(oddity.named(IMAGE_LINE)), ..Line::of(&words) }
    }

    /// The bytes would change the first slots, or make the image one of another size.
    fn bad_image(&mut self) -> Line {
        let source = self.rng.pick(&SOURCES);
        let few = self.rng.between(1, 8);
        let size = self.rng.pick(&[few, few, SLOT, 3 * SLOT]);
        let byte = self.rng.byte();
        let noise = self.rng.bytes(size);
        let bytes = if self.rng.chance(50) { noise } else { vec![byte; size] };
        bad_line(&mut self.rng, &image_words(source, bytes))
    }
}

impl Act {
    /// The digits of its line.
    fn digits(&self) -> usize {
        match self {
            Act::Set(_, bytes) => 2 * bytes.len(),
            Act::Play(_) => 0,
        }
    }
}

fn image_words(source: Source, bytes: Vec<u8>) -> Vec<Word> {
    vec![Word::Name(IMAGE_LINE), Word::Name(source.name()), Word::image(bytes)]
}
