//! Lines that are spelled otherwise than they should be, and lines that may be
//! spelled so.

use super::words::{spelled, Line, Word, DEPTH};
use crate::language::{byte, hex};
use crate::prng::Prng;

/// What is odd about a line. All but the last four make it a bad one.
#[derive(Clone, Copy, Debug, PartialEq, Eq)]
pub enum Oddity {
    AboveField,
    NoNumber,
    MissingWords,
    MoreWords,
    LeadingSpace,
    TrailingSpace,
    DoubledSpace,
    OtherBlank,
    CarriageReturn,
    OddDigits,
    NoDigit,
    TooManyBytes,
    NoCharacter,
    OtherName,
    OtherImage,
    LevelMissing,
    LevelTooMany,
    NumberMissing,
    NumberTooMany,
    MostBytes,
    LeadingZeros,
    LowerCase,
    MixedCase,
}

use Oddity::*;

/// Those of the line as a whole.
pub const OF_LINES: [Oddity; 7] =
    [MoreWords, LeadingSpace, TrailingSpace, DoubledSpace, OtherBlank, CarriageReturn, NoCharacter];
/// Those of its HEX.
pub const OF_HEX: [Oddity; 6] = [OddDigits, NoDigit, TooManyBytes, MostBytes, LowerCase, MixedCase];
/// Those of its numbers, by field.
pub const OF_NUMBERS: [Oddity; 3] = [AboveField, NoNumber, LeadingZeros];

/// Those of a line that has levels.
pub const OF_LEVELS: [Oddity; 4] = [LevelMissing, LevelTooMany, NumberMissing, NumberTooMany];

const ALL: [Oddity; 23] = [
    AboveField,
    NoNumber,
    MissingWords,
    MoreWords,
    LeadingSpace,
    TrailingSpace,
    DoubledSpace,
    OtherBlank,
    CarriageReturn,
    OddDigits,
    NoDigit,
    TooManyBytes,
    NoCharacter,
    OtherName,
    OtherImage,
    LevelMissing,
    LevelTooMany,
    NumberMissing,
    NumberTooMany,
    MostBytes,
    LeadingZeros,
    LowerCase,
    MixedCase,
];

/// Words that are no numbers, however near to one they come.
const NO_NUMBERS: [&str; 14] = [
    "-1", "-0", "+1", "0x10", "1.0", "1e1", "1,0", "1_0", "1'", "A", "x", "\u{0663}", "\u{FF11}",
    "\u{00B2}",
];
/// What stands beside the digits in ASCII, and what looks as if it belonged.
const NO_DIGITS: [u8; 11] = *b"/:@G`gx-_.#";
/// What could be taken for a space.
const BLANKS: [&str; 6] = ["\t", "\0", "\x0B", "\x0C", "\u{A0}", "\r"];
/// Bytes that no line of the program has, alone and in a character.
const NO_CHARACTERS: [&[u8]; 6] =
    [b"\x80", b"\xFF", b"\xC3", b"\xC3\xA9", b"\xEF\xBB\xBF", b"\xA0"];
/// Names that are none here, among them those of the answers and of `replay`.
const OTHER_NAMES: [&str; 16] = [
    "display",
    "diagnostics",
    "plain",
    "un-wrap",
    "wrote",
    "refuse",
    "read",
    "write",
    "frame",
    "turn",
    "setup",
    "readdisplay",
    "stored",
    "network",
    "factory",
    "answer",
];
/// What could be taken for the name of one of the images.
const OTHER_IMAGES: [&str; 9] =
    ["Network", "FACTORY", "net", "networks", "factor", "both", "0", "1", "network-factory"];

impl Oddity {
    pub fn name(self) -> &'static str {
        match self {
            AboveField => "a number above its field",
            NoNumber => "a word that is no number",
            MissingWords => "words are missing",
            MoreWords => "a word too many",
            LeadingSpace => "a space before the first word",
            TrailingSpace => "a space behind the last word",
            DoubledSpace => "two spaces together",
            OtherBlank => "a blank that is no space",
            CarriageReturn => "a carriage return",
            OddDigits => "an odd number of digits",
            NoDigit => "a digit that is none",
            TooManyBytes => "too many bytes of HEX",
            NoCharacter => "a byte above 0x7F",
            OtherName => "a name that is none",
            OtherImage => "an image that is none",
            LevelMissing => "a level is missing",
            LevelTooMany => "a level too many",
            NumberMissing => "a number is missing",
            NumberTooMany => "a number too many",
            MostBytes => "the most bytes of HEX",
            LeadingZeros => "leading zeros",
            LowerCase => "HEX in lower case",
            MixedCase => "HEX in both cases",
        }
    }

    /// Whether the line is a bad one by it.
    pub fn is_bad(self) -> bool {
        ![MostBytes, LeadingZeros, LowerCase, MixedCase].contains(&self)
    }

    /// The name under which it is counted, with the line or its field.
    pub fn named(self, place: &str) -> String {
        format!("{} ({place})", self.name())
    }
}

/// The line with something odd about it; the plain line if that cannot be.
pub fn odd_line(rng: &mut Prng, words: &[Word]) -> Line {
    let (oddity, other) = (rng.pick(&ALL), rng.pick(&ALL));
    let oddity = match oddity {
        // a line with levels has many numbers
        _ if depth_of(words).is_some() && rng.chance(30) => rng.pick(&OF_NUMBERS),
        // very long lines are the fewer, so that scripts stay short
        TooManyBytes | MostBytes => rng.pick(&[oddity, other]),
        _ => oddity,
    };
    line_with(rng, oddity, words)
}

/// The line with something about it that makes it a bad one, but not with too many
/// bytes: those of an image are very many. Any line can be bad by a space too many,
/// so that one is found.
pub fn bad_line(rng: &mut Prng, words: &[Word]) -> Line {
    loop {
        let oddity = rng.pick(&ALL);
        let line = line_with(rng, oddity, words);
        if oddity.is_bad() && oddity != TooManyBytes && line.oddity.is_some() {
            return line;
        }
    }
}

/// The line with this about it; the plain line if that cannot be.
pub fn line_with(rng: &mut Prng, oddity: Oddity, words: &[Word]) -> Line {
    let name = match words.first() {
        Some(Word::Name(name)) => name,
        _ => "",
    };
    let odd = match oddity {
        _ if OF_NUMBERS.contains(&oddity) => return odd_number(rng, oddity, name, words),
        _ if OF_HEX.contains(&oddity) => odd_hex(rng, oddity, words),
        _ if OF_LEVELS.contains(&oddity) => odd_levels(rng, oddity, words),
        MissingWords => cut_words(rng, words),
        OtherName => Some(other_name(rng, name, words)),
        OtherImage => other_image(rng, words),
        _ => odd_text(rng, oddity, words),
    };
    match odd {
        Some(text) => Line::odd(text, oddity.named(name)),
        None => Line::of(words),
    }
}

fn is_number(word: &Word) -> bool {
    matches!(word, Word::Number { .. })
}

fn is_hex(word: &Word) -> bool {
    matches!(word, Word::Hex { .. })
}

/// One of the numbers is spelled otherwise, or another number.
fn odd_number(rng: &mut Prng, oddity: Oddity, name: &str, words: &[Word]) -> Line {
    let places: Vec<usize> = (0..words.len()).filter(|&at| is_number(&words[at])).collect();
    if places.is_empty() {
        return Line::of(words);
    }
    let at = rng.pick(&places);
    let mut texts = spelled(words);
    if let Word::Number { field, value, most } = words[at] {
        texts[at] = match oddity {
            AboveField => above(rng, value, most),
            NoNumber => rng.pick(&NO_NUMBERS).to_string(),
            _ => format!("{}{value}", "0".repeat(rng.pick(&[1, 2, 3, 19, 20, 300]))),
        };
        let place = format!("{name}, {field}");
        return Line::odd(texts.join(" "), oddity.named(&place));
    }
    Line::of(words)
}

/// Just above the field, or a number that would be in it if its high bits were
/// lost.
fn above(rng: &mut Prng, value: u64, most: u64) -> String {
    let (value, most) = (u128::from(value), u128::from(most));
    let lost = [8, 16, 32, 63, 64, 72, 100].map(|bits| value + most + 1 + (1 << bits));
    let beyond = (value + (1 << 16)).max(most + 1);
    let low = [most + 1, most + 2, most + 1 + value, beyond, value + (1 << 64)];
    match rng.below(8) {
        0 => "9".repeat(rng.pick(&[20, 21, 40, 400])),
        1..=3 => rng.pick(&lost).to_string(),
        _ => rng.pick(&low).to_string(),
    }
}

/// The HEX is spelled otherwise, or another HEX.
fn odd_hex(rng: &mut Prng, oddity: Oddity, words: &[Word]) -> Option<Vec<u8>> {
    let (bytes, most, before) = match words.split_last() {
        Some((Word::Hex { bytes, most }, before)) => (bytes, *most, before),
        _ => return None,
    };
    let digits = match oddity {
        TooManyBytes => digits_of(rng, most, &[1, 1, 1, 1, 2, 16, 1024, 3000]),
        MostBytes => digits_of(rng, most, &[0]),
        _ if bytes.is_empty() => return None,
        OddDigits => odd_digits(rng, bytes),
        NoDigit => no_digit(rng, bytes),
        LowerCase => hex(bytes).to_lowercase(),
        _ => both_cases(rng, bytes),
    };
    let odd = digits != hex(bytes);
    odd.then(|| [spelled(before), vec![digits]].concat().join(" ").into_bytes())
}

/// The digits of any bytes, so many more than are allowed.
fn digits_of(rng: &mut Prng, most: usize, beyond: &[usize]) -> String {
    let count = most + rng.pick(beyond);
    hex(&vec![rng.byte(); count])
}

/// One digit is lost, or one is there twice.
fn odd_digits(rng: &mut Prng, bytes: &[u8]) -> String {
    let mut digits = hex(bytes);
    let at = rng.below(digits.len());
    let digit = digits.remove(at);
    if rng.chance(50) {
        digits.insert(at, digit);
        digits.insert(at, digit);
    }
    digits
}

fn no_digit(rng: &mut Prng, bytes: &[u8]) -> String {
    let mut digits = hex(bytes);
    let at = rng.below(digits.len());
    let other = char::from(rng.pick(&NO_DIGITS));
    digits.replace_range(at..=at, &other.to_string());
    digits
}

fn both_cases(rng: &mut Prng, bytes: &[u8]) -> String {
    let mut either = |digit: char| match rng.below(2) {
        0 => digit.to_ascii_lowercase(),
        _ => digit,
    };
    hex(bytes).chars().map(&mut either).collect()
}

/// The name and not all that it needs; the HEX may be left out anyway.
fn cut_words(rng: &mut Prng, words: &[Word]) -> Option<Vec<u8>> {
    let needed = words[1..].iter().filter(|word| !is_hex(word)).count();
    let keep = 1 + rng.below(needed);
    (needed > 0).then(|| spelled(&words[..keep]).join(" ").into_bytes())
}

/// Where among the words DEPTH stands, and what it says, if the line has levels.
fn depth_of(words: &[Word]) -> Option<(usize, u64)> {
    words.iter().enumerate().find_map(|(at, word)| match word {
        Word::Number { field, value, .. } if *field == DEPTH => Some((at, *value)),
        _ => None,
    })
}

/// Levels and DEPTH do not agree, or a number is missing or too many.
fn odd_levels(rng: &mut Prng, oddity: Oddity, words: &[Word]) -> Option<Vec<u8>> {
    let (at, depth) = depth_of(words)?;
    let mut texts = spelled(words);
    match oddity {
        LevelMissing => lack_level(rng, &mut texts, at, depth),
        LevelTooMany => add_level(rng, &mut texts, at, depth),
        _ => shift_numbers(rng, oddity, words, &mut texts)?,
    }
    Some(texts.join(" ").into_bytes())
}

/// A level is left out, or DEPTH is higher: by one, by what high bits hold, or so
/// that its five numbers a level are more than sixty-four bits hold.
fn lack_level(rng: &mut Prng, texts: &mut Vec<String>, at: usize, depth: u64) {
    if depth > 0 && rng.chance(50) {
        let level = at + 1 + 5 * rng.below(depth as usize);
        texts.drain(level..level + 5);
        return;
    }
    let more = [1, 1, 1 << 8, 1 << 16, 1 << 32, 1 << 63, u64::MAX / 5 + 1, u64::MAX - depth];
    texts[at] = (depth + rng.pick(&more)).to_string();
}

/// DEPTH is lower by one, or there is a level more than it says.
fn add_level(rng: &mut Prng, texts: &mut Vec<String>, at: usize, depth: u64) {
    if depth > 0 && rng.chance(50) {
        texts[at] = (depth - 1).to_string();
        return;
    }
    let level = ["1", "2", "3", "4", "5"].map(String::from);
    texts.splice(at + 1..at + 1, level);
}

/// All numbers from some place on stand one place off. That is only odd if there is
/// a HEX that a number too many does not stand for, and if this HEX does not stand
/// for the number that is missing.
fn shift_numbers(
    rng: &mut Prng,
    oddity: Oddity,
    words: &[Word],
    texts: &mut Vec<String>,
) -> Option<()> {
    let numbers = words.iter().filter(|word| is_number(word)).count();
    let place = rng.between(1, numbers);
    let digits = texts.get(numbers + 1).map(String::as_str);
    match oddity {
        NumberTooMany => {
            digits?;
            texts.insert(place, rng.byte().to_string());
        }
        _ if digits.and_then(byte).is_some() => return None,
        _ => {
            texts.remove(place);
        }
    }
    Some(())
}

fn other_name(rng: &mut Prng, name: &str, words: &[Word]) -> Vec<u8> {
    let other = match rng.below(8) {
        0 => name.to_uppercase(),
        1 => name[..name.len() - 1].to_string(),
        3 if name.contains('-') => name.replace('-', "_"),
        4 if name.contains('-') => name.replace('-', " "),
        2..=4 => format!("{name}s"),
        5 => name[1..].to_string(),
        _ => rng.pick(&OTHER_NAMES).to_string(),
    };
    [vec![other], spelled(&words[1..])].concat().join(" ").into_bytes()
}

/// The name of the image is another, or is left out.
fn other_image(rng: &mut Prng, words: &[Word]) -> Option<Vec<u8>> {
    let (line, rest) = match words {
        [line, Word::Name(_), rest @ ..] => (line, rest),
        _ => return None,
    };
    let mut texts = spelled(std::slice::from_ref(line));
    if rng.chance(80) {
        texts.push(rng.pick(&OTHER_IMAGES).to_string());
    }
    texts.extend(spelled(rest));
    Some(texts.join(" ").into_bytes())
}

/// Something is put into the line, or in the place of one of its spaces.
fn odd_text(rng: &mut Prng, oddity: Oddity, words: &[Word]) -> Option<Vec<u8>> {
    let text = spelled(words).join(" ").into_bytes();
    // nothing may follow, not even HEX
    let complete = !matches!(words.last(), Some(Word::Hex { bytes, .. }) if bytes.is_empty());
    let (anywhere, end) = (rng.below(text.len() + 1), text.len());
    let put = |at: usize, what: &[u8]| Some([&text[..at], what, &text[at..]].concat());
    match oddity {
        LeadingSpace => put(0, b" "),
        TrailingSpace => put(end, b" "),
        CarriageReturn => put(rng.pick(&[end, end, anywhere]), b"\r"),
        NoCharacter => put(anywhere, rng.pick(&NO_CHARACTERS)),
        MoreWords if complete => {
            put(end, rng.pick(&[" 00", " 0", " 41", " x", " # text", " read-display"]).as_bytes())
        }
        MoreWords => put(end, b" 41 42"),
        _ => {
            let spaces: Vec<usize> = (0..end).filter(|&at| text[at] == b' ').collect();
            let at = *spaces.get(rng.below(spaces.len()))?;
            let blank = if oddity == DoubledSpace { "  " } else { rng.pick(&BLANKS) };
            Some([&text[..at], blank.as_bytes(), &text[at + 1..]].concat())
        }
    }
}

#[cfg(test)]
mod tests {
    use super::*;
    use crate::payloads::play_all;

    fn lines() -> Vec<Vec<Word>> {
        let (hex, none) = (Word::hex(vec![0x5A, 0x00]), Word::hex(Vec::new()));
        let mut lines = vec![
            vec![Word::Name("read-display"), hex.clone()],
            vec![Word::Name("read-diagnostics"), none.clone()],
            vec![Word::Name("write-display"), Word::room(64), Word::byte("TYPE", 5), hex.clone()],
            vec![Word::Name("write-display"), Word::room(64), Word::byte("TYPE", 5), none.clone()],
            vec![Word::Name("unwrap"), Word::byte("SUBNET", 5), hex.clone()],
            vec![Word::Name("unwrap"), Word::byte("SUBNET", 5), none.clone()],
            vec![Word::Name("store"), Word::byte("SECTOR", 5), hex.clone()],
            vec![Word::Name("store"), Word::byte("SECTOR", 5), none.clone()],
            vec![Word::Name("fetch"), Word::byte("SECTOR", 5)],
            vec![Word::Name("write-answer"), Word::room(64), Word::byte("SECTOR", 5)],
            vec![Word::Name("image"), Word::Name("network"), Word::image(vec![0x5A, 0x00])],
            vec![Word::Name("image"), Word::Name("factory"), Word::image(Vec::new())],
        ];
        // such HEX as could be a number, too
        for hex in [hex, none, Word::hex(vec![0x00, 0x12]), Word::hex(vec![0x12])] {
            lines.extend((0..=6).map(|depth| wrap(depth, hex.clone())));
        }
        lines
    }

    /// Of the numbers before DEPTH many are what a depth could be.
    fn wrap(depth: usize, hex: Word) -> Vec<Word> {
        let bytes = |count: usize| (0..count).map(|value| Word::byte("", value as u8 % 7));
        let mut words = vec![Word::Name("wrap"), Word::room(64)];
        words.extend(bytes(7));
        words.push(Word::depth(depth));
        words.extend(bytes(5 * depth + 2));
        words.push(hex);
        words
    }

    #[test]
    fn a_line_is_bad_by_what_makes_it_bad_and_by_nothing_else() {
        let bad: Vec<String> =
            ALL.iter().filter(|odd| odd.is_bad()).map(|o| o.name().into()).collect();
        let mut rng = Prng::new(4);
        for words in lines() {
            for _ in 0..3000 {
                let line = odd_line(&mut rng, &words);
                let oddity = line.oddity.clone().unwrap_or_default();
                let expected = bad.iter().any(|name| oddity.starts_with(name));
                let answer = play_all(&line.text);
                let text = String::from_utf8_lossy(&line.text).into_owned();
                assert_eq!(answer == "bad line 1\n", expected, "{oddity}: {text}: {answer}");
            }
        }
    }

    /// Every line can be made a bad one, without very many bytes.
    #[test]
    fn a_bad_line_is_bad_and_not_very_long() {
        let mut rng = Prng::new(6);
        for words in lines() {
            for _ in 0..200 {
                let line = bad_line(&mut rng, &words);
                assert_eq!(play_all(&line.text), "bad line 1\n");
                assert!(line.text.len() < 1000 && line.oddity.is_some());
            }
        }
    }

    #[test]
    fn a_line_that_is_not_odd_is_the_plain_one() {
        let mut rng = Prng::new(5);
        for words in lines() {
            let plain = Line::of(&words);
            for _ in 0..3000 {
                let line = odd_line(&mut rng, &words);
                assert_eq!(line.oddity.is_none(), line.text == plain.text);
            }
        }
    }
}
