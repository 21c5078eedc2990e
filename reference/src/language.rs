//! What the programs that play a script have in common: its lines, words,
//! numbers and HEX, and the answers that each of them gives (design 7).

use crate::refusal::Refusal;
use std::fmt::Write as _;
use std::io::{self, Read, Write as _};

/// Design 7: up to 1 MiB of script.
pub const SCRIPT_LIMIT: usize = 1 << 20;
/// Design 7: ROOM is 0 to 1,024, and HEX has up to 1,024 bytes.
pub const ROOM_LIMIT: u64 = 1024;
pub const HEX_LIMIT: usize = 1024;
/// C-16: an image has up to 16,384 bytes, so that other sizes can be tried.
pub const IMAGE_LIMIT: usize = 16_384;

/// Numbers the lines of a script: all of them are counted.
#[derive(Default)]
pub struct Lines {
    last: usize,
}

impl Lines {
    /// The answer to the next line: none if it is empty or a comment, else what
    /// `play` makes of its words, which is none if they are none of its lines.
    /// Words are separated by one space; two together leave an empty word, which
    /// no field takes.
    pub fn answer(
        &mut self,
        line: &[u8],
        play: impl FnOnce(&[&str]) -> Option<String>,
    ) -> Option<String> {
        self.last += 1;
        if line.is_empty() || line[0] == b'#' {
            return None;
        }
        let text = std::str::from_utf8(line).ok();
        let words: Option<Vec<&str>> = text.map(|text| text.split(' ').collect());
        let answer = words.and_then(|words| play(&words));
        Some(answer.unwrap_or_else(|| format!("bad line {}", self.last)))
    }
}

/// Plays a whole script; each answer ends its line.
pub fn play_all(script: &[u8], mut play: impl FnMut(&[u8]) -> Option<String>) -> String {
    let script = &script[..script.len().min(SCRIPT_LIMIT)];
    let mut text = String::new();
    for line in script.split(|&byte| byte == b'\n') {
        if let Some(answer) = play(line) {
            text.push_str(&answer);
            text.push('\n');
        }
    }
    text
}

/// Plays the script on standard input and writes the answers.
pub fn play_input(play_all: fn(&[u8]) -> String) -> io::Result<()> {
    let mut input = Vec::new();
    io::stdin().lock().take(SCRIPT_LIMIT as u64).read_to_end(&mut input)?;
    io::stdout().write_all(play_all(&input).as_bytes())
}

/// A decimal number of at most 64 bits: digits only, leading zeros allowed.
pub fn number(word: &str) -> Option<u64> {
    let digits = word.bytes().all(|byte| byte.is_ascii_digit());
    if digits {
        word.parse().ok()
    } else {
        None
    }
}

pub fn byte(word: &str) -> Option<u8> {
    number(word).and_then(|value| u8::try_from(value).ok())
}

pub fn room(word: &str) -> Option<usize> {
    number(word).filter(|&value| value <= ROOM_LIMIT).map(|value| value as usize)
}

/// Pairs of hex digits of either case, 1 to 1,024 of them.
pub fn pairs(word: &str) -> Option<Vec<u8>> {
    pairs_up_to(word, HEX_LIMIT)
}

fn pairs_up_to(word: &str, most: usize) -> Option<Vec<u8>> {
    let fits = !word.is_empty() && word.len() % 2 == 0 && word.len() <= 2 * most;
    if !fits {
        return None;
    }
    word.as_bytes().chunks(2).map(pair).collect()
}

fn pair(digits: &[u8]) -> Option<u8> {
    let high = char::from(digits[0]).to_digit(16)?;
    let low = char::from(digits[1]).to_digit(16)?;
    Some((16 * high + low) as u8)
}

/// The HEX that ends a line, of up to 1,024 bytes; where there is none, it is no
/// bytes.
pub fn last_pairs(words: &[&str]) -> Option<Vec<u8>> {
    last_pairs_up_to(words, HEX_LIMIT)
}

/// The same of up to `most` bytes.
pub fn last_pairs_up_to(words: &[&str], most: usize) -> Option<Vec<u8>> {
    match words {
        [] => Some(Vec::new()),
        [word] => pairs_up_to(word, most),
        _ => None,
    }
}

/// Upper case, two digits a byte.
pub fn hex(bytes: &[u8]) -> String {
    let mut text = String::with_capacity(2 * bytes.len());
    for byte in bytes {
        write!(text, "{byte:02X}").expect("writing to a string");
    }
    text
}

/// COUNT HEX, or the 0 alone.
pub fn counted(bytes: &[u8]) -> String {
    if bytes.is_empty() {
        return "0".to_string();
    }
    format!("{} {}", bytes.len(), hex(bytes))
}

pub fn refused(refusal: Refusal) -> String {
    format!("refuse {}", refusal.number())
}

#[cfg(test)]
mod tests {
    use super::*;

    #[test]
    fn numbers_are_digits_that_fit_their_field() {
        assert_eq!([byte("0"), byte("255"), byte("0255")], [Some(0), Some(255), Some(255)]);
        assert_eq!(byte(&"0".repeat(300)), Some(0));
        assert_eq!([room("1024"), room("1025")], [Some(1024), None]);
        assert_eq!(number("18446744073709551615"), Some(u64::MAX));
        assert_eq!(number("18446744073709551616"), None);
        for word in ["", "256", "-1", "+1", "0x1", "1.0", "1e1", "\u{0663}", "1\r"] {
            assert_eq!(byte(word), None, "{word}");
        }
    }

    #[test]
    fn hex_is_pairs_of_digits_of_either_case() {
        assert_eq!(pairs("00aAFf"), Some(vec![0, 0xAA, 0xFF]));
        assert_eq!(pairs(&"41".repeat(1024)).map(|bytes| bytes.len()), Some(1024));
        assert_eq!(pairs(&"41".repeat(1025)), None);
        for word in ["", "0", "000", "0G", "g0", "/0", ":0", "@0", "`0", "0x", "\u{E9}"] {
            assert_eq!(pairs(word), None, "{word}");
        }
    }

    #[test]
    fn hex_that_is_left_out_is_no_bytes() {
        assert_eq!(last_pairs(&[]), Some(Vec::new()));
        assert_eq!(last_pairs(&["41"]), Some(vec![0x41]));
        assert_eq!((last_pairs(&[""]), last_pairs(&["41", "42"])), (None, None));
        assert_eq!(last_pairs_up_to(&["4142"], 2), Some(vec![0x41, 0x42]));
        assert_eq!(
            (last_pairs_up_to(&["414243"], 2), last_pairs_up_to(&[], 2)),
            (None, Some(vec![]))
        );
        assert_eq!((counted(&[]), counted(&[0x0A, 0xB0])), ("0".into(), "2 0AB0".into()));
    }

    #[test]
    fn every_line_is_counted_and_what_is_past_the_limit_is_not_played() {
        let mut lines = Lines::default();
        let mut play = |line: &[u8]| lines.answer(line, |_| None);
        assert_eq!(play_all(b"a\n\n#b\nc", &mut play), "bad line 1\nbad line 4\n");
        let long = [&vec![b'#'; SCRIPT_LIMIT - 2][..], b"\nab\nc\n"].concat();
        let heard = play_all(&long, |line| Some(line.len().to_string()));
        assert_eq!(heard, format!("{}\n1\n", SCRIPT_LIMIT - 2));
    }
}
