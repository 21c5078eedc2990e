//! Lines that play no step: tables, comments, bad lines, and lines that can be
//! read in two ways.

use super::Generator;
use crate::language::hex;
use crate::line::Line;

const BAD_LINES: [&str; 43] = [
    "turn",
    "turn 1025",
    "turn -1",
    "turn +5",
    "turn 0x40",
    "turn  64",
    " turn 64",
    "Turn 64",
    "turn 64 64",
    "turn 99999999999999999999999999",
    "join 256 5 5 2",
    "join 5 18446744073709551616 1 2",
    "join 5 1 18446744073709551616 2",
    "join 5 1",
    "join 5 1 1",
    "join 5 1 1 256",
    "join 5 1 1 2 2",
    "join 5 1 1 1.0",
    "join 5 1 1 -1",
    "join -5 1 1 2",
    "discover",
    "discover 1025",
    "discover 64 00",
    "discover  64",
    "Discover 64",
    "frame",
    "frame 1025 00",
    "frame 64 0",
    "frame 64 0G",
    "frame -1 00",
    "frame x 00",
    "quiet now",
    "quiets",
    "table 1",
    "setup",
    "setup 3 1 5",
    "setup 256 1 5 5 16",
    "setup 3 256 5 5 16",
    "setup 3 1 18446744073709551616 5 16",
    "setup 3 1 5 5 256",
    "setup 3 1 5 5 16 x",
    "hello",
    "?",
];

impl Generator<'_> {
    /// A line that leaves the panel as it is.
    pub(super) fn oddity(&mut self) -> Line {
        match self.rng.below(10) {
            0..=3 => Line::plain("table"),
            4 => Line::plain(""),
            5 => Line::plain("# a comment, turn 64"),
            6 => self.refused_setup(),
            _ => self.bad_line(),
        }
    }

    pub(super) fn bad_line(&mut self) -> Line {
        let odd_hex = hex(&self.rng.bytes(8));
        Line::plain(match self.rng.below(BAD_LINES.len() + 1) {
            0 => format!("frame 64 {}", &odd_hex[1..]),
            place => BAD_LINES[place - 1].to_string(),
        })
    }
}

/// Lines that can be read in two ways, each where neither reading changes the
/// panel, with the reading taken here as a comment before it.
pub fn doubtful() -> String {
    let too_long = format!("frame 64 {}", "AA".repeat(1025));
    let cases: [(&str, &str); 12] = [
        ("table before a setup: listed 0", "table"),
        ("a setup without addresses: 21", "setup 3 1 5 6"),
        ("a setup of 300 addresses: 21", &format!("setup 3 1 5 6{}", " 1".repeat(300))),
        ("(a setup for the lines below)", "setup 3 1 5 6 16"),
        ("leading zeros are decimal: 19", "turn 0064"),
        ("many leading zeros: 19", "turn 000000000000000000000000064"),
        ("a space at the end: bad line", "frame 64 "),
        ("bytes in words of their own: bad line", "frame 64 AA BB"),
        ("lower case digits: 1", "frame 64 aabbcc"),
        ("over 1,024 bytes: bad line", &too_long),
        ("a carriage return at the end: bad line", "quiet\r"),
        ("a comment after a space: bad line", " # text"),
    ];
    cases.iter().map(|(reading, line)| format!("# {reading}\n{line}\n")).collect()
}

#[cfg(test)]
mod tests {
    use super::*;
    use crate::script::play_all;

    #[test]
    fn doubtful_lines_are_read_as_decided() {
        let answers = play_all(doubtful().as_bytes());
        let expected = [
            "listed 0",
            "refuse 21",
            "refuse 21",
            "ready 1",
            "refuse 19",
            "refuse 19",
            "bad line 14",
            "bad line 16",
            "refuse 1",
            "bad line 20",
            "bad line 22",
            "bad line 24",
        ];
        assert_eq!(answers.lines().collect::<Vec<_>>(), expected);
    }

    #[test]
    fn bad_lines_are_bad() {
        for line in BAD_LINES {
            assert_eq!(play_all(line.as_bytes()), "bad line 1\n", "{line}");
        }
    }
}
