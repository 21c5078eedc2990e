//! The program `payloads`: it plays readers and writers of payloads, and the store of
//! shared data, from text, in the language of `replay` (C-16, C-21 and C-22).

mod command;

pub use command::{parse, Command, Inside};

use crate::display::{self, Diagnostics, Display};
use crate::encapsulation::{self, Level, Message, Unwrapped};
use crate::images::Images;
use crate::language::{self, counted, refused, Lines};
use crate::refusal::Refusal;
use crate::shared::Held;

/// Plays a script line by line.
#[derive(Default)]
pub struct Player {
    pub images: Images,
    lines: Lines,
}

impl Player {
    /// The answer to the next line, or none for an empty line or a comment.
    pub fn play(&mut self, line: &[u8]) -> Option<String> {
        let images = &mut self.images;
        self.lines.answer(line, |words| parse(words).map(|command| run(images, command)))
    }
}

/// Plays a whole script; each answer ends its line.
pub fn play_all(script: &[u8]) -> String {
    let mut player = Player::default();
    language::play_all(script, |line| player.play(line))
}

fn run(images: &mut Images, command: Command) -> String {
    let answer = match command {
        Command::ReadDisplay { payload } => display::read_display(&payload).map(tell_display),
        Command::WriteDisplay { room, node_type, text } => {
            let display = Display { node_type, text: &text };
            wrote(room, |out| display::write_display(&display, out))
        }
        Command::ReadDiagnostics { payload } => {
            display::read_diagnostics(&payload).map(tell_diagnostics)
        }
        Command::WriteDiagnostics { room, node_type, major, minor, text } => {
            let fault = Diagnostics { node_type, major, minor, text: &text };
            wrote(room, |out| display::write_diagnostics(&fault, out))
        }
        Command::Unwrap { subnet, frame } => {
            encapsulation::unwrap(&frame, subnet).map(tell_unwrapped)
        }
        Command::Wrap { room, header, levels, inside } => {
            wrote(room, |out| encapsulation::wrap(&header, &levels, &inside.message(), out))
        }
        Command::Image { source, bytes } => {
            let count = bytes.len();
            images.set(source, bytes);
            Ok(format!("image {count}"))
        }
        Command::Store { sector, record } => {
            images.store(sector, &record).map(|slot| format!("stored {slot}"))
        }
        Command::Fetch { sector } => images.fetch(sector).map(tell_held),
        Command::WriteAnswer { room, sector } => {
            wrote(room, |out| images.write_answer(sector, out))
        }
    };
    answer.unwrap_or_else(refused)
}

fn tell_display(display: Display<'_>) -> String {
    format!("display {} {}", display.node_type, counted(display.text))
}

fn tell_diagnostics(fault: Diagnostics<'_>) -> String {
    let Diagnostics { node_type, major, minor, text } = fault;
    format!("diagnostics {node_type} {major} {minor} {}", counted(text))
}

fn tell_unwrapped(unwrapped: Unwrapped<'_>) -> String {
    let Message { message_type, packet, payload } = unwrapped.plain;
    let levels: String = unwrapped.levels.iter().map(tell_level).collect();
    let depth = unwrapped.levels.len();
    format!("plain {depth}{levels} {message_type} {packet} {}", counted(payload))
}

/// CODE OPERAND OPERAND OPERAND PACKET, behind a space.
fn tell_level(level: &Level) -> String {
    let Level { code, operands: [first, second, third], packet } = level;
    format!(" {code} {first} {second} {third} {packet}")
}

fn tell_held(held: Option<Held<'_>>) -> String {
    match held {
        Some(held) => format!("{} {}", held.source.name(), counted(held.record)),
        None => "none".to_string(),
    }
}

/// Lends so much room to a writer and tells what it wrote there.
fn wrote(
    room: usize,
    write: impl FnOnce(&mut [u8]) -> Result<usize, Refusal>,
) -> Result<String, Refusal> {
    let mut out = vec![0; room];
    write(&mut out).map(|count| format!("wrote {}", counted(&out[..count])))
}

#[cfg(test)]
mod tests {
    use super::*;
    use crate::shared::SOURCES;

    /// The answer to a line.
    fn answer(line: &str) -> String {
        Player::default().play(line.as_bytes()).unwrap()
    }

    #[test]
    fn each_line_is_answered() {
        let answers = [
            ("read-display 05024869", "display 5 2 4869"),
            ("write-display 4 5 4869", "wrote 4 05024869"),
            ("read-diagnostics 050607024869", "diagnostics 5 6 7 2 4869"),
            ("write-diagnostics 6 5 6 7 4869", "wrote 6 050607024869"),
            ("unwrap 3 02FF03000000A50000003D6D", "plain 0 0 0 0"),
            ("wrap 12 2 255 3 0 0 0 165 0 0 0", "wrote 12 02FF03000000A50000003D6D"),
            ("image network 0506", "image 2"),
            ("image factory 0506", "image 2"),
            ("store 5 060102030405", "stored 1"),
            ("fetch 5", "none"),
            ("write-answer 0 5", "wrote 0"),
        ];
        for (line, expected) in answers {
            assert_eq!(answer(line), expected);
        }
    }

    #[test]
    fn no_bytes_are_left_out() {
        let answers = [
            ("read-display", "refuse 32"),
            ("read-display 0500", "display 5 0"),
            ("write-display 2 5", "wrote 2 0500"),
            ("read-diagnostics", "refuse 32"),
            ("read-diagnostics 05060700", "diagnostics 5 6 7 0"),
            ("write-diagnostics 4 5 6 7", "wrote 4 05060700"),
            ("unwrap 3", "refuse 1"),
            ("wrap 18 2 255 3 0 0 0 165 1 1 2 3 4 5 6 7", "refuse 11"),
            ("image network", "image 0"),
            ("image factory", "image 0"),
            ("store 5", "refuse 26"),
        ];
        for (line, expected) in answers {
            assert_eq!(answer(line), expected);
        }
    }

    #[test]
    fn each_level_has_its_five_numbers_outermost_first() {
        let words = "1 2 3 4 5 6 7 8 9 10 11 12";
        let line = format!("wrap 64 2 255 3 0 0 0 165 2 {words} AABB");
        let answer = answer(&line);
        let frame = answer.strip_prefix("wrote 28 ").unwrap();
        assert_eq!(frame[14..24], *"7E05100102");
        let plain = Player::default().play(format!("unwrap 3 {frame}").as_bytes());
        assert_eq!(plain, Some(format!("plain 2 {words} 2 AABB")));
    }

    /// As many levels as DEPTH says, whatever it says, and then two numbers.
    #[test]
    fn a_depth_needs_its_levels() {
        let line = |depth: &str, levels: usize| {
            let levels = " 1 2 3 4 5".repeat(levels);
            answer(&format!("wrap 64 2 255 3 0 0 0 165 {depth}{levels} 2 0 AABB"))
        };
        for levels in (0..=9).chain([255, 256, 257, 260]) {
            let answer = line(&levels.to_string(), levels);
            let expected = if levels > 4 { "refuse 31" } else { "wrote" };
            assert!(answer.starts_with(expected), "{levels}: {answer}");
            for depth in (0..=270).filter(|&depth| depth != levels) {
                assert_eq!(line(&depth.to_string(), levels), "bad line 1");
            }
        }
        for depth in [1 << 8, 1 << 16, 1 << 32, u64::MAX / 5, u64::MAX / 5 + 1, u64::MAX] {
            assert_eq!(line(&depth.to_string(), 0), "bad line 1");
        }
        for depth in ["", "-1", "18446744073709551616"] {
            assert_eq!(line(depth, 0), "bad line 1");
        }
    }

    /// Each number of a line in its place: 255 is taken, 256 is not, also where the
    /// answer is a refusal; and one that is missing makes the line bad.
    #[test]
    fn each_number_of_a_line_that_wraps_is_a_byte() {
        for depth in [0, 1, 4, 5, 6] {
            let numbers = |count: usize| vec!["7".to_string(); count];
            let depth_word = vec![depth.to_string()];
            let words = [numbers(8), depth_word, numbers(5 * depth + 2)].concat();
            let line = |words: &[String]| answer(&format!("wrap {}", words.join(" ")));
            let expected = if depth > 4 { "refuse 31" } else { "refuse 11" };
            assert_eq!(line(&words), expected);
            for at in (0..words.len()).filter(|&at| at != 8) {
                let mut other = words.clone();
                other[at] = "255".to_string();
                assert_ne!(line(&other), "bad line 1");
                other[at] = if at == 0 { "1025" } else { "256" }.to_string();
                assert_eq!(line(&other), "bad line 1");
                other.remove(at);
                assert_eq!(line(&other), "bad line 1");
            }
        }
    }

    #[test]
    fn lines_that_are_none_are_bad() {
        let lines = [
            "read-display ",
            "read-display 0",
            "read-display 05 00",
            "read-display  0500",
            " read-display 0500",
            "read-display 0500\r",
            "Read-display 0500",
            "read-displays 0500",
            "write-display",
            "write-display 4",
            "write-display 1025 5 41",
            "write-display 4 256 41",
            "write-display 4 5 41 41",
            "write-display 4 -5 41",
            "write-diagnostics 4 5 6",
            "write-diagnostics 4 5 256 7",
            "write-diagnostics 4 5 6 256",
            "write-diagnostics 4 5 6 7 4G",
            "unwrap",
            "unwrap ",
            "unwrap 256",
            "unwrap 3 ",
            "unwrap 3 0",
            "unwrap 3 00 00",
            "unwrap 02FF03000000A50000003D6D",
            "wrap",
            "wrap 12",
            "wrap 12 2 255 3 0 0 0 165",
            "wrap 12 2 255 3 0 0 0 165 0",
            "wrap 12 2 255 3 0 0 0 165 0 0",
            "wrap 12 2 255 3 0 0 0 165 0 0 0 ",
            "wrap 12 2 255 3 0 0 0 165 0 0 0 0",
            "wrap 12 2 255 3 0 0 0 165 0 0 0 00 00",
            "wrap 12 2 255 3 0 0 0 165 0 0  0",
            "wrap 1025 2 255 3 0 0 0 165 0 0 0",
            "turn 64",
            "quiet",
        ];
        for line in lines {
            assert_eq!(answer(line), "bad line 1", "{line}");
        }
    }

    #[test]
    fn lines_of_shared_data_that_are_none_are_bad() {
        let lines = [
            "image",
            "image ",
            "image network ",
            "image network 0",
            "image network 00 00",
            "image Network 00",
            "image network  00",
            "image both 00",
            "image 00",
            "store",
            "store 256",
            "store 5 ",
            "store 5 0",
            "store 5 00 00",
            "store 010203040506",
            "fetch",
            "fetch ",
            "fetch 256",
            "fetch 5 ",
            "fetch 5 05",
            "fetch -5",
            "write-answer",
            "write-answer 7",
            "write-answer 1025 5",
            "write-answer 7 256",
            "write-answer 7 5 ",
            "write-answer 7 5 05",
        ];
        for line in lines {
            assert_eq!(answer(line), "bad line 1", "{line}");
        }
    }

    /// What a script leaves in the two images.
    fn left(script: &str) -> [Vec<u8>; 2] {
        let mut player = Player::default();
        script.lines().for_each(|line| drop(player.play(line.as_bytes())));
        SOURCES.map(|source| player.images.of(source).to_vec())
    }

    #[test]
    fn images_last_until_a_line_changes_them() {
        assert_eq!(left(""), [vec![0; 8080], vec![0; 8080]]);
        let other = "read-display 0500\nwrap 12 2 255 3 0 0 0 165 0 0 0\n\n# fetch 5";
        let script = format!("image factory 0708\n{other}\nimage network 05");
        assert_eq!(left(&script), [vec![5], vec![7, 8]]);
        let [network, factory] = left("image factory 0708\nstore 5 060102030405\nfetch 5");
        assert_eq!((&network[..9], factory), (&[5, 6, 6, 1, 2, 3, 4, 5, 0][..], vec![7, 8]));
    }

    #[test]
    fn a_line_that_is_bad_or_refused_changes_no_image() {
        let before = left("store 5 060102030405");
        let long = format!("image network {}", "00".repeat(16_385));
        let record = format!("store 5 {}", "00".repeat(1025));
        let lines = ["image network 0G", "image factory 000", "image network 00 ", &long, &record];
        let refused = ["store 5 0102030405", "store 5", "store 6 0", "fetch 5", "write-answer 6 5"];
        for line in lines.iter().chain(&refused) {
            assert_eq!(left(&format!("store 5 060102030405\n{line}")), before, "{line}");
        }
    }
}
