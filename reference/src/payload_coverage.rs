//! Counts what the scripts for `payloads` reached, seen from their lines and
//! answers.

mod asked;
mod nests;
mod required;
mod required_nests;
mod required_shared;
mod rooms;
mod set_images;
mod shared;
mod slots;
mod stores;
mod texts;
mod unwraps;
mod walk;
mod wraps;

use crate::counts::Counts;
use crate::language::pairs;
use crate::payload_scripts::Line;
use crate::payloads;
use crate::rows::Rows;
use nests::Nests;
use shared::Shared;
use texts::Texts;

#[derive(Clone, Debug, Default)]
pub struct PayloadCoverage {
    counted: Counted,
    texts: Texts,
    nests: Nests,
    shared: Shared,
    scripts: u64,
    lines: u64,
    answers: u64,
    bytes: u64,
}

/// What was met: answers, single cases, and each number of a row.
#[derive(Clone, Debug, Default)]
pub struct Counted {
    pub answers: Counts,
    pub cases: Counts,
    pub rows: Rows,
}

impl PayloadCoverage {
    /// Notes one line, as far as it is played, and its answer.
    pub fn note(&mut self, line: &Line, answer: Option<&str>) {
        self.lines += 1;
        self.answers += u64::from(answer.is_some());
        let head = head(&line.text, answer);
        if let Some(oddity) = &line.oddity {
            self.counted.cases.count(format!("{oddity}: {head}"));
        }
        let text = std::str::from_utf8(&line.text).ok();
        let command =
            text.and_then(|text| payloads::parse(&text.split(' ').collect::<Vec<&str>>()));
        let (command, answer) = (command.as_ref(), answer.unwrap_or_default());
        self.texts.note(&mut self.counted, command, &head);
        self.nests.note(&mut self.counted, command, answer);
        self.shared.note(&mut self.counted, &line.text, command, answer);
        self.counted.answers.count(head);
    }

    /// Notes a line that is not played, for where it stands.
    pub fn note_past_limit(&mut self) {
        self.counted.cases.count("a line past the limit");
    }

    pub fn end_script(&mut self, bytes: usize) {
        self.scripts += 1;
        self.bytes += bytes as u64;
    }

    /// Adds what other scripts reached.
    pub fn add(&mut self, other: &PayloadCoverage) {
        self.counted.answers.add(&other.counted.answers);
        self.counted.cases.add(&other.counted.cases);
        self.counted.rows.add(&other.counted.rows);
        self.scripts += other.scripts;
        self.lines += other.lines;
        self.answers += other.answers;
        self.bytes += other.bytes;
    }

    pub fn scripts(&self) -> u64 {
        self.scripts
    }

    /// The lines played.
    pub fn lines(&self) -> u64 {
        self.lines
    }

    /// Those of them that have an answer.
    pub fn answers(&self) -> u64 {
        self.answers
    }

    /// What can be given and was not.
    pub fn missing(&self) -> Vec<String> {
        let mut missing = self.counted.answers.missing(required::answers());
        missing.extend(self.counted.cases.missing(required::cases()));
        missing.extend(self.counted.rows.missing(&required::rows()));
        missing
    }

    pub fn report(&self) -> String {
        let (scripts, lines, bytes) = (self.scripts, self.lines, self.bytes);
        let mut text = format!("payload scripts: {scripts}, {lines} lines, {bytes} bytes\n");
        text.push_str(&self.counted.answers.section("answers"));
        text.push_str(&self.counted.cases.section("cases"));
        let title = "each number of a row, as often as the rarest of them was met";
        text.push_str(&self.counted.rows.section(title, &required::rows()));
        text
    }
}

/// An answer without its numbers, but for a refusal's; what is passed over by
/// what it is.
fn head(line: &[u8], answer: Option<&str>) -> String {
    match answer {
        Some(answer) => head_of(answer),
        None if line.is_empty() => "passed over, an empty line".to_string(),
        None => "passed over, a comment".to_string(),
    }
}

fn head_of(answer: &str) -> String {
    let words: Vec<&str> = answer.split(' ').collect();
    match words[..] {
        ["refuse", number] => format!("refuse {number}"),
        ["bad", ..] => "bad line".to_string(),
        [first, ..] => first.to_string(),
        [] => String::new(),
    }
}

/// What was written, by the answer.
pub(crate) fn written(answer: &str) -> Option<Vec<u8>> {
    answer.strip_prefix("wrote ")?.split(' ').nth(1).and_then(pairs)
}

/// What a script of these lines reaches.
#[cfg(test)]
fn coverage(lines: &[&str]) -> PayloadCoverage {
    let (mut player, mut coverage) = (payloads::Player::default(), PayloadCoverage::default());
    for line in lines {
        let answer = player.play(line.as_bytes());
        coverage.note(&Line::plain(*line), answer.as_deref());
    }
    coverage
}

#[cfg(test)]
mod tests {
    use super::*;

    #[test]
    fn what_is_not_there_is_missing() {
        let all = required::answers().len() + required::cases().len() + required::rows().len();
        assert_eq!(PayloadCoverage::default().missing().len(), all);
        assert_eq!(coverage(&["", "#", "nonsense"]).missing().len(), all - 3);
    }

    #[test]
    fn a_line_is_counted_by_its_faults() {
        let lines = [
            ("read-display 050141", "read-display, all is right: display"),
            ("read-display 050241", "read-display, lengths differ: refuse 32"),
            ("read-display 05021F", "read-display, lengths differ, bad text: refuse 32"),
            ("read-display 05FF41", READ_BOTH_LENGTHS),
            ("read-diagnostics 0000000141", "read-diagnostics, codes 0 with a text: diagnostics"),
            ("write-display 3 5 41", "write-display, all is right: wrote"),
            ("write-display 2 5 41", "write-display, no room: refuse 11"),
            ("write-display 2 5 7F", "write-display, bad text, no room: refuse 33"),
            ("write-diagnostics 4 5 0 0", "write-diagnostics, the clearing message: wrote"),
            ("unwrap 3 02FF03", "unwrap, a frame that is short: refuse 1"),
            (
                "unwrap 3 02FF03000000A50000003D6D",
                "unwrap, good, our subnet, plain inside 0: plain",
            ),
            ("unwrap 4 02FF03000000A50000003D6E", BAD_BEFORE_OTHER),
            ("unwrap 3 02FF03000000A57E000701020304050001E62E", ONE_TOO_LARGE),
            ("wrap 12 2 255 3 0 0 0 165 0 0 0", "wrap at depth 0, all is right: wrote"),
            (
                "wrap 11 2 255 3 0 0 0 165 0 0 0",
                "wrap, depth 0, one byte less than is due: refuse 11",
            ),
            (
                "wrap 9 2 255 3 0 0 0 165 0 126 0",
                "wrap at depth 0, a level inside, no room: refuse 31",
            ),
        ];
        for (line, case) in lines {
            assert_eq!(coverage(&[line]).counted.cases.of(case), 1, "{line}");
        }
    }

    const BAD_BEFORE_OTHER: &str = "unwrap, bad checksum, another subnet, plain inside 0: refuse 4";
    const ONE_TOO_LARGE: &str = "unwrap, level 1, length byte too large by one: refuse 30";
    const READ_BOTH_LENGTHS: &str =
        "read-display, lengths differ, length above the maximum: refuse 32";

    #[test]
    fn a_line_is_counted_by_its_numbers() {
        let lines =
            ["read-display 050341427E", "read-display 0503419F43", "write-display 3 5 4142"];
        let coverage = coverage(&lines);
        let counted = |name: &str, number| coverage.counted.rows.of(name, number);
        assert_eq!(counted("read-display: display, first byte", 0x41), 1);
        assert_eq!(counted("read-display: display, middle byte", 0x42), 1);
        assert_eq!(counted("read-display: display, last byte", 0x7E), 1);
        assert_eq!(counted("read-display: display, TYPE", 5), 1);
        assert_eq!(counted("read-display: refuse 33, middle byte", 0x9F), 1);
        assert_eq!(counted("read-display: refuse 33, first byte", 0x41), 0);
        assert_eq!(counted("read-display: refuse 33, place of the bad byte", 1), 1);
        assert_eq!(counted("write-display: refuse 11, room for a text of 2", 3), 1);
    }

    #[test]
    fn what_is_inside_is_counted_where_the_way_to_it_ends() {
        let lines = [
            "unwrap 3 02FF03000000A57E200910010203020002AABB91F0",
            "unwrap 3 02FF03000000A57E0006010203040500DA3C",
            "unwrap 3 02FF03000000A57E000B010203047E000405060708D2A7",
            "wrap 64 2 255 3 0 0 0 165 1 16 1 2 3 32 2 0 AABB",
        ];
        let coverage = coverage(&lines);
        let counted = |name: &str, number| coverage.counted.rows.of(name, number);
        assert_eq!(counted("unwrap: plain, plain inside 1, payload of so many bytes", 2), 1);
        assert_eq!(counted("unwrap: plain, plain inside 1, TYPE", 2), 1);
        let few = "too few bytes, payload of so many bytes";
        assert_eq!(counted(&format!("unwrap: refuse 30, level 1, {few}"), 6), 1);
        assert_eq!(counted(&format!("unwrap: refuse 30, level 2, {few}"), 4), 1);
        assert_eq!(counted("wrap: wrote, depth 1, payload of so many bytes", 2), 1);
        assert_eq!(counted("wrap: wrote, LEVEL PACKET", 32), 1);
    }

    #[test]
    fn what_is_read_back_is_what_the_line_before_wrote() {
        let (write, read) = ("write-display 9 5 4142", "read-display 05024142");
        let back = |lines: &[&str]| {
            let name = "read-display: display, written before, text of so many";
            coverage(lines).counted.rows.of(name, 2)
        };
        assert_eq!([back(&[write, read]), back(&[read]), back(&[write, "", read])], [1, 0, 0]);
    }

    #[test]
    fn what_is_unwrapped_is_what_the_line_before_wrapped() {
        let (wrap, frame) = ("wrap 12 2 255 3 0 0 0 165 0 0 0", "02FF03000000A50000003D6D");
        let (own, other) = (format!("unwrap 3 {frame}"), format!("unwrap 4 {frame}"));
        let back = |lines: &[&str], case: &str| {
            let case = format!("unwrap, wrapped before at depth 0, {case}");
            coverage(lines).counted.cases.of(&case)
        };
        assert_eq!(back(&[wrap, &own], "our subnet: plain"), 1);
        assert_eq!(back(&[wrap, &other], "another subnet: refuse 24"), 1);
        assert_eq!(back(&[wrap, "", &own], "our subnet: plain"), 0);
    }
}
