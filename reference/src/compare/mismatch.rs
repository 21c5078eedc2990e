//! A mismatch, shrunk and told.

use super::difference::Difference;
use super::shrink::{self, Shrunk};
use super::sides::{Side, Sort};
use crate::language::{hex, SCRIPT_LIMIT};
use std::fs;
use std::io;
use std::path::Path;
use std::time::{Duration, Instant};

/// At most so many lines are printed, and of a very long one so many bytes; the
/// file has them all.
const SHOWN: usize = 60;
const SHOWN_BYTES: usize = 60;
const VERY_LONG: usize = 3000;
/// Of `replay` what ends any wait, of `payloads` what needs nothing.
const PLAIN_LINE: &[u8] = b"quiet";
const PLAIN_PAYLOAD: &[u8] = b"read-display";

/// An input that the two sides answer differently.
#[derive(Clone, Debug)]
pub struct Mismatch {
    pub sort: Sort,
    pub name: String,
    pub input: Vec<u8>,
    pub difference: Difference,
}

impl Mismatch {
    /// Shrinks the input, writes what is left into the folder and gives the
    /// text to print.
    pub fn tell(&self, ours: &dyn Side, folder: &Path, time: Duration) -> io::Result<String> {
        let deadline = Instant::now() + time;
        let mut text = format!("{}: {}:\n", self.name, self.place());
        text.push_str(&self.difference.text());
        let (file, left) = match self.sort {
            Sort::Script => ("mismatch.txt", self.shrink_lines(ours, PLAIN_LINE, deadline)),
            Sort::Capture => ("mismatch.bin", self.shrink_bytes(ours, deadline)),
            Sort::Payloads => {
                ("mismatch-payloads.txt", self.shrink_lines(ours, PLAIN_PAYLOAD, deadline))
            }
        };
        let path = folder.join(file);
        fs::write(&path, &left.input)?;
        text.push_str(&format!("{} in {}:\n{}", left.how, path.display(), left.shown));
        match Difference::over(ours, self.sort, &left.input)? {
            Some(difference) => {
                text.push_str(&format!("its answer {} differs:\n", difference.answer));
                text.push_str(&difference.text());
            }
            None => text.push_str("but it was answered alike when run once more\n"),
        }
        Ok(text)
    }

    fn place(&self) -> String {
        let answer = self.difference.answer;
        match self.sort {
            Sort::Script | Sort::Payloads => {
                let line = self.difference.script_line(self.sort, &self.input);
                format!("answer {answer}, to line {line}, differs")
            }
            Sort::Capture => format!("line {answer} of the list differs"),
        }
    }

    fn shrink_lines(&self, ours: &dyn Side, plain: &'static [u8], deadline: Instant) -> Left {
        let whole = self.input.strip_suffix(b"\n").unwrap_or(&self.input);
        // a last line that is not ended stays so: it may be what differs
        let end = &self.input[whole.len()..];
        let lines: Vec<&[u8]> = whole.split(|&byte| byte == b'\n').collect();
        let mut fails = |lines: &[&[u8]]| self.differs(ours, &joined(lines, end));
        // what follows the differing answer cannot matter, unless answers were lost
        let cut = lines[..self.difference.script_line(self.sort, whole)].to_vec();
        let start = if fails(&cut) { cut } else { lines.clone() };
        let filling = vec![b'#'; whole.len()];
        let folded = folded(&start, &filling).filter(|lines| fails(lines));
        let shrunk = shrink::shrink(folded.unwrap_or(start), plain, deadline, &mut fails);
        let how = how(&shrunk, lines.len(), "lines");
        Left { how, input: joined(&shrunk.items, end), shown: shown(&shrunk.items) }
    }

    fn shrink_bytes(&self, ours: &dyn Side, deadline: Instant) -> Left {
        let mut fails = |bytes: &[u8]| self.differs(ours, bytes);
        let shrunk = shrink::shrink(self.input.clone(), 0, deadline, &mut fails);
        let shown = format!("  {}\n", hex(&shrunk.items));
        Left { how: how(&shrunk, self.input.len(), "bytes"), input: shrunk.items, shown }
    }

    fn differs(&self, ours: &dyn Side, input: &[u8]) -> bool {
        matches!(Difference::over(ours, self.sort, input), Ok(Some(_)))
    }
}

/// What shrinking left, how, and as it is shown.
struct Left {
    how: String,
    input: Vec<u8>,
    shown: String,
}

fn joined(lines: &[&[u8]], end: &[u8]) -> Vec<u8> {
    [&lines.join(&b'\n')[..], end].concat()
}

/// All lines but the last as one comment of the same size, where they reach the
/// limit of a script: what differs for its place there differs in it still, while
/// to take any line out would move it.
fn folded<'a>(lines: &[&'a [u8]], filling: &'a [u8]) -> Option<Vec<&'a [u8]>> {
    let (last, before) = lines.split_last()?;
    let size: usize = before.iter().map(|line| line.len() + 1).sum();
    let reaches = !before.is_empty() && size + last.len() + 1 >= SCRIPT_LIMIT;
    reaches.then(|| vec![&filling[..size - 1], last])
}

/// The lines set in; of many only the first and the last.
fn shown(lines: &[&[u8]]) -> String {
    let text = |lines: &[&[u8]]| -> String { lines.iter().map(|line| shown_line(line)).collect() };
    if lines.len() <= SHOWN {
        return text(lines);
    }
    let (first, last) = (&lines[..SHOWN / 2], &lines[lines.len() - SHOWN / 2..]);
    format!("{}  ({} lines more)\n{}", text(first), lines.len() - SHOWN, text(last))
}

fn shown_line(line: &[u8]) -> String {
    if line.len() <= VERY_LONG {
        return format!("  {}\n", visible(line));
    }
    let start = visible(&line[..SHOWN_BYTES]);
    format!("  {start} ({} bytes more)\n", line.len() - SHOWN_BYTES)
}

/// Control characters as they stand in a string, so that they are seen.
fn visible(line: &[u8]) -> String {
    let mut text = String::new();
    for character in String::from_utf8_lossy(line).chars() {
        match character.is_control() {
            true => text.extend(character.escape_default()),
            false => text.push(character),
        }
    }
    text
}

fn how<T>(shrunk: &Shrunk<T>, before: usize, what: &str) -> String {
    let (left, runs) = (shrunk.items.len(), shrunk.runs);
    let time = if shrunk.finished { "" } else { ", when the time was up" };
    format!("shrunk from {before} {what} to {left} by {runs} runs{time},")
}

#[cfg(test)]
mod tests {
    use super::super::sides::Reference;
    use super::super::task::Task;
    use super::*;
    use std::sync::atomic::{AtomicUsize, Ordering};

    /// Says that a board stays where it is dropped, lists no frame of message
    /// type 9, tells a bad length of a bad text, and plays no line that is not
    /// ended.
    struct Slips;

    impl Side for Slips {
        fn answer(&self, sort: Sort, input: &[u8]) -> io::Result<String> {
            let kept = |line: &&str| line.split(' ').nth(3) != Some("9");
            let played = match sort {
                Sort::Payloads => {
                    input.iter().rposition(|&byte| byte == b'\n').map_or(0, |at| at + 1)
                }
                _ => input.len(),
            };
            let answer = Reference.answer(sort, &input[..played])?;
            Ok(match sort {
                Sort::Script => answer.replace("rest dropped", "rest"),
                Sort::Capture => answer.lines().filter(kept).map(|l| format!("{l}\n")).collect(),
                Sort::Payloads if played < input.len() => answer,
                Sort::Payloads => answer.replace("refuse 33", "refuse 32"),
            })
        }
    }

    fn told(task: &Task, file: &str) -> (String, Vec<u8>) {
        told_by(&Slips, task, file)
    }

    /// Each is told in a folder of its own.
    static TOLD: AtomicUsize = AtomicUsize::new(0);

    fn told_by(side: &dyn Side, task: &Task, file: &str) -> (String, Vec<u8>) {
        let number = TOLD.fetch_add(1, Ordering::Relaxed);
        let name = format!("told-{}-{number}", std::process::id());
        let folder = std::env::temp_dir().join(name);
        fs::create_dir_all(&folder).unwrap();
        let mismatch = task.run(side).unwrap().1.unwrap();
        let text = mismatch.tell(side, &folder, Duration::from_secs(60)).unwrap();
        let left = fs::read(folder.join(file)).unwrap();
        fs::remove_dir_all(&folder).unwrap();
        (text, left)
    }

    /// Of a board that was discovered the frames of its exchange would be left,
    /// so the seed is one whose first drop is of a board that the host brought.
    #[test]
    fn a_drop_is_shrunk_to_a_join_and_three_misses() {
        let (text, left) = told(&Task { seed: 5, lines: 3000, ..Task::default() }, "mismatch.txt");
        let left = String::from_utf8(left).unwrap();
        let steps: Vec<&str> = left.lines().map(|line| line.split(' ').next().unwrap()).collect();
        let expected = ["setup", "join", "turn", "quiet", "turn", "quiet", "turn", "quiet"];
        assert_eq!(steps, expected, "{text}");
        assert!(text.starts_with("the script of seed 5: answer "));
        assert!(text.contains("shrunk from 3000 lines to 8 by "));
        let end = "its answer 8 differs:\n  ours       rest 1\n  reference  rest dropped 1\n";
        assert!(text.ends_with(end), "{text}");
    }

    #[test]
    fn a_payload_is_shrunk_to_its_line() {
        let task = Task { seed: 5, payload_lines: 3000, ..Task::default() };
        let (text, left) = told(&task, "mismatch-payloads.txt");
        assert!(text.starts_with("the payload script of seed 5: answer "), "{text}");
        assert!(text.contains("shrunk from 3000 lines to 1 by "), "{text}");
        let end = "its answer 1 differs:\n  ours       refuse 32\n  reference  refuse 33\n";
        assert!(text.ends_with(end), "{text}");
        assert!(left.starts_with(b"read-") || left.starts_with(b"write-"));
        assert_eq!(left.iter().position(|&byte| byte == b'\n'), Some(left.len() - 1));
    }

    /// The last line of the script is what differs, for want of its end; any line
    /// would in its place.
    #[test]
    fn a_line_that_is_not_ended_stays_so() {
        let task = Task { seed: 6, payload_lines: 300, ..Task::default() };
        let (text, left) = told(&task, "mismatch-payloads.txt");
        assert_eq!(left, PLAIN_PAYLOAD, "{text}");
        assert!(text.contains("shrunk from 301 lines to 1 by "), "{text}");
    }

    /// Answers as this implementation, but for one head of an answer.
    struct Renames(&'static str, &'static str);

    impl Side for Renames {
        fn answer(&self, sort: Sort, input: &[u8]) -> io::Result<String> {
            let renamed = |line: &str| match line.strip_prefix(self.0) {
                Some(rest) => format!("{}{rest}\n", self.1),
                None => format!("{line}\n"),
            };
            Ok(Reference.answer(sort, input)?.lines().map(renamed).collect())
        }
    }

    /// The lines that are left of a payload script, by their first two words.
    fn left_by(side: &dyn Side, seed: u64) -> (String, Vec<String>) {
        let task = Task { seed, payload_lines: 4000, ..Task::default() };
        let (text, left) = told_by(side, &task, "mismatch-payloads.txt");
        let words = |line: &str| line.split(' ').take(2).collect::<Vec<_>>().join(" ");
        (text, String::from_utf8(left).unwrap().lines().map(words).collect())
    }

    #[test]
    fn what_hangs_on_an_image_is_shrunk_to_both() {
        for seed in [5, 6] {
            let (text, left) = left_by(&Renames("factory", "network"), seed);
            let asks = left[1].starts_with("fetch ");
            assert!(left.len() == 2 && left[0] == "image factory" && asks, "{text}");
            assert!(text.contains(" bytes more)\n  fetch "), "{text}");
        }
    }

    /// What a line finds may be there by a line that stored it, or by an image line.
    #[test]
    fn what_hangs_on_a_record_is_shrunk_to_both() {
        for seed in [5, 6] {
            let (text, left) = left_by(&Renames("network", "factory"), seed);
            let sector = left[1].strip_prefix("fetch ").unwrap_or_default();
            let stored = left[0] == format!("store {sector}") || left[0] == "image network";
            assert!(left.len() == 2 && stored, "{text}");
        }
    }

    /// 27 takes an image in which all are in use, or as many lines as fill one up.
    #[test]
    fn what_hangs_on_a_full_image_is_shrunk_to_what_fills_it() {
        for seed in [6, 7] {
            let (text, left) = left_by(&Renames("refuse 27", "refuse 26"), seed);
            let (last, before) = left.split_last().unwrap();
            let fills = |line: &String| line.starts_with("store ") || line == "image network";
            assert!(last.starts_with("store ") && before.iter().all(fills), "{text}");
            assert!(left.len() <= 41, "{text}");
        }
    }

    /// Plays a byte less of a script than it should.
    struct StopsShort;

    impl Side for StopsShort {
        fn answer(&self, sort: Sort, input: &[u8]) -> io::Result<String> {
            Reference.answer(sort, &input[..input.len().min(SCRIPT_LIMIT - 1)])
        }
    }

    #[test]
    fn what_differs_at_the_limit_is_shrunk_to_a_comment_and_its_line() {
        let task = Task { seed: 1, payload_lines: 300, ..Task::default() };
        let (text, left) = told_by(&StopsShort, &task, "mismatch-payloads.txt");
        let lines: Vec<&[u8]> = left.split(|&byte| byte == b'\n').collect();
        assert_eq!(lines[1..], [&b"read-display 070241424344"[..], b""], "{text}");
        assert_eq!(lines[0].len() + "\nread-display 07024142".len(), SCRIPT_LIMIT);
        assert!(text.contains("# (1048494 bytes more)\n  read-display 0"), "{text}");
    }

    #[test]
    fn of_many_lines_the_middle_is_not_shown() {
        let lines = vec![&b"quiet"[..]; SHOWN + 5];
        assert_eq!(shown(&lines).lines().count(), SHOWN + 1);
        assert!(shown(&lines).contains("\n  (5 lines more)\n"));
        assert_eq!(shown(&lines[..2]), "  quiet\n  quiet\n");
        assert_eq!(shown(&[b"quiet\r", b"\t#"]), "  quiet\\r\n  \\t#\n");
    }

    #[test]
    fn a_frame_is_shrunk_to_itself() {
        let (text, left) =
            told(&Task { seed: 1, captures: 0..400, ..Task::default() }, "mismatch.bin");
        assert!(left.len() >= 12 && left[7] == 9, "{text}");
        assert_eq!(left.len(), 12 + usize::from(left[9]));
        assert!(text.contains(" bytes to "));
    }
}
