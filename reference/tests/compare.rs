//! The program `compare`, with this implementation's own programs in the
//! place of the ones it is for.

use std::fs;
use std::path::PathBuf;
use std::process::{Command, Output};

const REPLAY: &str = env!("CARGO_BIN_EXE_replay");
const FRAMELIST: &str = env!("CARGO_BIN_EXE_framelist");
const PAYLOADS: &str = env!("CARGO_BIN_EXE_payloads");

/// A folder of its own, removed at the end.
struct Folder(PathBuf);

impl Folder {
    fn new(name: &str) -> Folder {
        let path = std::env::temp_dir().join(format!("compare-{}-{name}", std::process::id()));
        fs::create_dir_all(&path).unwrap();
        Folder(path)
    }

    fn compare(&self, replay: &str, payloads: &str, words: &[&str]) -> Output {
        let mut command = Command::new(env!("CARGO_BIN_EXE_compare"));
        command.args([replay, FRAMELIST, payloads]).arg(&self.0).args(words).output().unwrap()
    }

    /// A command that runs the program and changes its answers.
    fn slip(&self, program: &str, change: &str) -> String {
        let slip = self.0.join("slip");
        fs::write(&slip, format!("{program} | sed '{change}'\n")).unwrap();
        format!("sh\n{}", slip.display())
    }

    fn file(&self, name: &str) -> String {
        fs::read_to_string(self.0.join(name)).unwrap()
    }
}

impl Drop for Folder {
    fn drop(&mut self) {
        let _ = fs::remove_dir_all(&self.0);
    }
}

fn text(output: &Output) -> String {
    String::from_utf8(output.stdout.clone()).unwrap()
}

#[test]
fn the_gate_says_what_was_compared_and_what_was_not_reached() {
    let folder = Folder::new("gate");
    let output = folder.compare(REPLAY, PAYLOADS, &["gate", "1", "3", "1"]);
    let text = text(&output);
    let first = "compare: 1 scripts, 16000 lines, ";
    assert!(text.starts_with(first), "{text}");
    assert!(text.contains("\ncompare: 3 captures, "));
    assert!(text.contains("\ncompare: 1 payload scripts, "));
    assert!(text.contains("\ncompare: not reached: capture: longer than 4,096 bytes\n"));
    assert!(text.contains("\ncompare: not reached: a last line without a line feed: display\n"));
    assert!(text.contains("\ncompare: not reached: write-display: wrote, TYPE: "));
    assert_eq!(output.status.code(), Some(1));
    let counts = folder.file("coverage.txt");
    assert!(counts.contains("\ndisturbances\n") && counts.contains("\npayload scripts: 1, "));
}

#[test]
fn the_gate_tells_a_shrunk_mismatch() {
    let folder = Folder::new("mismatch");
    let slip = folder.slip(REPLAY, "s/^rest dropped .*/rest/");
    let output = folder.compare(&slip, PAYLOADS, &["gate", "1", "0", "0"]);
    let text = text(&output);
    assert!(text.starts_with("compare: the script of seed 1: answer "), "{text}");
    assert!(text.ends_with("\n  ours       rest\n  reference  rest dropped 1\n"), "{text}");
    assert_eq!(output.status.code(), Some(1));
    assert!(folder.file("mismatch.txt").ends_with("quiet\n"));
}

#[test]
fn the_gate_tells_a_shrunk_mismatch_of_payloads() {
    let folder = Folder::new("payloads");
    let slip = folder.slip(PAYLOADS, "s/^refuse 11$/refuse 33/");
    let output = folder.compare(REPLAY, &slip, &["gate", "0", "0", "1"]);
    let text = text(&output);
    assert!(text.starts_with("compare: the payload script of seed 1: answer "), "{text}");
    assert!(text.contains(" to 1 by "), "{text}");
    assert!(text.ends_with("\n  ours       refuse 33\n  reference  refuse 11\n"), "{text}");
    assert_eq!(output.status.code(), Some(1));
    assert!(folder.file("mismatch-payloads.txt").starts_with("write-"));
}

/// A line that hangs on another one is left with it.
#[test]
fn the_gate_tells_a_shrunk_mismatch_of_shared_data() {
    let folder = Folder::new("shared");
    let slip = folder.slip(PAYLOADS, "s/^factory /network /");
    let output = folder.compare(REPLAY, &slip, &["gate", "0", "0", "1"]);
    let text = text(&output);
    assert!(text.contains(" to 2 by "), "{text}");
    assert!(text.contains("\n  ours       network ") && text.contains("\n  reference  factory "));
    let left = folder.file("mismatch-payloads.txt");
    let names: Vec<&str> = left.lines().map(|line| line.split(' ').next().unwrap()).collect();
    assert_eq!(names, ["image", "fetch"]);
}

#[test]
fn a_soak_ends_in_time_with_a_summary() {
    let folder = Folder::new("soak");
    let output = folder.compare(REPLAY, PAYLOADS, &["soak", "0.01", "500", "lines"]);
    let text = text(&output);
    assert!(text.starts_with("soak: ") && text.ends_with(" from 500: all alike\n"), "{text}");
    assert!(text.contains(" payload lines, ") && !text.contains(" 0 payload lines"), "{text}");
    assert_eq!(output.status.code(), Some(0));
}

#[test]
fn words_that_are_not_understood_and_programs_that_are_not_there_are_2() {
    let folder = Folder::new("words");
    let soaks = [&["soak", "-1", "1", "lines"][..], &["soak", "1", "1", "x"]];
    let gates = [&["gate", "1"][..], &["gate", "1", "1"], &["gate", "1", "1", "x"]];
    for words in gates.iter().chain(&soaks) {
        assert_eq!(folder.compare(REPLAY, PAYLOADS, words).status.code(), Some(2));
    }
    let missing = "no/such/program";
    let output = folder.compare(missing, PAYLOADS, &["gate", "1", "0", "0"]);
    assert_eq!(output.status.code(), Some(2));
    let output = folder.compare(REPLAY, missing, &["gate", "0", "0", "1"]);
    assert_eq!(output.status.code(), Some(2));
}
