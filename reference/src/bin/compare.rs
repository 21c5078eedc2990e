//! Compares replay, framelist and payloads with this implementation:
//!
//!     compare REPLAY FRAMELIST PAYLOADS FOLDER gate SCRIPTS CAPTURES PAYLOADS
//!     compare REPLAY FRAMELIST PAYLOADS FOLDER soak MINUTES FIRST_SEED terminal|lines
//!
//! REPLAY, FRAMELIST and the first PAYLOADS are the commands that run them, a word
//! to a line; the second is how many scripts payloads plays.
//! 1 if something differs or the gate did not reach all it has to.

use reference::compare::mismatch::Mismatch;
use reference::compare::pool::{self, Outcome};
use reference::compare::program::Program;
use reference::compare::progress::{Progress, Style};
use reference::compare::sides::Ours;
use reference::compare::task::{self, Totals};
use std::fs;
use std::io;
use std::path::Path;
use std::process::ExitCode;
use std::time::{Duration, Instant};

const USAGE: &str = "usage: compare REPLAY FRAMELIST PAYLOADS FOLDER \
                     gate SCRIPTS CAPTURES PAYLOADS | soak MINUTES FIRST_SEED terminal|lines";
/// A mismatch is shrunk for at most this long.
const SHRINKING: Duration = Duration::from_secs(60);

fn main() -> ExitCode {
    let words: Vec<String> = std::env::args().skip(1).collect();
    let words: Vec<&str> = words.iter().map(String::as_str).collect();
    match run(&words) {
        Some(Ok(true)) => ExitCode::SUCCESS,
        Some(Ok(false)) => ExitCode::FAILURE,
        Some(Err(error)) => {
            eprintln!("compare: {error}");
            ExitCode::from(2)
        }
        None => {
            eprintln!("{USAGE}");
            ExitCode::from(2)
        }
    }
}

/// None if the words are not as the usage says.
fn run(words: &[&str]) -> Option<io::Result<bool>> {
    let (programs, folder, rest) = match words {
        [replay, framelist, payloads, folder, rest @ ..] => {
            ([replay, framelist, payloads], Path::new(folder), rest)
        }
        _ => return None,
    };
    let [replay, framelist, payloads] = programs.map(|command| Program::new(command));
    let ours = Ours { replay, framelist, payloads };
    match *rest {
        ["gate", scripts, captures, payloads] => {
            let number = |word: &str| word.parse().ok();
            Some(gate(&ours, folder, [number(scripts)?, number(captures)?, number(payloads)?]))
        }
        ["soak", minutes, first, style] => {
            Some(soak(&ours, folder, duration(minutes)?, first.parse().ok()?, style_of(style)?))
        }
        _ => None,
    }
}

/// Minutes, perhaps with a fraction, up to a year.
fn duration(minutes: &str) -> Option<Duration> {
    let minutes: f64 = minutes.parse().ok()?;
    (0.0..=525_600.0).contains(&minutes).then(|| Duration::from_secs_f64(60.0 * minutes))
}

fn style_of(word: &str) -> Option<Style> {
    match word {
        "terminal" => Some(Style::Terminal),
        "lines" => Some(Style::Lines),
        _ => None,
    }
}

/// So many scripts, captures and payload scripts.
fn gate(ours: &Ours, folder: &Path, numbers: [u64; 3]) -> io::Result<bool> {
    let [scripts, captures, payloads] = numbers;
    let tasks = task::of_gate(scripts, captures, payloads);
    let outcome = pool::run(tasks, ours, pool::processors(), &mut |_| ())?;
    match outcome.mismatch {
        Some(mismatch) => tell(&mismatch, ours, folder),
        None => reached(&outcome.totals, scripts, folder),
    }
}

/// Says what was compared; false if something was not reached by it.
fn reached(totals: &Totals, scripts: u64, folder: &Path) -> io::Result<bool> {
    let (played, listed, texts) = (&totals.scripts, &totals.captures, &totals.payloads);
    println!(
        "compare: {scripts} scripts, {} lines, {} steps: answered alike",
        played.lines(),
        played.steps()
    );
    println!(
        "compare: {} captures, {} bytes, {} frames: listed alike",
        listed.captures(),
        listed.bytes(),
        listed.frames()
    );
    println!(
        "compare: {} payload scripts, {} lines: answered alike",
        texts.scripts(),
        texts.lines()
    );
    let path = folder.join("coverage.txt");
    let reports = [played.report(), listed.report(), texts.report()];
    fs::write(&path, reports.join("\n"))?;
    let missing = [played.missing(), listed.missing(), texts.missing()].concat();
    for name in &missing {
        println!("compare: not reached: {name}");
    }
    if missing.is_empty() {
        println!("compare: all that has to be reached was reached: {}", path.display());
    }
    Ok(missing.is_empty())
}

fn soak(ours: &Ours, folder: &Path, time: Duration, first: u64, style: Style) -> io::Result<bool> {
    let mut progress = Progress::new(style, first);
    let deadline = Instant::now() + time;
    let tasks = task::of_soak(first).take_while(|_| Instant::now() < deadline);
    let mut watch = |outcome: &Outcome| progress.watch(outcome);
    let outcome = pool::run(tasks, ours, pool::processors(), &mut watch)?;
    progress.clear();
    match &outcome.mismatch {
        Some(mismatch) => tell(mismatch, ours, folder),
        None => {
            println!("{}: all alike", progress.text(&outcome));
            Ok(true)
        }
    }
}

fn tell(mismatch: &Mismatch, ours: &Ours, folder: &Path) -> io::Result<bool> {
    println!("compare: {}", mismatch.tell(ours, folder, SHRINKING)?.trim_end());
    Ok(false)
}
