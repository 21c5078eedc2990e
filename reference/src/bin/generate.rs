//! Seeded scripts and captures:
//!
//!     generate scripts SEED COUNT     a script of COUNT lines
//!     generate coverage SEED COUNT    what that script reaches; 1 if short
//!     generate captures SEED INDEX    one capture of line bytes
//!     generate payloads SEED COUNT    a payload script of COUNT lines
//!     generate doubtful               lines that can be read in two ways

use reference::{captures, generator, language, payload_scripts};
use std::io::{self, BufWriter, Write};
use std::process::ExitCode;

const USAGE: &str = "usage: generate scripts SEED COUNT | coverage SEED COUNT \
                     | captures SEED INDEX | payloads SEED COUNT | doubtful";

fn main() -> ExitCode {
    let words: Vec<String> = std::env::args().skip(1).collect();
    let words: Vec<&str> = words.iter().map(String::as_str).collect();
    match run(&words) {
        Ok(Some(code)) => code,
        Ok(None) => {
            eprintln!("{USAGE}");
            ExitCode::from(2)
        }
        Err(error) => {
            eprintln!("generate: {error}");
            ExitCode::from(3)
        }
    }
}

/// None if the words are not as the usage says.
fn run(words: &[&str]) -> io::Result<Option<ExitCode>> {
    match (words, numbers(words)) {
        (["scripts", ..], Some((seed, count))) => scripts(seed, count),
        (["coverage", ..], Some((seed, count))) => coverage(seed, count),
        (["captures", ..], Some((seed, index))) => write(&captures::capture(seed, index)),
        (["payloads", ..], Some((seed, count))) => {
            write(&payload_scripts::script(seed, count as usize).0)
        }
        (["doubtful"], _) => write(generator::doubtful().as_bytes()),
        _ => Ok(None),
    }
}

fn numbers(words: &[&str]) -> Option<(u64, u64)> {
    match words {
        [_, first, second] => Some((first.parse().ok()?, second.parse().ok()?)),
        _ => None,
    }
}

fn write(bytes: &[u8]) -> io::Result<Option<ExitCode>> {
    io::stdout().write_all(bytes)?;
    Ok(Some(ExitCode::SUCCESS))
}

fn scripts(seed: u64, count: u64) -> io::Result<Option<ExitCode>> {
    let mut out = BufWriter::new(io::stdout().lock());
    let mut result = Ok(());
    let coverage = generator::generate(seed, count as usize, &mut |line| {
        if result.is_ok() {
            result = writeln!(out, "{line}");
        }
    });
    result?;
    out.flush()?;
    if coverage.bytes() > language::SCRIPT_LIMIT as u64 {
        eprintln!("generate: this script is longer than 1 MiB, so a replay reads a part of it");
    }
    Ok(Some(ExitCode::SUCCESS))
}

fn coverage(seed: u64, count: u64) -> io::Result<Option<ExitCode>> {
    let coverage = generator::generate(seed, count as usize, &mut |_| ());
    io::stdout().write_all(coverage.report().as_bytes())?;
    let missing = coverage.missing();
    for name in &missing {
        println!("MISSING {name}");
    }
    Ok(Some(if missing.is_empty() { ExitCode::SUCCESS } else { ExitCode::FAILURE }))
}
