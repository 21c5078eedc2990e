//! A piece of the comparison: a script, captures, a payload script, or all of
//! them, of one seed.

use super::difference::Difference;
use super::mismatch::Mismatch;
use super::sides::{Side, Sort};
use crate::capture_coverage::CaptureCoverage;
use crate::captures;
use crate::coverage::Coverage;
use crate::generator;
use crate::payload_coverage::PayloadCoverage;
use crate::payload_scripts::{self, SCRIPT_LINES as PAYLOAD_LINES};
use std::io;
use std::ops::Range;

/// The lines of each script; it stays below the 1 MiB that `replay` reads.
const SCRIPT_LINES: usize = 16_000;
/// How many captures make a task of the gate, and how many a seed of the soak.
const CAPTURES: u64 = 100;
const CAPTURES_A_SEED: u64 = 400;

#[derive(Clone, Debug, Default, PartialEq, Eq)]
pub struct Task {
    pub seed: u64,
    pub lines: usize,
    pub captures: Range<u64>,
    pub payload_lines: usize,
}

/// What one or more tasks compared.
#[derive(Clone, Debug, Default)]
pub struct Totals {
    pub scripts: Coverage,
    pub captures: CaptureCoverage,
    pub payloads: PayloadCoverage,
}

impl Totals {
    pub fn add(&mut self, other: &Totals) {
        self.scripts.add(&other.scripts);
        self.captures.add(&other.captures);
        self.payloads.add(&other.payloads);
    }
}

/// The gate's tasks: scripts of the seeds from 1 on, then captures of seed 1, then
/// payload scripts of the seeds from 1 on.
pub fn of_gate(scripts: u64, captures: u64, payloads: u64) -> impl Iterator<Item = Task> + Send {
    let plays = (1..=scripts).map(|seed| Task { seed, lines: SCRIPT_LINES, ..Task::default() });
    let lists = (0..captures).step_by(CAPTURES as usize).map(move |start| {
        let end = captures.min(start + CAPTURES);
        Task { seed: 1, captures: start..end, ..Task::default() }
    });
    let texts =
        (1..=payloads).map(|seed| Task { seed, payload_lines: PAYLOAD_LINES, ..Task::default() });
    plays.chain(lists).chain(texts)
}

/// The soak's tasks: for each seed from this on a script, captures and a payload
/// script.
pub fn of_soak(first: u64) -> impl Iterator<Item = Task> + Send {
    let (lines, captures, payload_lines) = (SCRIPT_LINES, 0..CAPTURES_A_SEED, PAYLOAD_LINES);
    (first..).map(move |seed| Task { seed, lines, captures: captures.clone(), payload_lines })
}

impl Task {
    /// Compares until something differs.
    pub fn run(&self, ours: &dyn Side) -> io::Result<(Totals, Option<Mismatch>)> {
        let mut totals = Totals::default();
        for part in [Task::run_script, Task::run_captures, Task::run_payloads] {
            let mismatch = part(self, ours, &mut totals)?;
            if mismatch.is_some() {
                return Ok((totals, mismatch));
            }
        }
        Ok((totals, None))
    }

    fn run_script(&self, ours: &dyn Side, totals: &mut Totals) -> io::Result<Option<Mismatch>> {
        if self.lines == 0 {
            return Ok(None);
        }
        let (text, coverage) = generator::script(self.seed, self.lines);
        totals.scripts = coverage;
        let name = format!("the script of seed {}", self.seed);
        compare(ours, Sort::Script, name, text.into_bytes())
    }

    fn run_captures(&self, ours: &dyn Side, totals: &mut Totals) -> io::Result<Option<Mismatch>> {
        for index in self.captures.clone() {
            let capture = captures::capture(self.seed, index);
            totals.captures.note(&capture);
            let name = format!("capture {index} of seed {}", self.seed);
            let mismatch = compare(ours, Sort::Capture, name, capture)?;
            if mismatch.is_some() {
                return Ok(mismatch);
            }
        }
        Ok(None)
    }

    fn run_payloads(&self, ours: &dyn Side, totals: &mut Totals) -> io::Result<Option<Mismatch>> {
        if self.payload_lines == 0 {
            return Ok(None);
        }
        let (text, coverage) = payload_scripts::script(self.seed, self.payload_lines);
        totals.payloads = coverage;
        compare(ours, Sort::Payloads, format!("the payload script of seed {}", self.seed), text)
    }
}

fn compare(
    ours: &dyn Side,
    sort: Sort,
    name: String,
    input: Vec<u8>,
) -> io::Result<Option<Mismatch>> {
    let difference = Difference::over(ours, sort, &input)?;
    Ok(difference.map(|difference| Mismatch { sort, name, input, difference }))
}

#[cfg(test)]
mod tests {
    use super::*;

    #[test]
    fn the_gate_takes_every_capture_once() {
        let tasks: Vec<Task> = of_gate(2, 2 * CAPTURES + 5, 3).collect();
        let seeds: Vec<u64> = tasks.iter().map(|task| task.seed).collect();
        assert_eq!(seeds, [1, 2, 1, 1, 1, 1, 2, 3]);
        let lines: Vec<usize> = tasks.iter().map(|task| task.lines).collect();
        assert_eq!(lines, [SCRIPT_LINES, SCRIPT_LINES, 0, 0, 0, 0, 0, 0]);
        let lines: Vec<usize> = tasks.iter().map(|task| task.payload_lines).collect();
        assert_eq!(lines, [0, 0, 0, 0, 0, PAYLOAD_LINES, PAYLOAD_LINES, PAYLOAD_LINES]);
        let indexes: Vec<u64> = tasks.iter().flat_map(|task| task.captures.clone()).collect();
        assert_eq!(indexes, (0..2 * CAPTURES + 5).collect::<Vec<_>>());
    }
}
