//! One line that says how far a soak has come.

use super::pool::Outcome;
use std::io::{self, Write};
use std::time::{Duration, Instant};

/// A terminal's line is written over; elsewhere a line a minute is enough.
#[derive(Clone, Copy, Debug, PartialEq, Eq)]
pub enum Style {
    Terminal,
    Lines,
}

pub struct Progress {
    style: Style,
    first_seed: u64,
    started: Instant,
    told: Option<Instant>,
}

impl Progress {
    pub fn new(style: Style, first_seed: u64) -> Progress {
        Progress { style, first_seed, started: Instant::now(), told: None }
    }

    /// Tells it if the last telling is long enough ago.
    pub fn watch(&mut self, outcome: &Outcome) {
        let pause = match self.style {
            Style::Terminal => Duration::from_millis(500),
            Style::Lines => Duration::from_secs(60),
        };
        let since = self.told.unwrap_or(self.started);
        if since.elapsed() >= pause {
            self.told = Some(Instant::now());
            self.tell(&self.text(outcome));
        }
    }

    /// What cannot be shown is not worth an end.
    fn tell(&self, text: &str) {
        let mut out = io::stdout().lock();
        let _ = match self.style {
            Style::Terminal => write!(out, "\r{text}\x1b[K").and_then(|()| out.flush()),
            Style::Lines => writeln!(out, "{text}"),
        };
    }

    /// Leaves the terminal's line free for what follows.
    pub fn clear(&self) {
        if self.style == Style::Terminal {
            print!("\r\x1b[K");
        }
    }

    pub fn text(&self, outcome: &Outcome) -> String {
        let seconds = self.started.elapsed().as_secs();
        let totals = &outcome.totals;
        let (lines, captures) = (totals.scripts.lines(), totals.captures.captures());
        let (payloads, seeds) = (totals.payloads.lines(), outcome.tasks);
        let counts = format!("{lines} lines, {captures} captures, {payloads} payload lines");
        format!("soak: {seconds} s, {counts}, {seeds} seeds from {}", self.first_seed)
    }
}

#[cfg(test)]
mod tests {
    use super::*;

    #[test]
    fn the_line_has_the_counts() {
        let progress = Progress::new(Style::Lines, 70);
        let text = progress.text(&Outcome { tasks: 3, ..Outcome::default() });
        assert_eq!(text, "soak: 0 s, 0 lines, 0 captures, 0 payload lines, 3 seeds from 70");
    }
}
