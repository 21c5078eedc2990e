//! Counts what a script reached: answers, refusals, exchanges, drops, pools
//! and disturbances, each as it was answered.

mod cases;
mod condensed;
mod discoveries;
mod indexes;
mod old_subnet;
mod required;
mod required_versions;
mod retypings;
mod subnets;
mod versions;

use crate::counts::Counts;
use crate::line::{Kind, Line};
use crate::panel::Panel;
use crate::rows::Rows;
use crate::state::Phase;
use cases::head;
use indexes::Indexes;
use required_versions::VERSION_BYTES;
use retypings::Retypings;
use subnets::Subnets;

#[derive(Clone, Debug, Default)]
pub struct Coverage {
    answers: Counts,
    refusals: Counts,
    cases: Counts,
    disturbances: Counts,
    dropped: Vec<u64>,
    /// The wait in which a frame was refused for want of room.
    short: Option<Phase>,
    retypings: Retypings,
    indexes: Indexes,
    subnets: Subnets,
    version_bytes: Rows,
    lines: u64,
    steps: u64,
    bytes: u64,
}

impl Coverage {
    /// Notes one line, its answer, and the panel before and after it.
    pub fn note(&mut self, before: &Panel, line: &Line, answer: Option<&str>, after: &Panel) {
        self.lines += 1;
        self.bytes += line.text.len() as u64 + 1;
        match answer {
            Some(answer) => self.note_answer(before, line, answer, after),
            None => self.cases.count("passed over"),
        }
    }

    fn note_answer(&mut self, before: &Panel, line: &Line, answer: &str, after: &Panel) {
        let head = head(answer);
        self.steps += u64::from(cases::is_step(&line.text) && head != "bad line");
        let refused = head.starts_with("refuse ");
        let counts = if refused { &mut self.refusals } else { &mut self.answers };
        counts.count(head.clone());
        self.cases.count(cases::case(before, &line.text, &head, after));
        for case in cases::further(before, &line.text, answer, after) {
            self.cases.count(case);
        }
        if line.kind != Kind::Plain {
            self.disturbances.count(cases::disturbance(before, line, &head));
        }
        for case in self.retypings.note(before, &line.text, &head, after) {
            self.cases.count(case);
        }
        for case in self.indexes.note(before, answer, &head, after) {
            self.cases.count(case);
        }
        for case in self.subnets.note(before, &line.text, &head, after) {
            self.cases.count(case);
        }
        self.note_versions(before, &line.text, answer, &head, after);
        self.note_returns(before, &line.text, &head, after);
        self.note_room(before, &head);
    }

    /// What a line is of boards that speak 1.0 (C-15).
    fn note_versions(
        &mut self,
        before: &Panel,
        line: &str,
        answer: &str,
        head: &str,
        after: &Panel,
    ) {
        let parts = [
            versions::cases(before, line, answer, head, after),
            condensed::cases(before, line, head, after),
            old_subnet::cases(before, line, head, after),
        ];
        for case in parts.concat() {
            self.cases.count(case);
        }
        let byte = line.split(' ').nth(4).and_then(|word| word.parse().ok());
        if let ("rest joined", Some(byte)) = (head, byte) {
            self.version_bytes.count(VERSION_BYTES, byte);
        }
    }

    /// Sees a frame of a discovery taken after one was refused for its room.
    fn note_room(&mut self, before: &Panel, head: &str) {
        let phase = &before.coordinator.phase;
        if self.short.as_ref() == Some(phase) {
            if let Some(case) = discoveries::room_came(before, head) {
                self.cases.count(case);
            }
        }
        if head == "refuse 11" && phase.discovers() {
            self.short = Some(phase.clone());
        }
    }

    /// Keeps the MACs dropped since the setup and sees them join again.
    fn note_returns(&mut self, before: &Panel, line: &str, head: &str, after: &Panel) {
        let mac = line.split(' ').nth(2).and_then(|word| word.parse().ok());
        match (head, mac, before.coordinator.phase.awaited()) {
            ("ready", _, _) => self.dropped.clear(),
            ("rest dropped", _, Some((board, _))) => self.dropped.push(before.record(board).mac),
            ("rest joined", Some(mac), _) if self.dropped.contains(&mac) => {
                self.dropped.retain(|&other| other != mac);
                self.cases.count("a board came back after it was dropped");
            }
            ("transmit joined", _, Some((board, _))) => {
                let mac = after.record(board).mac;
                if self.dropped.contains(&mac) {
                    self.dropped.retain(|&other| other != mac);
                    self.cases.count("a dropped board was discovered");
                }
            }
            _ => (),
        }
    }

    /// Adds what another script reached.
    pub fn add(&mut self, other: &Coverage) {
        self.answers.add(&other.answers);
        self.refusals.add(&other.refusals);
        self.cases.add(&other.cases);
        self.disturbances.add(&other.disturbances);
        self.version_bytes.add(&other.version_bytes);
        self.lines += other.lines;
        self.steps += other.steps;
        self.bytes += other.bytes;
    }

    pub fn lines(&self) -> u64 {
        self.lines
    }

    /// The lines that played a step: join, discover, turn, frame or quiet.
    pub fn steps(&self) -> u64 {
        self.steps
    }

    /// The size of the scripts so far, line ends counted.
    pub fn bytes(&self) -> u64 {
        self.bytes
    }

    /// What can be given and was not.
    pub fn missing(&self) -> Vec<String> {
        let mut missing = self.answers.missing(required::answers());
        missing.extend(self.refusals.missing(required::refusals()));
        missing.extend(self.cases.missing(required::cases()));
        missing.extend(self.cases.missing(required_versions::cases()));
        missing.extend(self.version_bytes.missing(&required_versions::rows()));
        missing.extend(self.disturbances.missing(required::disturbances()));
        missing
    }

    /// The counts, and what cannot be met.
    pub fn report(&self) -> String {
        let (lines, steps, bytes) = (self.lines, self.steps, self.bytes);
        let mut text = format!("scripts: {lines} lines, {steps} of them steps, {bytes} bytes\n");
        text.push_str(&self.answers.section("answers"));
        text.push_str("\nrefusals\n");
        for number in required::numbers() {
            let name = format!("refuse {number}");
            text.push_str(&format!("{:8}  {name}\n", self.refusals.of(&name)));
        }
        text.push_str(&self.cases.section("cases"));
        text.push_str(&self.version_bytes.section("versions", &required_versions::rows()));
        text.push_str(&self.disturbances.section("disturbances"));
        text.push_str("\ncannot be met\n");
        for (name, why) in required::IMPOSSIBLE {
            text.push_str(&format!("       0  {name}: {why}\n"));
        }
        text
    }
}
