//! Counts what the captures of a comparison hold, seen from the bytes alone.

use crate::counts::Counts;
use crate::finder::{self, Search, INPUT_LIMIT, LISTED_SUBNET};
use crate::frame::{self, ALL_SUBNETS, MAX_PAYLOAD, OVERHEAD};
use crate::refusal::Refusal;
use std::ops::Range;

/// What the captures have to hold, all of them together. A frame is listed;
/// what is passed over is a good one of another subnet (C-14).
const REQUIRED: [&str; 37] = [
    "capture: empty",
    "capture: under 12 bytes",
    "capture: longer than 4,096 bytes",
    "capture: nothing found in it",
    "capture: nothing found in it, but frames were passed over",
    "search: found",
    "search: nothing",
    "start: refuse 2",
    "start: refuse 3",
    "start: refuse 4",
    "start: refuse 24",
    "rest: refuse 1",
    "frame: no payload",
    "frame: payload of 240",
    "frame: check byte 0",
    "frame: directly behind another",
    "frame: behind bytes that are none",
    "frame: ends at byte 4,096",
    "frame: inside another, not listed",
    "frame: across byte 4,096, not listed",
    "frame: of subnet 3",
    "frame: of subnet 0",
    "frame: one of another subnet inside it",
    "frame: directly behind one passed over",
    "frame: of subnet 3, inside one passed over",
    "frame: of subnet 0, inside one passed over",
    "frame: begins inside one passed over, ends behind it",
    "passed over: of subnet 2",
    "passed over: of subnet 4",
    "passed over: of subnet 255",
    "passed over: of any other subnet",
    "passed over: no payload",
    "passed over: payload of 240",
    "passed over: check byte 0",
    "passed over: directly behind a frame",
    "passed over: directly behind another passed over",
    "passed over: inside another passed over",
];

/// The highest number that the reader gives.
const LAST_NUMBER: usize = Refusal::OtherSubnet as usize;

#[derive(Clone, Debug, Default)]
pub struct CaptureCoverage {
    cases: Counts,
    captures: u64,
    bytes: u64,
    frames: u64,
    /// By number, the refusals of the reader at the starts tried.
    refused: [u64; LAST_NUMBER + 1],
}

impl CaptureCoverage {
    pub fn note(&mut self, capture: &[u8]) {
        self.captures += 1;
        self.bytes += capture.len() as u64;
        self.note_size(capture.len());
        let line = &capture[..capture.len().min(INPUT_LIMIT)];
        let (mut from, passed_before) = (0, self.passed_over());
        while let Some(end) = self.note_search(line, from) {
            from = end;
        }
        if from == 0 {
            self.cases.count("capture: nothing found in it");
        }
        if from == 0 && self.passed_over() > passed_before {
            self.cases.count("capture: nothing found in it, but frames were passed over");
        }
        if across_the_limit(capture, from) {
            self.cases.count("frame: across byte 4,096, not listed");
        }
    }

    fn note_size(&mut self, size: usize) {
        match size {
            0 => self.cases.count("capture: empty"),
            1..=11 => self.cases.count("capture: under 12 bytes"),
            _ if size > INPUT_LIMIT => self.cases.count("capture: longer than 4,096 bytes"),
            _ => (),
        }
    }

    /// One search from here; gives the end of the frame that it found. The
    /// last 11 places are no starts: the bytes from there on are too few.
    fn note_search(&mut self, line: &[u8], from: usize) -> Option<usize> {
        let mut passed = Vec::new();
        for start in from..line.len() {
            let rest = &line[start..];
            let place = start..start + length_of(rest);
            let refusal = match reading(rest) {
                Ok(()) => {
                    self.cases.count("search: found");
                    self.note_frame(line, &place);
                    self.note_behind(&passed, from, &place);
                    self.note_inside(&passed, &place, rest[2]);
                    return Some(place.end);
                }
                Err(refusal) => refusal,
            };
            self.refused[usize::from(refusal.number())] += 1;
            if refusal == Refusal::OtherSubnet {
                self.note_passed(&line[place.clone()]);
                self.note_place(&passed, from, &place);
                passed.push(place);
            }
        }
        self.cases.count("search: nothing");
        None
    }

    fn note_frame(&mut self, line: &[u8], place: &Range<usize>) {
        self.frames += 1;
        let frame = &line[place.clone()];
        let length = frame.len();
        let cases = [
            (length == OVERHEAD, "frame: no payload"),
            (length == OVERHEAD + MAX_PAYLOAD, "frame: payload of 240"),
            (frame[length - 2..].contains(&0), "frame: check byte 0"),
            (place.end == INPUT_LIMIT, "frame: ends at byte 4,096"),
            (holds_another(frame), "frame: inside another, not listed"),
            (holds_other(frame), "frame: one of another subnet inside it"),
            (frame[2] == LISTED_SUBNET, "frame: of subnet 3"),
            (frame[2] == ALL_SUBNETS, "frame: of subnet 0"),
        ];
        self.count_those(&cases);
    }

    /// What a frame stands behind.
    fn note_behind(&mut self, passed: &[Range<usize>], from: usize, frame: &Range<usize>) {
        let other = passed.iter().any(|other| other.end == frame.start);
        let cases = [
            (frame.start == from && from > 0, "frame: directly behind another"),
            (frame.start > from && passed.is_empty(), "frame: behind bytes that are none"),
            (other, "frame: directly behind one passed over"),
        ];
        self.count_those(&cases);
    }

    /// Whether a frame begins inside one passed over.
    fn note_inside(&mut self, passed: &[Range<usize>], frame: &Range<usize>, subnet: u8) {
        let inside = passed.iter().any(|other| encloses(other, frame));
        let overlaps = |other: &Range<usize>| other.contains(&frame.start) && other.end < frame.end;
        let cases = [
            (inside && subnet == LISTED_SUBNET, "frame: of subnet 3, inside one passed over"),
            (inside && subnet == ALL_SUBNETS, "frame: of subnet 0, inside one passed over"),
            (passed.iter().any(overlaps), "frame: begins inside one passed over, ends behind it"),
        ];
        self.count_those(&cases);
    }

    fn note_passed(&mut self, frame: &[u8]) {
        let (length, subnet) = (frame.len(), frame[2]);
        let cases = [
            (subnet == 2, "passed over: of subnet 2"),
            (subnet == 4, "passed over: of subnet 4"),
            (subnet == 255, "passed over: of subnet 255"),
            (![2, 4, 255].contains(&subnet), "passed over: of any other subnet"),
            (length == OVERHEAD, "passed over: no payload"),
            (length == OVERHEAD + MAX_PAYLOAD, "passed over: payload of 240"),
            (frame[length - 2..].contains(&0), "passed over: check byte 0"),
        ];
        self.count_those(&cases);
    }

    /// Where it stands to the frame before, and to others passed over.
    fn note_place(&mut self, passed: &[Range<usize>], from: usize, place: &Range<usize>) {
        let behind_other = passed.iter().any(|other| other.end == place.start);
        let inside = passed.iter().any(|other| encloses(other, place));
        let cases = [
            (place.start == from && from > 0, "passed over: directly behind a frame"),
            (behind_other, "passed over: directly behind another passed over"),
            (inside, "passed over: inside another passed over"),
        ];
        self.count_those(&cases);
    }

    fn count_those(&mut self, cases: &[(bool, &str)]) {
        for (_, name) in cases.iter().filter(|(holds, _)| *holds) {
            self.cases.count(*name);
        }
    }

    /// Adds what other captures held.
    pub fn add(&mut self, other: &CaptureCoverage) {
        self.cases.add(&other.cases);
        self.captures += other.captures;
        self.bytes += other.bytes;
        self.frames += other.frames;
        for (sum, more) in self.refused.iter_mut().zip(other.refused) {
            *sum += more;
        }
    }

    pub fn captures(&self) -> u64 {
        self.captures
    }

    pub fn bytes(&self) -> u64 {
        self.bytes
    }

    /// The frames listed.
    pub fn frames(&self) -> u64 {
        self.frames
    }

    /// The good frames of another subnet at the starts tried.
    pub fn passed_over(&self) -> u64 {
        self.refused[LAST_NUMBER]
    }

    /// The counts by name, the refusals among them.
    fn all(&self) -> Counts {
        let mut all = self.cases.clone();
        all.set("rest: refuse 1", self.refused[1]);
        for number in [2, 3, 4, LAST_NUMBER] {
            all.set(&format!("start: refuse {number}"), self.refused[number]);
        }
        all
    }

    pub fn missing(&self) -> Vec<String> {
        self.all().missing(REQUIRED.iter().map(|name| name.to_string()).collect())
    }

    pub fn report(&self) -> String {
        let (captures, bytes) = (self.captures, self.bytes);
        let (frames, others) = (self.frames, self.passed_over());
        let mut text = format!("captures: {captures}, {bytes} bytes, {frames} frames listed, ");
        text.push_str(&format!("{others} of other subnets passed over\n"));
        text.push_str(&self.all().section("what they hold"));
        text.push_str("\ncannot be met\n");
        text.push_str("       0  search: spent: framelist searches its input to the end\n");
        text.push_str("       0  start: refuse 1: at a start there are 12 bytes or more\n");
        text
    }
}

/// As many bytes as the length byte asks for.
fn length_of(rest: &[u8]) -> usize {
    rest.get(9).map_or(0, |&n| OVERHEAD + usize::from(n))
}

/// What the reader says of the bytes from a start on: of as many as the
/// length byte asks for, if they are there.
fn reading(rest: &[u8]) -> Result<(), Refusal> {
    frame::read(rest.get(..length_of(rest)).unwrap_or(rest), LISTED_SUBNET).map(|_| ())
}

/// Whether a good frame begins behind a listed frame's first byte.
fn holds_another(frame: &[u8]) -> bool {
    matches!(finder::find(&frame[1..], LISTED_SUBNET, usize::MAX), Search::Found { .. })
}

/// The same for one of another subnet.
fn holds_other(frame: &[u8]) -> bool {
    (1..frame.len()).any(|start| reading(&frame[start..]) == Err(Refusal::OtherSubnet))
}

fn encloses(outer: &Range<usize>, inner: &Range<usize>) -> bool {
    outer.start < inner.start && inner.end <= outer.end
}

/// Whether the bytes past the limit would complete a frame.
fn across_the_limit(capture: &[u8], from: usize) -> bool {
    if capture.len() <= INPUT_LIMIT {
        return false;
    }
    let search = finder::find(&capture[from..], LISTED_SUBNET, INPUT_LIMIT - from);
    matches!(search, Search::Found { .. })
}

#[cfg(test)]
mod tests {
    use super::*;
    use crate::captures::capture;
    use crate::draft::Draft;

    #[test]
    fn the_first_captures_hold_everything() {
        let mut whole = CaptureCoverage::default();
        for index in 0..200 {
            let mut one = CaptureCoverage::default();
            one.note(&capture(1, index));
            whole.add(&one);
        }
        assert_eq!(whole.missing(), Vec::<String>::new());
        assert_eq!(whole.captures(), 200);
    }

    #[test]
    fn what_is_not_there_is_missing() {
        let mut none = CaptureCoverage::default();
        none.note(&[]);
        assert_eq!(none.missing().len(), REQUIRED.len() - 3);
        none.note(&[0; 5]);
        assert!(!none.missing().contains(&"rest: refuse 1".to_string()));
    }

    /// So that the captures that have no fixed shape stay of use for the rest.
    #[test]
    fn two_of_three_good_frames_or_more_are_listed() {
        let mut whole = CaptureCoverage::default();
        (11..311).for_each(|index| whole.note(&capture(1, index)));
        assert!(whole.frames() >= 2 * whole.passed_over());
    }

    const PLACES: [&str; 7] = [
        "start: refuse 24",
        "frame: of subnet 3",
        "frame: directly behind one passed over",
        "passed over: directly behind a frame",
        "frame: of subnet 3, inside one passed over",
        "passed over: inside another passed over",
        "frame: one of another subnet inside it",
    ];

    #[test]
    fn what_is_passed_over_is_seen_by_its_place() {
        let around = |subnet, payload| Draft { subnet, payload, ..Draft::default() }.bytes();
        let (ours, other) = (around(3, vec![1, 2]), around(4, vec![1, 2]));
        let cases = [
            (ours.clone(), [0, 1, 0, 0, 0, 0, 0]),
            (other.clone(), [1, 0, 0, 0, 0, 0, 0]),
            ([&other[..], &ours].concat(), [1, 1, 1, 0, 0, 0, 0]),
            ([&ours[..], &other].concat(), [1, 1, 0, 1, 0, 0, 0]),
            (around(4, ours.clone()), [1, 1, 0, 0, 1, 0, 0]),
            (around(2, other.clone()), [2, 0, 0, 0, 0, 1, 0]),
            (around(3, other), [0, 1, 0, 0, 0, 0, 1]),
            (around(3, ours), [0, 1, 0, 0, 0, 0, 0]),
        ];
        for (line, expected) in cases {
            let mut one = CaptureCoverage::default();
            one.note(&line);
            assert_eq!(PLACES.map(|name| one.all().of(name)), expected);
        }
    }

    #[test]
    fn frames_listed_are_counted_as_the_list_has_them() {
        for index in 0..60 {
            let line = capture(9, index);
            let mut one = CaptureCoverage::default();
            one.note(&line);
            assert_eq!(one.frames(), finder::list(&line).lines().count() as u64);
        }
    }
}
