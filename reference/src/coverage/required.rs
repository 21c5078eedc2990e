//! What the scripts of a comparison have to reach, all of them together.

use crate::line::Kind;

/// The pools that scripts go through, by number of addresses.
pub const POOL_SIZES: [usize; 8] = [1, 2, 3, 8, 15, 17, 39, 40];

const WAITS: [&str; 4] = ["offer", "list", "forward", "return"];
/// The waits of a discovery.
const SEEKING: [&str; 3] = ["search", "identify", "assign"];
/// Where a discovery can stand: its waits, identify after its ACK too, and its
/// dues.
const STAGES: [&str; 6] =
    ["search", "identify due", "identify", "identify, acknowledged", "assign due", "assign"];
pub const STAGE_WAITS: [&str; 4] = ["search", "identify", "identify, acknowledged", "assign"];
const STAGE_DUES: [&str; 2] = ["identify due", "assign due"];
/// The waits in which a board can miss for the third time.
const DROPS: [&str; 3] = ["offer", "list", "forward"];

/// What no script can meet, and why.
pub const IMPOSSIBLE: [(&str, &str); 2] = [
    ("refuse 10", "the panel never writes over 240: what it reads is refused by 2 before"),
    ("a drop after a return", "its board was heard in the request, and this is its first miss"),
];

fn texts(names: &[&str]) -> Vec<String> {
    names.iter().map(|name| name.to_string()).collect()
}

pub fn answers() -> Vec<String> {
    texts(&[
        "ready",
        "rest",
        "rest joined",
        "rest dropped",
        "wait offer",
        "wait list",
        "wait forward",
        "wait forward 0",
        "wait return",
        "wait search",
        "wait identify",
        "wait identify 0",
        "wait assign",
        "deliver",
        "transmit",
        "transmit joined",
        "listed",
        "bad line",
    ])
}

/// The numbers that there are; 17 is retired (C-23).
pub fn numbers() -> impl Iterator<Item = u8> {
    (1..=16).chain(18..=25)
}

pub fn refusals() -> Vec<String> {
    let names = numbers().map(|number| format!("refuse {number}"));
    names.filter(|name| IMPOSSIBLE.iter().all(|(other, _)| other != name)).collect()
}

/// Each step with each of its answers, by exchange where there is one.
pub fn cases() -> Vec<String> {
    let mut cases = texts(&FIXED_CASES);
    for wait in WAITS {
        cases.push(format!("turn: wait {wait}"));
        cases.push(format!("turn: wait {wait}, room to the byte"));
        cases.push(format!("turn: refuse 11 ({wait})"));
        cases.push(format!("join: refuse 14 (waiting, {wait})"));
        cases.push(format!("frame: refuse 7 ({wait})"));
        cases.push(format!("frame: check byte 0 taken ({wait})"));
        cases.push(format!("quiet: rest ({wait}, a miss)"));
        cases.push(format!("discover: refuse 14 (waiting, {wait})"));
    }
    cases.extend(discoveries());
    cases.extend(texts(&RETYPED));
    cases.extend(texts(&INDEX_SENT));
    cases.extend(indexes());
    cases.extend(subnets());
    for wait in DROPS {
        cases.push(format!("quiet: rest dropped ({wait}, a miss)"));
    }
    for method in 1..=3 {
        cases.push(format!("frame: transmit (offer, method {method}, passed on)"));
        cases.push(format!("frame: transmit (offer, method {method}, discarded)"));
    }
    for k in POOL_SIZES {
        cases.push(format!("setup: ready (k {k})"));
        cases.push(format!("join: refuse 16 (k {k})"));
        cases.push(format!("discover: refuse 16 (k {k})"));
        cases.push(format!("turn: wait offer (k {k})"));
        cases.push(format!("quiet: rest dropped (k {k})"));
    }
    cases
}

const FIXED_CASES: [&str; 52] = [
    "bad line",
    "passed over",
    "table: listed",
    "setup: refuse 13",
    "setup: refuse 21",
    "join: rest joined (new)",
    "join: rest joined (came back as it was)",
    "join: rest joined (came back as something else)",
    "join: refuse 12",
    "join: refuse 12, a listed MAC",
    "join: refuse 13",
    "join: refuse 14 (list due)",
    "join: refuse 14 (forward due)",
    "join: refuse 14 (return due)",
    "join: refuse 15",
    "join: refuse 22",
    "turn: refuse 18",
    "turn: refuse 19",
    "turn: refuse 22",
    "frame: refuse 1",
    "frame: refuse 2",
    "frame: refuse 3",
    "frame: refuse 4",
    "frame: refuse 5",
    "frame: refuse 6 (no wait)",
    "frame: refuse 6 (another source)",
    "frame: refuse 8",
    "frame: refuse 9",
    "frame: refuse 11",
    "frame: refuse 22",
    "frame: refuse 24",
    "frame: deliver",
    "frame: deliver, room to the byte",
    "frame: wait forward 0",
    "frame: transmit (list)",
    "frame: transmit (forward)",
    "frame: transmit, room to the byte",
    "frame: rest (offer)",
    "frame: rest (return)",
    "frame: session changed (offer)",
    "frame: session changed (forward)",
    "frame: session changed (return)",
    "quiet: rest (forward, ACK had come)",
    "quiet: rest dropped, nobody left",
    "quiet: rest dropped, others left",
    "quiet: refuse 20",
    "quiet: refuse 22",
    "a board came back after it was dropped",
    "a dropped board was discovered",
    "a position freed was taken again, by discovery",
    "frame: transmit joined, room to the byte",
    "a position freed was taken again",
];

/// Every path through a discovery, every way it breaks off, and every refusal
/// in it.
fn discoveries() -> Vec<String> {
    let mut cases = texts(&PATHS);
    for stage in STAGES {
        for (step, number) in [("join", 12), ("join", 14), ("discover", 14)] {
            cases.push(format!("{step} in {stage}: refuse {number}"));
        }
        cases.push(format!("setup in {stage}: ready"));
    }
    for stage in STAGE_WAITS {
        cases.push(format!("turn in {stage}: refuse 18"));
        let numbers = (1..=6).chain([24]);
        cases.extend(numbers.map(|number| format!("frame in {stage}: refuse {number}")));
        cases.push(format!("frame in {stage} (another type): refuse 7"));
        cases.push(format!("frame in {stage} (another response): refuse 7"));
    }
    for stage in STAGE_DUES {
        cases.push(format!("join in {stage}: refuse 13"));
        cases.push(format!("turn in {stage}: refuse 11"));
        cases.push(format!("frame in {stage}: refuse 6"));
        cases.push(format!("frame in {stage}: refuse 24"));
        cases.push(format!("quiet in {stage}: refuse 20"));
    }
    for stage in ["identify", "identify, acknowledged"] {
        cases.extend(ANSWERS.iter().map(|how| format!("frame in {stage} {how}")));
    }
    for wait in SEEKING {
        cases.push(format!("frame: check byte 0 taken ({wait})"));
    }
    for response in ["0xF9", "0xFA", "0xFB"] {
        cases.extend(OUTSIDE.iter().map(|place| format!("{response} {place}")));
    }
    cases
}

/// What can become of a Get Node ID Response, with or without an ACK before it.
const ANSWERS: [&str; 14] = [
    "(it is new): transmit joined",
    "(it came back as it was): transmit joined",
    "(it came back as something else): transmit joined",
    "(type 0): transmit",
    "(type 165): transmit",
    "(a bad type, but its misses are cleared): transmit",
    "(MAC 0): transmit",
    "(too high a MAC): transmit",
    "(listed at another position): transmit",
    "(listed at another position, the misses stay): transmit",
    "(new where another is listed): transmit",
    "(new where another is listed, whose misses stay): transmit",
    "(another length): refuse 7",
    "(no ACK by its form): refuse 7",
];

/// A response of the exchange where none runs.
const OUTSIDE: [&str; 10] = [
    "at rest: refuse 23",
    "while a list is due: refuse 23",
    "while a forward is due: refuse 23",
    "while a return is due: refuse 23",
    "in offer: refuse 23",
    "in list: refuse 23",
    "in return: refuse 23",
    "in the forward of another request: refuse 23",
    "in the forward of its request: transmit",
    "in the forward of its request: refuse 6",
];

const PATHS: [&str; 49] = [
    "discover at rest: wait search",
    "discover at rest, nobody listed: wait search",
    "discover again, nobody listed: wait search",
    "discover at rest: refuse 11",
    "discover at rest, nobody listed: refuse 11",
    "discover at rest: refuse 16",
    "discover while held: refuse 15",
    "discover again: refuse 15",
    "discover while busy: refuse 14",
    "discover: refuse 14 (list due)",
    "discover: refuse 14 (forward due)",
    "discover: refuse 14 (return due)",
    "discover: refuse 22",
    "discover: wait search, room to the byte",
    "frame in search (a new MAC): rest",
    "frame in search (a listed MAC): rest",
    "frame in search (type 0): rest",
    "frame in search (type 165): rest",
    "frame in search (MAC 0): rest",
    "frame in search (too high a MAC): rest",
    "frame in search (another length): refuse 7",
    "quiet in search: rest",
    "turn in identify due: wait identify",
    "turn in identify due (nobody listed): wait identify",
    "turn: wait identify, room to the byte",
    "frame in identify (a free address): wait identify 0",
    "frame in identify (the listed board): wait identify 0",
    "frame in identify (the listed board, its misses are cleared): wait identify 0",
    "frame in identify (another MAC): wait identify 0",
    "frame in identify (another MAC, the misses stay): wait identify 0",
    "frame in identify, acknowledged (a second ACK): refuse 7",
    "frame in identify: refuse 11",
    "frame in identify, acknowledged: refuse 11",
    "frame in identify: taken when there was room",
    "quiet in identify (a free address): rest",
    "quiet in identify (its board has missed twice): rest",
    "quiet in identify, acknowledged (a free address): rest",
    "quiet in identify, acknowledged (a listed board's address): rest",
    "turn in assign due: wait assign",
    "turn in assign due (nobody listed): wait assign",
    "turn: wait assign, room to the byte",
    "frame in assign (it is new): transmit joined",
    "frame in assign (it came back as it was): transmit joined",
    "frame in assign (it came back as something else): transmit joined",
    "frame in assign: refuse 8",
    "frame in assign: refuse 11",
    "frame in assign: taken when there was room",
    "quiet in assign (a free address): rest",
    "quiet in assign (its board has missed twice): rest",
];

/// What goes by the types of boards that came back as something else.
const RETYPED: [&str; 6] = [
    "a list told of a retyping (join)",
    "a list told of a retyping (identify)",
    "a list told of a retyping (assign)",
    "a request of method 1 was passed on to a retyped board",
    "a request of method 2 was passed on to a retyped board",
    "a request for the type that a board had was discarded",
];

/// The frames that carry an index (C-13), each with another than 0.
const INDEX_SENT: [&str; 7] = [
    "turn: wait offer, an index above 0",
    "turn: wait list, an index above 0",
    "turn: wait forward, an index above 0",
    "turn: wait identify, an index above 0",
    "frame: deliver, an index above 0",
    "frame: transmit, an index above 0",
    "frame: transmit joined, an index above 0",
];

/// What joins, retypings and drops do to the indexes on record (C-13), and a
/// table that shows each of these.
fn indexes() -> Vec<String> {
    let mut moves = vec!["a drop lowered the index of another board".to_string()];
    for way in ["join", "identify", "assign"] {
        for step in ["a join of a new board", "a join as it was", "a retyping"] {
            moves.push(format!("{step} ({way}) gave its board an index above 0"));
        }
        moves.push(format!("a join of a new board ({way}) raised the index of another board"));
        moves.push(format!("a retyping ({way}) raised the index of another board"));
        moves.push(format!("a retyping ({way}) lowered the index of another board"));
    }
    let shown: Vec<String> =
        moves.iter().map(|case| format!("a table showed that {case}")).collect();
    moves.extend(shown);
    moves
}

/// What each wait takes, an acknowledged one by itself, as it is answered.
pub const TAKEN: [(&str, &[&str]); 9] = [
    ("offer", &["rest", "deliver", "transmit"]),
    ("list", &["transmit"]),
    ("forward", &["wait forward 0", "transmit"]),
    ("forward, acknowledged", &["transmit"]),
    ("return", &["rest"]),
    ("search", &["rest"]),
    ("identify", &["wait identify 0", "transmit", "transmit joined"]),
    ("identify, acknowledged", &["transmit", "transmit joined"]),
    ("assign", &["transmit joined"]),
];

/// The numbers that come after 24, where a frame can get them.
pub const AFTER_24: [(&str, &[u8]); 15] = [
    ("offer", &[5, 23, 6, 7, 9, 11]),
    ("list", &[5, 23, 6, 7, 8, 11]),
    ("forward", &[5, 23, 6, 7, 11]),
    ("forward, acknowledged", &[5, 23, 6, 7, 11]),
    ("return", &[5, 23, 6, 7]),
    ("search", &[5, 6, 7]),
    ("identify", &[5, 6, 7, 11]),
    ("identify, acknowledged", &[5, 6, 7, 11]),
    ("assign", &[5, 6, 7, 8, 11]),
    ("no wait", &[5, 23, 6]),
    ("no wait, list due", &[5, 23, 6]),
    ("no wait, forward due", &[5, 23, 6]),
    ("no wait, return due", &[5, 23, 6]),
    ("no wait, identify due", &[5, 6]),
    ("no wait, assign due", &[5, 6]),
];

/// Frames of another subnet, and of 0 (C-14).
fn subnets() -> Vec<String> {
    let mut cases = texts(&OTHER_SUBNETS);
    for (wait, answers) in TAKEN {
        for answer in answers {
            cases.push(format!("another subnet in {wait}: refuse 24, else {answer}"));
            cases.push(format!("subnet 0 in {wait}: {answer}"));
        }
        cases.push(format!("another subnet in {wait}, ours is 0: refuse 24"));
        cases.push(format!("subnet 0 in {wait}, ours is 0: taken"));
        cases.push(format!("frame in {wait} after one of another subnet: taken"));
        cases.push(format!("quiet in {wait} after one of another subnet: rest"));
    }
    for (place, numbers) in AFTER_24 {
        for number in numbers {
            cases.push(format!("another subnet in {place}: refuse 24, else refuse {number}"));
            cases.push(format!("subnet 0 in {place}: refuse {number}"));
        }
    }
    for wait in DROPS {
        cases.push(format!("quiet in {wait} after one of another subnet: rest dropped"));
    }
    cases
}

const OTHER_SUBNETS: [&str; 17] = [
    "setup: ready (subnet 0)",
    "setup: ready (subnet 2)",
    "setup: ready (subnet 3)",
    "setup: ready (subnet 255)",
    "setup: ready (another subnet)",
    "another subnet: refuse 1",
    "another subnet: refuse 2",
    "another subnet: refuse 3",
    "another subnet: refuse 4",
    "another subnet (255): refuse 24",
    "another subnet (one above ours): refuse 24",
    "another subnet (one below ours): refuse 24",
    "another subnet (a bit from ours): refuse 24",
    "another subnet (above ours): refuse 24",
    "another subnet (below ours): refuse 24",
    "another subnet, a check byte 0: refuse 24",
    "rest dropped, though another subnet answered all three times",
];

/// Each disturbance where it can be, as it has to be answered there.
pub fn disturbances() -> Vec<String> {
    let mut names = Vec::new();
    for (kind, answers) in IN_EVERY_WAIT {
        for wait in WAITS.into_iter().chain(SEEKING) {
            names.extend(answers.iter().map(|answer| named(*kind, wait, answer)));
        }
    }
    names.extend(DROPS.iter().map(|wait| named(Kind::Silent, wait, "rest dropped")));
    names.extend(SINGLE.iter().map(|(kind, place, answer)| named(*kind, place, answer)));
    names
}

/// The name under which a disturbance is counted.
pub fn named(kind: Kind, place: &str, answer: &str) -> String {
    format!("{} ({place}): {answer}", kind.name())
}

const IN_EVERY_WAIT: &[(Kind, &[&str])] = &[
    (Kind::Silent, &["rest"]),
    (Kind::ForAnother, &["refuse 6"]),
    (Kind::Stranger, &["refuse 6"]),
    (Kind::NewMac, &["refuse 7"]),
    (Kind::Damaged, &["refuse 4"]),
    (Kind::Cut, &["refuse 1", "refuse 3"]),
    (Kind::RunTogether, &["refuse 3"]),
    (Kind::Padded, &["refuse 3"]),
    (Kind::OverLong, &["refuse 2"]),
    (Kind::Foreign, &["refuse 5"]),
    (Kind::Unexpected, &["refuse 7"]),
    (Kind::NoAck, &["refuse 7"]),
    (Kind::OtherSubnet, &["refuse 24"]),
    (Kind::Faults, &["refuse 4", "refuse 24", "refuse 5", "refuse 6"]),
];

const SINGLE: &[(Kind, &str, &str)] = &[
    (Kind::Answers, "offer", "rest"),
    (Kind::Answers, "offer", "deliver"),
    (Kind::Answers, "offer", "transmit"),
    (Kind::Answers, "list", "transmit"),
    (Kind::Answers, "forward", "wait forward 0"),
    (Kind::Answers, "forward", "transmit"),
    (Kind::Answers, "return", "rest"),
    (Kind::Late, "no wait", "refuse 6"),
    (Kind::Late, "the wait for another", "refuse 6"),
    (Kind::Late, "a later wait for it", "refuse 7"),
    (Kind::Late, "a later wait for it", "rest"),
    (Kind::Answers, "search", "rest"),
    (Kind::Answers, "identify", "wait identify 0"),
    (Kind::Answers, "identify", "transmit"),
    (Kind::Answers, "identify", "transmit joined"),
    (Kind::Answers, "assign", "transmit joined"),
    (Kind::NewMac, "identify", "wait identify 0"),
    (Kind::OtherLength, "search", "refuse 7"),
    (Kind::OtherLength, "identify", "refuse 7"),
    (Kind::OtherLength, "assign", "refuse 8"),
    (Kind::OtherEcho, "assign", "refuse 8"),
    (Kind::OtherSubnet, "no wait", "refuse 24"),
    (Kind::Misplaced, "no wait", "refuse 23"),
    (Kind::Misplaced, "offer", "refuse 23"),
    (Kind::Misplaced, "list", "refuse 23"),
    (Kind::Misplaced, "forward", "refuse 23"),
    (Kind::Misplaced, "return", "refuse 23"),
    (Kind::Misplaced, "search", "refuse 6"),
    (Kind::Misplaced, "search", "refuse 7"),
    (Kind::Misplaced, "identify", "refuse 6"),
    (Kind::Misplaced, "identify", "refuse 7"),
    (Kind::Misplaced, "assign", "refuse 6"),
    (Kind::Misplaced, "assign", "refuse 7"),
    (Kind::OneShort, "discover", "refuse 11"),
    (Kind::OneShort, "turn, identify", "refuse 11"),
    (Kind::OneShort, "turn, assign", "refuse 11"),
    (Kind::OneShort, "frame, identify", "refuse 11"),
    (Kind::OneShort, "frame, assign", "refuse 11"),
    (Kind::Faults, "identify", "refuse 7"),
    (Kind::Faults, "assign", "refuse 7"),
    (Kind::Faults, "assign", "refuse 8"),
    (Kind::NewSession, "offer", "rest"),
    (Kind::NewSession, "list", "refuse 7"),
    (Kind::NewSession, "forward", "wait forward 0"),
    (Kind::NewSession, "return", "rest"),
    (Kind::ComesBack, "no wait", "rest joined"),
    (Kind::Rejoins, "no wait", "rest joined"),
    (Kind::OtherEcho, "list", "refuse 8"),
    (Kind::BadMethod, "offer", "refuse 9"),
    (Kind::OneShort, "turn, offer", "refuse 11"),
    (Kind::OneShort, "turn, list", "refuse 11"),
    (Kind::OneShort, "turn, forward", "refuse 11"),
    (Kind::OneShort, "turn, return", "refuse 11"),
    (Kind::OneShort, "frame, offer", "refuse 11"),
    (Kind::OneShort, "frame, list", "refuse 11"),
    (Kind::OneShort, "frame, forward", "refuse 11"),
    (Kind::Faults, "offer", "refuse 7"),
    (Kind::Faults, "offer", "refuse 9"),
    (Kind::Faults, "list", "refuse 7"),
    (Kind::Faults, "list", "refuse 8"),
    (Kind::Faults, "forward", "refuse 7"),
];
