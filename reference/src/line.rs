//! A line of a generated script, and what it plays.

/// What a line plays: the steps of a day on which all goes well, and what can
/// disturb them.
#[derive(Clone, Copy, Debug, PartialEq, Eq, PartialOrd, Ord)]
pub enum Kind {
    Plain,
    Answers,
    Silent,
    Late,
    ForAnother,
    Stranger,
    NewSession,
    NewMac,
    ComesBack,
    Rejoins,
    Damaged,
    Cut,
    RunTogether,
    Padded,
    OverLong,
    Foreign,
    Unexpected,
    OtherLength,
    Misplaced,
    NoAck,
    OtherEcho,
    BadMethod,
    ZeroCheck,
    OtherSubnet,
    OneShort,
    Narrow,
    Faults,
}

impl Kind {
    pub fn name(self) -> &'static str {
        match self {
            Kind::Plain => "a plain line",
            Kind::Answers => "a board answers",
            Kind::Silent => "a board stays silent",
            Kind::Late => "an answer comes late",
            Kind::ForAnother => "a board answers for another",
            Kind::Stranger => "a stranger answers",
            Kind::NewSession => "a board has another session",
            Kind::NewMac => "a board has another MAC",
            Kind::ComesBack => "a listed board joins again",
            Kind::Rejoins => "a dropped board joins again",
            Kind::Damaged => "a frame is damaged",
            Kind::Cut => "a frame is cut",
            Kind::RunTogether => "two frames are joined",
            Kind::Padded => "bytes follow a frame",
            Kind::OverLong => "a length is above 240",
            Kind::Foreign => "a frame is for others",
            Kind::Unexpected => "a type is near the awaited",
            Kind::OtherLength => "a response has another length",
            Kind::Misplaced => "a response of a discovery is out of place",
            Kind::NoAck => "an ACK has another form",
            Kind::OtherEcho => "an echo differs",
            Kind::BadMethod => "a method is above 3",
            Kind::ZeroCheck => "a check byte is 0",
            Kind::OtherSubnet => "a frame is of another subnet",
            Kind::OneShort => "the room is one byte short",
            Kind::Narrow => "the room is far too short",
            Kind::Faults => "two faults at once",
        }
    }
}

/// The text, without its line end, and what it plays.
#[derive(Clone, Debug, PartialEq, Eq)]
pub struct Line {
    pub kind: Kind,
    pub text: String,
}

impl Line {
    pub fn new(kind: Kind, text: impl Into<String>) -> Line {
        Line { kind, text: text.into() }
    }

    pub fn plain(text: impl Into<String>) -> Line {
        Line::new(Kind::Plain, text)
    }
}
