//! The way from message to payload to message through a frame, as the counts see
//! it: where it ends, and by what. That the reader says the same is seen in what a
//! comparison reaches.

use crate::encapsulation::{ENCAPSULATION, FRONT, LEVEL, MOST_LEVELS};

/// Why the payload of an encapsulating message is none.
#[derive(Clone, Copy, Debug, PartialEq, Eq)]
pub enum Cause {
    FewBytes,
    LongLength,
    ShortLength,
}

pub const CAUSES: [Cause; 3] = [Cause::FewBytes, Cause::LongLength, Cause::ShortLength];

impl Cause {
    pub fn name(self) -> &'static str {
        match self {
            Cause::FewBytes => "too few bytes",
            Cause::LongLength => "length byte too large",
            Cause::ShortLength => "length byte too small",
        }
    }
}

/// What a fifth level would be if it were read. One with a sixth in it stands apart,
/// so that no script can do without it: frames of five levels alone do not show a
/// reader that goes wrong further inside.
#[derive(Clone, Copy, Debug, PartialEq, Eq)]
pub enum Fifth {
    Bad(Cause),
    WithPlain,
    WithSixth,
}

impl Fifth {
    fn name(self) -> &'static str {
        match self {
            Fifth::Bad(cause) => cause.name(),
            Fifth::WithPlain => "whole, a plain message in it",
            Fifth::WithSixth => "whole, a sixth in it",
        }
    }
}

#[derive(Clone, Copy, Debug, PartialEq, Eq)]
pub enum End<'a> {
    Plain {
        depth: usize,
        message_type: u8,
        payload: &'a [u8],
    },
    /// The payload at this level is not code, operands and one whole message.
    BadInner {
        level: usize,
        cause: Cause,
        payload: &'a [u8],
    },
    TooDeep {
        fifth: Fifth,
        payload: &'a [u8],
    },
}

impl End<'_> {
    pub fn name(&self) -> String {
        match self {
            End::Plain { depth, .. } => plain_name(*depth),
            End::BadInner { level, cause, .. } => bad_name(*level, *cause),
            End::TooDeep { fifth, .. } => deep_name(*fifth),
        }
    }
}

pub fn plain_name(depth: usize) -> String {
    format!("plain inside {depth}")
}

pub fn bad_name(level: usize, cause: Cause) -> String {
    format!("level {level}, {}", cause.name())
}

pub fn deep_name(fifth: Fifth) -> String {
    format!("a fifth level, {}", fifth.name())
}

/// Goes through the message of this type and payload.
pub fn walk(message_type: u8, payload: &[u8]) -> End<'_> {
    let (mut message_type, mut payload) = (message_type, payload);
    let mut depth = 0;
    while message_type == ENCAPSULATION {
        match cause(payload) {
            _ if depth == MOST_LEVELS => return End::TooDeep { fifth: fifth(payload), payload },
            Some(cause) => return End::BadInner { level: depth + 1, cause, payload },
            None => depth += 1,
        }
        (message_type, payload) = (payload[FRONT], &payload[LEVEL..]);
    }
    End::Plain { depth, message_type, payload }
}

fn fifth(payload: &[u8]) -> Fifth {
    match cause(payload) {
        Some(cause) => Fifth::Bad(cause),
        None if payload[FRONT] == ENCAPSULATION => Fifth::WithSixth,
        None => Fifth::WithPlain,
    }
}

/// What is wrong with the payload of an encapsulating message.
fn cause(payload: &[u8]) -> Option<Cause> {
    let (length, size) = match lengths(payload) {
        Some(lengths) => lengths,
        None => return Some(Cause::FewBytes),
    };
    match length {
        _ if length > size => Some(Cause::LongLength),
        _ if length < size => Some(Cause::ShortLength),
        _ => None,
    }
}

/// The length byte of the message inside, and how many bytes follow it.
pub fn lengths(payload: &[u8]) -> Option<(usize, usize)> {
    let length = *payload.get(LEVEL - 1)?;
    Some((usize::from(length), payload.len() - LEVEL))
}

#[cfg(test)]
mod tests {
    use super::*;

    #[test]
    fn a_walk_ends_where_the_message_is_plain_or_not_whole() {
        let inner = [1, 2, 3, 4, 5, 6, 1, 9];
        let plain = End::Plain { depth: 1, message_type: 5, payload: &[9] };
        assert_eq!(walk(0x7E, &inner), plain);
        assert_eq!(walk(5, &inner), End::Plain { depth: 0, message_type: 5, payload: &inner });
        let cases = [
            (&inner[..6], Cause::FewBytes),
            (&inner[..7], Cause::LongLength),
            (&[1, 2, 3, 4, 5, 6, 0, 9], Cause::ShortLength),
        ];
        for (payload, cause) in cases {
            assert_eq!(walk(0x7E, payload), End::BadInner { level: 1, cause, payload });
        }
    }

    #[test]
    fn a_fifth_level_is_one_whatever_is_in_it() {
        let level = |length: u8| [0, 0, 0, 0, 0x7E, 0, length];
        let four = [level(23), level(16), level(9), level(2)].concat();
        let bytes = [&four[..], &[0, 0]].concat();
        let fifth = Fifth::Bad(Cause::FewBytes);
        assert_eq!(walk(0x7E, &bytes), End::TooDeep { fifth, payload: &[0, 0] });
        assert_eq!(walk(0x7E, &bytes).name(), "a fifth level, too few bytes");
        let payload = &bytes[21..29];
        let bad = End::BadInner { level: 4, cause: Cause::LongLength, payload };
        let cut = [level(22), level(15), level(8), level(2)].concat();
        assert_eq!(walk(0x7E, &[&cut[..], &[0]].concat()), bad);
        assert_eq!(bad.name(), "level 4, length byte too large");
    }

    #[test]
    fn a_sixth_level_is_seen_in_a_fifth_that_is_whole() {
        let level = |message_type: u8, length: u8| [0, 0, 0, 0, message_type, 0, length];
        let four = [28, 21, 14, 7].map(|length| level(0x7E, length)).concat();
        let name = |fifth: [u8; 7]| walk(0x7E, &[&four[..], &fifth].concat()).name();
        assert_eq!(name(level(0x7E, 0)), "a fifth level, whole, a sixth in it");
        assert_eq!(name(level(0xFE, 0)), "a fifth level, whole, a plain message in it");
        assert_eq!(name(level(0x7E, 1)), "a fifth level, length byte too large");
    }
}
