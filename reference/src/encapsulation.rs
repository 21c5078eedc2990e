//! Messages inside messages: Network Encapsulation, message 0x7E (003, 6.10; C-21).

use crate::frame::{self, Frame, MAX_PAYLOAD};
use crate::refusal::{refuse_if, Refusal};

/// 003, Table 65: the message that encapsulates another. Its response, 0xFE, is a
/// plain message, as all others are (C-21).
pub const ENCAPSULATION: u8 = 0x7E;
/// C-21: "up to four levels in all".
pub const MOST_LEVELS: usize = 4;
/// 003, Table 65: the code and three operands stand before what is encapsulated.
pub const FRONT: usize = 4;
/// 003, Table 1: the packet header is type, packet number and payload length.
pub const PACKET_HEADER: usize = 3;
/// C-21: "each level takes seven bytes".
pub const LEVEL: usize = FRONT + PACKET_HEADER;

/// 003, Table 1: a message without what carries it. The payload is a part of other
/// bytes.
#[derive(Clone, Copy, Debug, PartialEq, Eq)]
pub struct Message<'a> {
    pub message_type: u8,
    pub packet: u8,
    pub payload: &'a [u8],
}

/// 003, Table 65: what an encapsulating message says of itself.
#[derive(Clone, Copy, Debug, PartialEq, Eq)]
pub struct Level {
    pub code: u8,
    pub operands: [u8; 3],
    /// The packet number of this very message.
    pub packet: u8,
}

/// The plain message that was reached, and the levels around it, the outermost
/// first.
#[derive(Clone, Debug, PartialEq, Eq)]
pub struct Unwrapped<'a> {
    pub levels: Vec<Level>,
    pub plain: Message<'a>,
}

/// What a frame has before its message (001, table 1).
#[derive(Clone, Copy, Debug, Default, PartialEq, Eq)]
pub struct Header {
    pub destination: u8,
    pub source: u8,
    pub subnet: u8,
    pub method: u8,
    pub parameter1: u8,
    pub parameter2: u8,
    pub node_type: u8,
}

/// The reader over a received frame, on our subnet: the frame's refusals, then
/// level by level 31 before 30.
pub fn unwrap(bytes: &[u8], ours: u8) -> Result<Unwrapped<'_>, Refusal> {
    let Frame { message_type, packet, payload, .. } = frame::read(bytes, ours)?;
    read_message(Message { message_type, packet, payload }, MOST_LEVELS)
}

/// C-21: a message of type 0x7E with no level left is refused by 31, unread. It and
/// the reader of its payload call each other, each time with a level less.
fn read_message(message: Message<'_>, left: usize) -> Result<Unwrapped<'_>, Refusal> {
    if message.message_type != ENCAPSULATION {
        return Ok(Unwrapped { levels: Vec::new(), plain: message });
    }
    let left = left.checked_sub(1).ok_or(Refusal::TooDeep)?;
    let ([code, operands @ ..], mut inner) = read_payload(message.payload, left)?;
    inner.levels.insert(0, Level { code, operands, packet: message.packet });
    Ok(inner)
}

/// 003, Table 65, without supplement data (C-21): code, operands and one message.
fn read_payload(payload: &[u8], left: usize) -> Result<([u8; FRONT], Unwrapped<'_>), Refusal> {
    refuse_if(payload.len() < FRONT, Refusal::BadInner)?;
    let (bytes, inner) = payload.split_at(FRONT);
    let inner = read_message(whole_message(inner)?, left)?;
    let mut front = [0; FRONT];
    front.copy_from_slice(bytes);
    Ok((front, inner))
}

/// C-21: one message to the very end, or 30: its length is exactly what remains.
fn whole_message(bytes: &[u8]) -> Result<Message<'_>, Refusal> {
    match *bytes {
        [message_type, packet, length, ref payload @ ..]
            if usize::from(length) == payload.len() =>
        {
            Ok(Message { message_type, packet, payload })
        }
        _ => Err(Refusal::BadInner),
    }
}

/// The writer of a whole frame around these levels, the outermost first, and the
/// message inside: 31, then 10, then 11, else the frame at the front of `out` and
/// its length. Bytes of `out` past the frame stay as they are.
pub fn wrap(
    header: &Header,
    levels: &[Level],
    plain: &Message<'_>,
    out: &mut [u8],
) -> Result<usize, Refusal> {
    // a message inside of type 0x7E would read back as a level that was not given
    let deep = levels.len() > MOST_LEVELS || plain.message_type == ENCAPSULATION;
    refuse_if(deep, Refusal::TooDeep)?;
    let outermost = LEVEL * levels.len() + plain.payload.len();
    refuse_if(outermost > MAX_PAYLOAD, Refusal::PayloadTooLong)?;
    let wrapped = wrapped(levels, plain);
    frame::write(&framed(header, levels, plain, &wrapped), out)
}

/// The payload of the outermost message.
fn wrapped(levels: &[Level], plain: &Message<'_>) -> Vec<u8> {
    match levels.split_first() {
        None => plain.payload.to_vec(),
        Some((level, inner)) => {
            let (message_type, packet) = named(inner, plain);
            let payload = wrapped(inner, plain);
            // no longer than the outermost, which fits a frame
            let packet_header = [message_type, packet, payload.len() as u8];
            [&[level.code], &level.operands[..], &packet_header, &payload].concat()
        }
    }
}

/// Type and packet number of the outermost message.
fn named(levels: &[Level], plain: &Message<'_>) -> (u8, u8) {
    match levels.first() {
        Some(level) => (ENCAPSULATION, level.packet),
        None => (plain.message_type, plain.packet),
    }
}

fn framed<'a>(
    header: &Header,
    levels: &[Level],
    plain: &Message<'_>,
    payload: &'a [u8],
) -> Frame<'a> {
    let (message_type, packet) = named(levels, plain);
    Frame {
        destination: header.destination,
        source: header.source,
        subnet: header.subnet,
        method: header.method,
        parameter1: header.parameter1,
        parameter2: header.parameter2,
        node_type: header.node_type,
        message_type,
        packet,
        payload,
    }
}

#[cfg(test)]
mod tests {
    use super::*;

    const HEADER: Header = Header {
        destination: 2,
        source: 255,
        subnet: 3,
        method: 0,
        parameter1: 0,
        parameter2: 0,
        node_type: 165,
    };
    const PLAIN: Message<'_> = Message { message_type: 2, packet: 1, payload: &[0xAA, 0xBB] };

    /// Levels of which no two are alike.
    fn levels(count: u8) -> Vec<Level> {
        let level = |n: u8| Level { code: n, operands: [n + 20, n + 40, n + 60], packet: n + 80 };
        (1..=count).map(level).collect()
    }

    #[test]
    fn a_message_is_whole_if_its_length_is_all_that_remains() {
        for size in 0..=300 {
            for length in 0..=255 {
                let bytes = [&[9, 8, length][..], &vec![7; size]].concat();
                let whole = Message { message_type: 9, packet: 8, payload: &bytes[3..] };
                let right = usize::from(length) == size;
                let expected = if right { Ok(whole) } else { Err(Refusal::BadInner) };
                assert_eq!(whole_message(&bytes), expected);
            }
        }
        for short in [&[][..], &[0], &[0, 0]] {
            assert_eq!(whole_message(short), Err(Refusal::BadInner));
        }
    }

    #[test]
    fn with_no_level_left_nothing_of_the_payload_is_read() {
        for payload in [&[][..], &[0; 6], &[0; 7], &[0, 0, 0, 0, 0x7E, 0, 9]] {
            let message = Message { message_type: ENCAPSULATION, packet: 0, payload };
            assert_eq!(read_message(message, 0), Err(Refusal::TooDeep));
        }
        for message_type in (0..=255).filter(|&other| other != ENCAPSULATION) {
            let plain = Message { message_type, ..PLAIN };
            assert_eq!(read_message(plain, 0), Ok(Unwrapped { levels: Vec::new(), plain }));
        }
    }

    #[test]
    fn the_payload_is_a_part_of_the_frame_behind_its_levels() {
        for depth in 0..=4 {
            let mut bytes = [0; 48];
            let levels = levels(depth);
            let count = wrap(&HEADER, &levels, &PLAIN, &mut bytes).unwrap();
            assert_eq!(count, 14 + LEVEL * levels.len());
            let read = unwrap(&bytes[..count], 3).unwrap();
            assert!(std::ptr::eq(read.plain.payload, &bytes[count - 4..count - 2]));
            assert_eq!(read, Unwrapped { levels, plain: PLAIN });
        }
    }

    #[test]
    fn a_frame_without_levels_is_the_plain_frame() {
        let (mut wrapped, mut plain) = ([0xEE; 20], [0xEE; 20]);
        let frame = Frame { destination: 2, source: 255, subnet: 3, ..Frame::default() };
        let frame = Frame { node_type: 165, message_type: 2, packet: 1, ..frame };
        let frame = Frame { payload: PLAIN.payload, ..frame };
        assert_eq!(wrap(&HEADER, &[], &PLAIN, &mut wrapped), Ok(14));
        assert_eq!(frame::write(&frame, &mut plain), Ok(14));
        assert_eq!(wrapped, plain);
    }

    #[test]
    fn what_follows_the_frame_stays_and_a_refusal_writes_nothing() {
        let mut out = [0xEE; 23];
        assert_eq!(wrap(&HEADER, &levels(1), &PLAIN, &mut out), Ok(21));
        assert_eq!(out[21..], [0xEE; 2]);
        let level = Message { message_type: ENCAPSULATION, ..PLAIN };
        let long = Message { payload: &[0; 234], ..PLAIN };
        let refused = [
            (levels(5), PLAIN, Refusal::TooDeep),
            (levels(1), level, Refusal::TooDeep),
            (levels(1), long, Refusal::PayloadTooLong),
            (levels(2), PLAIN, Refusal::NoRoom),
        ];
        for (levels, plain, refusal) in refused {
            let mut out = [0xEE; 27];
            assert_eq!(wrap(&HEADER, &levels, &plain, &mut out), Err(refusal));
            assert_eq!(out, [0xEE; 27]);
        }
    }
}
