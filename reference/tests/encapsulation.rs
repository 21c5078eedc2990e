//! Messages inside messages (003, 6.10; C-21), with frames worked out by hand from
//! the tables and the checksum of 001.

use reference::checksum;
use reference::encapsulation::{unwrap, wrap, Header, Level, Message, Unwrapped};
use reference::frame::{self, Frame};
use reference::prng::Prng;
use reference::refusal::Refusal;

const HEADER: Header = Header {
    destination: 2,
    source: 255,
    subnet: 3,
    method: 0,
    parameter1: 0,
    parameter2: 0,
    node_type: 165,
};

/// The levels of the frames below, each five numbers that go on counting.
const LEVELS: [Level; 5] = [
    Level { code: 1, operands: [2, 3, 4], packet: 5 },
    Level { code: 6, operands: [7, 8, 9], packet: 10 },
    Level { code: 11, operands: [12, 13, 14], packet: 15 },
    Level { code: 16, operands: [17, 18, 19], packet: 20 },
    Level { code: 21, operands: [22, 23, 24], packet: 25 },
];

/// A frame of this message type and payload on subnet 3, with right check bytes.
fn framed(message_type: u8, payload: &[u8]) -> Vec<u8> {
    let frame = Frame { destination: 2, source: 255, subnet: 3, ..Frame::default() };
    let frame = Frame { node_type: 165, message_type, payload, ..frame };
    let mut bytes = vec![0; 252];
    let count = frame::write(&frame, &mut bytes).unwrap();
    bytes.truncate(count);
    bytes
}

/// The payload of an encapsulating message around a message of this type that
/// claims so many bytes and has these.
fn around(message_type: u8, length: usize, payload: &[u8]) -> Vec<u8> {
    [&[1, 2, 3, 4, message_type, 5, length as u8], payload].concat()
}

/// The payload of a frame of type 0x7E in which the message at this level, from 1
/// on, has this payload; those around it are whole.
fn at_level(level: usize, payload: &[u8]) -> Vec<u8> {
    let whole = |inner: Vec<u8>, _| around(0x7E, inner.len(), &inner);
    (1..level).fold(payload.to_vec(), whole)
}

fn refused_at(level: usize, payload: &[u8]) -> Option<Refusal> {
    unwrap(&framed(0x7E, &at_level(level, payload)), 3).err()
}

// ---- worked out by hand -------------------------------------------------

/// A message of type 2, packet number 0 and payload AA BB, in a frame from 255 to
/// 2 on subnet 3, in one level of code 0x10, operands 1, 2, 3, packet number 0x20.
/// By Table 65 the frame's payload is 10 01 02 03, then by Table 1 the type 02, the
/// packet number 00, the length 02 and AA BB: nine bytes.
///
/// The sums of 001 begin with 170 and 0. After each byte they are:
///     02 172 172   FF 172  89   03 175   9   00 175 184   00 175 104
///     00 175  24   A5  85 109   7E 211  65   20 243  53   09 252  50
///     10  13  63   01  14  77   02  16  93   03  19 112
///     02  21 133   00  21 154   02  23 177   AA 193 115   BB 125 240
/// 125 + 240 is 365, less 255 is 110, so the first check byte is 145, 0x91; 125 +
/// 145 is 270, less 255 is 15, so the second is 240, 0xF0.
#[test]
fn one_level_by_table_65() {
    let bytes = [
        0x02, 0xFF, 0x03, 0x00, 0x00, 0x00, 0xA5, 0x7E, 0x20, 0x09, // header
        0x10, 0x01, 0x02, 0x03, // code and operands
        0x02, 0x00, 0x02, 0xAA, 0xBB, // the message inside
        0x91, 0xF0,
    ];
    let level = Level { code: 0x10, operands: [1, 2, 3], packet: 0x20 };
    let plain = Message { message_type: 2, packet: 0, payload: &[0xAA, 0xBB] };
    assert_eq!(unwrap(&bytes, 3), Ok(Unwrapped { levels: vec![level], plain }));
    let mut out = [0xEE; 22];
    assert_eq!(wrap(&HEADER, &[level], &plain, &mut out), Ok(21));
    assert_eq!(out[..21], bytes);
    assert_eq!(out[21], 0xEE);
}

/// Four levels around a message of type 0x15 without payload. The lengths are 0,
/// 0 + 7, 7 + 7, 14 + 7 and, in the frame, 21 + 7, 0x1C. The sums over the 38 bytes
/// are 147 and 23: 255 - 170 is 85, 0x55; 147 + 85 is 232, and 255 - 232 is 23, 0x17.
#[test]
fn four_levels_by_table_65() {
    let bytes = [
        0x02, 0xFF, 0x03, 0x00, 0x00, 0x00, 0xA5, 0x7E, 0x05, 0x1C, // header
        0x01, 0x02, 0x03, 0x04, 0x7E, 0x0A, 0x15, // level 1
        0x06, 0x07, 0x08, 0x09, 0x7E, 0x0F, 0x0E, // level 2
        0x0B, 0x0C, 0x0D, 0x0E, 0x7E, 0x14, 0x07, // level 3
        0x10, 0x11, 0x12, 0x13, 0x15, 0x16, 0x00, // level 4
        0x55, 0x17,
    ];
    let plain = Message { message_type: 0x15, packet: 0x16, payload: &[] };
    assert_eq!(unwrap(&bytes, 3), Ok(Unwrapped { levels: LEVELS[..4].to_vec(), plain }));
    let mut out = [0; 40];
    assert_eq!(wrap(&HEADER, &LEVELS[..4], &plain, &mut out), Ok(40));
    assert_eq!(out, bytes);
}

/// The same with 0x7E for 0x15 in the innermost message, and one more level in it.
/// The sums over the 45 bytes are 150 and 68: 255 - 218 is 37, 0x25; 150 + 37 is
/// 187, and 255 - 187 is 68, 0x44.
#[test]
fn a_fifth_level_is_refused_though_it_is_whole() {
    let bytes = [
        0x02, 0xFF, 0x03, 0x00, 0x00, 0x00, 0xA5, 0x7E, 0x05, 0x23, // header
        0x01, 0x02, 0x03, 0x04, 0x7E, 0x0A, 0x1C, // level 1
        0x06, 0x07, 0x08, 0x09, 0x7E, 0x0F, 0x15, // level 2
        0x0B, 0x0C, 0x0D, 0x0E, 0x7E, 0x14, 0x0E, // level 3
        0x10, 0x11, 0x12, 0x13, 0x7E, 0x16, 0x07, // level 4
        0x11, 0x12, 0x13, 0x14, 0x15, 0x17, 0x00, // level 5
        0x25, 0x44,
    ];
    assert_eq!(unwrap(&bytes, 3), Err(Refusal::TooDeep));
    let plain = Message { message_type: 0x15, packet: 0x16, payload: &[] };
    assert_eq!(wrap(&HEADER, &LEVELS, &plain, &mut [0; 64]), Err(Refusal::TooDeep));
}

/// 0xFE is plain, as the frame's type and inside a level: sums 98 and 227 over 14
/// bytes give B9 E3, sums 6 and 43 over 21 bytes CE 2B. The same with 0x7E inside
/// has the sums 133 and 167, D2 A7; its payload has four bytes, too few for a level.
#[test]
fn the_response_is_a_plain_message() {
    let frame = [2, 255, 3, 0, 0, 0, 165, 0xFE, 0, 4, 1, 2, 3, 4, 0xB9, 0xE3];
    let plain = Message { message_type: 0xFE, packet: 0, payload: &[1, 2, 3, 4] };
    assert_eq!(unwrap(&frame, 3), Ok(Unwrapped { levels: Vec::new(), plain }));
    let inside = |message_type: u8, tail: [u8; 2]| {
        let header = [2, 255, 3, 0, 0, 0, 165, 0x7E, 0, 11];
        [&header[..], &[1, 2, 3, 4, message_type, 0, 4, 5, 6, 7, 8], &tail].concat()
    };
    let plain = Message { message_type: 0xFE, packet: 0, payload: &[5, 6, 7, 8] };
    let level = Level { code: 1, operands: [2, 3, 4], packet: 0 };
    let expected = Unwrapped { levels: vec![level], plain };
    assert_eq!(unwrap(&inside(0xFE, [0xCE, 0x2B]), 3), Ok(expected));
    assert_eq!(unwrap(&inside(0x7E, [0xD2, 0xA7]), 3), Err(Refusal::BadInner));
}

/// One level around a message without payload, a byte of it missing, and with a
/// length that is one too high or too low.
#[test]
fn what_is_not_a_whole_message() {
    let header = |length: u8| [2, 255, 3, 0, 0, 0, 165, 0x7E, 0, length];
    let cases = [
        (vec![1, 2, 3, 4, 5, 0], [0xDA, 0x3C]),
        (vec![1, 2, 3, 4, 5, 0, 1], [0xE6, 0x2E]),
        (vec![1, 2, 3, 4, 5, 0, 0, 0x41], [0x72, 0x61]),
    ];
    for (payload, tail) in cases {
        let bytes = [&header(payload.len() as u8)[..], &payload, &tail].concat();
        assert!(frame::read(&bytes, 3).is_ok());
        assert_eq!(unwrap(&bytes, 3), Err(Refusal::BadInner));
    }
    let whole = [(vec![1, 2, 3, 4, 5, 0, 0], [0xE8, 0x2D], 0)];
    let longer = [(vec![1, 2, 3, 4, 5, 0, 1, 0x41], [0x6F, 0x63], 1)];
    for (payload, tail, size) in whole.into_iter().chain(longer) {
        let bytes = [&header(payload.len() as u8)[..], &payload, &tail].concat();
        assert_eq!(unwrap(&bytes, 3).map(|read| read.plain.payload.len()), Ok(size));
    }
}

// ---- the reader, level by level -----------------------------------------

/// A payload of 0 to 6 bytes at each level; all in it are 0x7E, or all 0.
#[test]
fn too_few_bytes_at_every_level() {
    for size in 0..7 {
        for value in [0, 0x7E] {
            for level in 1..=4 {
                assert_eq!(refused_at(level, &vec![value; size]), Some(Refusal::BadInner));
            }
            assert_eq!(refused_at(5, &vec![value; size]), Some(Refusal::TooDeep));
        }
    }
}

/// Every length byte before every number of bytes, at each level: taken exactly if
/// they agree; where the type is 0x7E, there is no level in it.
#[test]
fn every_length_byte_at_every_level() {
    for level in 1..=4 {
        for size in 0..=240 - 7 * level {
            for length in 0..=255 {
                let right = size == length;
                let expected = if right { None } else { Some(Refusal::BadInner) };
                let payload = vec![0; size];
                assert_eq!(refused_at(level, &around(9, length, &payload)), expected);
                let deep = if level == 4 { Refusal::TooDeep } else { Refusal::BadInner };
                let expected = if right { deep } else { Refusal::BadInner };
                // zeros are a level around an empty message, if there are seven
                if level == 4 || !right || size != 7 {
                    let inner = around(0x7E, length, &payload);
                    assert_eq!(refused_at(level, &inner), Some(expected));
                }
            }
        }
    }
}

/// A fifth level is not read: whatever is in it, it is 31; and a message that is
/// not whole in the fourth is 30, of whatever type.
#[test]
fn at_each_level_31_comes_before_30() {
    for size in 0..=212 {
        for value in [0, 7, 0x7E, 0xFF] {
            let fifth = vec![value; size];
            assert_eq!(refused_at(5, &fifth), Some(Refusal::TooDeep));
            for message_type in 0..=255 {
                let inner = around(message_type, size + 1, &fifth);
                assert_eq!(refused_at(4, &inner), Some(Refusal::BadInner));
            }
        }
    }
}

/// Only 0x7E is a level.
#[test]
fn every_type_at_every_level() {
    for level in 0..=4 {
        for message_type in 0..=255 {
            let bytes = match level {
                0 => framed(message_type, &[]),
                _ => framed(0x7E, &at_level(level, &around(message_type, 0, &[]))),
            };
            let expected = match (message_type, level) {
                (0x7E, 4) => Err(Refusal::TooDeep),
                (0x7E, _) => Err(Refusal::BadInner),
                _ => Ok((level, message_type)),
            };
            let read = unwrap(&bytes, 3).map(|read| (read.levels.len(), read.plain.message_type));
            assert_eq!(read, expected);
        }
    }
}

/// The frame's refusals come first, whatever is inside.
#[test]
fn the_frame_is_read_before_what_is_in_it() {
    let empty = around(9, 0, &[]);
    let insides = [at_level(1, &empty), at_level(3, &empty), at_level(2, &[]), at_level(6, &empty)];
    for inside in insides {
        let bytes = framed(0x7E, &inside);
        for cut in 0..bytes.len() {
            let expected = if cut < 12 { Refusal::Short } else { Refusal::LengthMismatch };
            assert_eq!(unwrap(&bytes[..cut], 3), Err(expected));
        }
        assert_eq!(unwrap(&[&bytes[..], &[0]].concat(), 3), Err(Refusal::LengthMismatch));
        let mut long = bytes.clone();
        long[9] = 241;
        assert_eq!(unwrap(&long, 3), Err(Refusal::OverLong));
        let mut damaged = bytes.clone();
        *damaged.last_mut().unwrap() ^= 1;
        for ours in [3, 4] {
            assert_eq!(unwrap(&damaged, ours), Err(Refusal::BadChecksum));
        }
        for ours in (0..=255).filter(|&ours| ours != 3) {
            assert_eq!(unwrap(&bytes, ours), Err(Refusal::OtherSubnet));
        }
    }
}

/// Subnet 0 in the frame is read on every subnet, as every frame is (C-14).
#[test]
fn subnet_0_is_read_on_every_subnet() {
    let header = Header { subnet: 0, ..HEADER };
    let plain = Message { message_type: 9, packet: 8, payload: &[7] };
    let mut out = [0; 27];
    assert_eq!(wrap(&header, &LEVELS[..2], &plain, &mut out), Ok(27));
    for ours in 0..=255 {
        assert_eq!(unwrap(&out, ours).map(|read| read.levels.len()), Ok(2));
    }
}

// ---- the writer ---------------------------------------------------------

/// At each depth every payload that fits is written, reads back and, written
/// again, is the same; the first that does not fit is refused by 10.
#[test]
fn every_payload_at_every_depth() {
    let mut rng = Prng::new(21);
    for depth in 0..=4 {
        for size in 0..=255 {
            let payload = rng.bytes(size);
            let plain = Message { message_type: 0xFE, packet: rng.byte(), payload: &payload };
            let mut out = [0xEE; 260];
            let written = wrap(&HEADER, &LEVELS[..depth], &plain, &mut out);
            if 7 * depth + size > 240 {
                assert_eq!((written, out), (Err(Refusal::PayloadTooLong), [0xEE; 260]));
                continue;
            }
            let count = 12 + 7 * depth + size;
            assert_eq!(written, Ok(count));
            assert!(checksum::is_good(&out[..count]) && out[count..].iter().all(|&b| b == 0xEE));
            let read = unwrap(&out[..count], 3).unwrap();
            assert_eq!((&read.levels[..], read.plain), (&LEVELS[..depth], plain));
            let mut again = [0xEE; 260];
            assert_eq!(wrap(&HEADER, &read.levels, &read.plain, &mut again), Ok(count));
            assert_eq!(again, out);
        }
    }
}

/// From no room to one byte more than the frame needs.
#[test]
fn every_room_at_every_depth() {
    for depth in 0..=4 {
        for size in [0, 1, 100, 240 - 7 * depth] {
            let (payload, need) = (vec![9; size], 12 + 7 * depth + size);
            let plain = Message { message_type: 1, packet: 2, payload: &payload };
            for room in 0..=need + 1 {
                let mut out = vec![0xEE; room];
                let written = wrap(&HEADER, &LEVELS[..depth], &plain, &mut out);
                let expected = if room < need { Err(Refusal::NoRoom) } else { Ok(need) };
                assert_eq!(written, expected);
                let untouched = out.iter().all(|&byte| byte == 0xEE);
                assert_eq!(untouched, room < need);
            }
        }
    }
}

/// 31, then 10, then 11, whichever of them hold; 31 by the levels, by the type
/// inside, and by both.
#[test]
fn a_writer_tells_depth_then_length_then_room() {
    for depth in 0..=5 {
        for message_type in [0, 0x7D, 0x7E, 0x7F, 0xFE] {
            for size in [0, 240 - 7 * depth, 241 - 7 * depth, 241, 256, 1024] {
                let due = 12 + 7 * depth + size;
                for room in [0, due - 1, due, 2000] {
                    let plain = Message { message_type, packet: 0, payload: &vec![0; size] };
                    let expected = match () {
                        _ if depth > 4 || message_type == 0x7E => Err(Refusal::TooDeep),
                        _ if 7 * depth + size > 240 => Err(Refusal::PayloadTooLong),
                        _ if room < due => Err(Refusal::NoRoom),
                        _ => Ok(due),
                    };
                    let written = wrap(&HEADER, &LEVELS[..depth], &plain, &mut vec![0; room]);
                    assert_eq!(written, expected, "{depth} {message_type} {size} {room}");
                }
            }
        }
    }
}

/// Every field of the header and of a level in its own place.
#[test]
fn no_field_is_another() {
    let mut rng = Prng::new(22);
    for _ in 0..2000 {
        let any: Vec<u8> = rng.bytes(17);
        let header = Header {
            destination: any[0],
            source: any[1],
            subnet: any[2],
            method: any[3],
            parameter1: any[4],
            parameter2: any[5],
            node_type: any[6],
        };
        let level = Level { code: any[10], operands: [any[11], any[12], any[13]], packet: any[8] };
        let message_type = if any[14] == 0x7E { 0x7F } else { any[14] };
        let plain = Message { message_type, packet: any[15], payload: &any[16..] };
        let mut out = [0; 20];
        assert_eq!(wrap(&header, &[level], &plain, &mut out), Ok(20));
        let body = [&any[..7], &[0x7E, any[8], 8], &any[10..14], &[message_type, any[15], 1]];
        assert_eq!(out[..18], [&body.concat()[..], &any[16..]].concat());
        let read = unwrap(&out, any[2]).unwrap();
        assert_eq!((read.levels, read.plain), (vec![level], plain));
    }
}
