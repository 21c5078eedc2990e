//! The frame reader and writer (001, section 5.2; 01, "The frame").

use crate::checksum;
use crate::refusal::{refuse_if, Refusal};

/// 001, 6.2: the coordinator's address.
pub const COORDINATOR: u8 = 255;
/// 000, 8.1.1: the coordinator's node type.
pub const COORDINATOR_TYPE: u8 = 165;
/// 001, table 1: the payload begins at offset 10.
pub const PAYLOAD_AT: usize = 10;
/// Header and checksum together.
pub const OVERHEAD: usize = 12;
/// 001, table 1: 0 to 240 bytes of payload.
pub const MAX_PAYLOAD: usize = 240;
/// 000, 6.2: the subnet of what is sent to all subnets.
pub const ALL_SUBNETS: u8 = 0;

/// The fields of one frame, with a payload of some kind; the length and the
/// checksum follow from them.
#[derive(Clone, Copy, Debug, Default, PartialEq, Eq)]
pub struct Fields<P> {
    pub destination: u8,
    pub source: u8,
    pub subnet: u8,
    pub method: u8,
    pub parameter1: u8,
    pub parameter2: u8,
    pub node_type: u8,
    pub message_type: u8,
    pub packet: u8,
    pub payload: P,
}

/// A frame whose payload is a part of other bytes.
pub type Frame<'a> = Fields<&'a [u8]>;

/// C-14: whether a frame with this subnet byte is taken on our subnet: it is
/// ours, or 0.
pub fn takes(ours: u8, subnet: u8) -> bool {
    subnet == ours || subnet == ALL_SUBNETS
}

/// The reader on our subnet: refusals 1 to 4 in that order, then 24, else the
/// fields. The payload is a part of `bytes` (01, "The frame"; C-14).
pub fn read(bytes: &[u8], ours: u8) -> Result<Frame<'_>, Refusal> {
    read_if(bytes, |subnet| takes(ours, subnet))
}

/// The same where 24 is for the subnets that are not taken (C-15).
pub fn read_if(bytes: &[u8], taken: impl Fn(u8) -> bool) -> Result<Frame<'_>, Refusal> {
    refuse_if(bytes.len() < OVERHEAD, Refusal::Short)?;
    let length = usize::from(bytes[9]);
    refuse_if(length > MAX_PAYLOAD, Refusal::OverLong)?;
    refuse_if(bytes.len() != OVERHEAD + length, Refusal::LengthMismatch)?;
    refuse_if(!checksum::is_good(bytes), Refusal::BadChecksum)?;
    refuse_if(!taken(bytes[2]), Refusal::OtherSubnet)?;
    Ok(Frame {
        destination: bytes[0],
        source: bytes[1],
        subnet: bytes[2],
        method: bytes[3],
        parameter1: bytes[4],
        parameter2: bytes[5],
        node_type: bytes[6],
        message_type: bytes[7],
        packet: bytes[8],
        payload: &bytes[PAYLOAD_AT..PAYLOAD_AT + length],
    })
}

/// The writer: refusals 10 and 11 in that order, else the frame at the front
/// of `out` and its length. Bytes of `out` past the frame stay as they are.
pub fn write<P: AsRef<[u8]>>(frame: &Fields<P>, out: &mut [u8]) -> Result<usize, Refusal> {
    let payload = frame.payload.as_ref();
    let length = payload.len();
    refuse_if(length > MAX_PAYLOAD, Refusal::PayloadTooLong)?;
    refuse_if(out.len() < OVERHEAD + length, Refusal::NoRoom)?;
    out[..PAYLOAD_AT].copy_from_slice(&[
        frame.destination,
        frame.source,
        frame.subnet,
        frame.method,
        frame.parameter1,
        frame.parameter2,
        frame.node_type,
        frame.message_type,
        frame.packet,
        length as u8,
    ]);
    let end = PAYLOAD_AT + length;
    out[PAYLOAD_AT..end].copy_from_slice(payload);
    let tail = checksum::check_bytes(&out[..end]);
    out[end..end + 2].copy_from_slice(&tail);
    Ok(OVERHEAD + length)
}

#[cfg(test)]
mod tests {
    use super::*;

    const PRINTED: [u8; 12] = [2, 255, 3, 0, 0, 0, 0xA5, 0, 0, 0, 0x3D, 0x6D];

    /// The printed frame with another subnet byte, and check bytes that fit.
    fn printed_on(subnet: u8) -> [u8; 12] {
        let mut bytes = PRINTED;
        bytes[2] = subnet;
        let tail = checksum::check_bytes(&bytes[..10]);
        bytes[10..].copy_from_slice(&tail);
        bytes
    }

    #[test]
    fn the_printed_frame_is_read() {
        let frame = read(&PRINTED, 3).unwrap();
        assert_eq!((frame.destination, frame.source, frame.subnet), (2, 255, 3));
        assert_eq!((frame.node_type, frame.payload.len()), (165, 0));
        assert_eq!(printed_on(3), PRINTED);
    }

    #[test]
    fn the_printed_frame_is_refused_by_24_on_every_other_subnet() {
        for ours in (0..=255).filter(|&ours| ours != 3) {
            assert_eq!(read(&PRINTED, ours), Err(Refusal::OtherSubnet));
        }
        assert_eq!(read(&printed_on(4), 3), Err(Refusal::OtherSubnet));
        assert_eq!(read(&printed_on(4), 4).map(|frame| frame.subnet), Ok(4));
    }

    #[test]
    fn subnet_0_in_the_frame_is_read_on_every_subnet() {
        for ours in 0..=255 {
            assert_eq!(read(&printed_on(0), ours).map(|frame| frame.subnet), Ok(0));
        }
    }

    #[test]
    fn our_subnet_and_0_are_taken_and_no_other() {
        for ours in 0..=255 {
            let taken: Vec<u8> = (0..=255).filter(|&subnet| takes(ours, subnet)).collect();
            let expected = if ours == 0 { vec![0] } else { vec![0, ours] };
            assert_eq!(taken, expected);
        }
    }

    #[test]
    fn the_reader_refuses_1_to_4_as_printed_whatever_the_subnet() {
        for ours in [3, 4, 0] {
            assert_eq!(read(&PRINTED[..11], ours), Err(Refusal::Short));
            let mut long = [0u8; 253];
            (long[2], long[9]) = (3, 241);
            assert_eq!(read(&long, ours), Err(Refusal::OverLong));
            let mut one = [0u8; 12];
            (one[2], one[9]) = (3, 1);
            assert_eq!(read(&one, ours), Err(Refusal::LengthMismatch));
            let mut bad = PRINTED;
            bad[11] = 0x6E;
            assert_eq!(read(&bad, ours), Err(Refusal::BadChecksum));
        }
    }

    #[test]
    fn over_long_comes_before_a_length_that_does_not_match() {
        let mut bytes = [0u8; 12];
        bytes[9] = 255;
        assert_eq!(read(&bytes, 0), Err(Refusal::OverLong));
    }

    #[test]
    fn the_writer_refuses_10_before_11_and_writes_nothing() {
        let payload = [7u8; 241];
        let frame = Frame { payload: &payload, ..Frame::default() };
        let mut out = [9u8; 12];
        assert_eq!(write(&frame, &mut out), Err(Refusal::PayloadTooLong));
        let frame = Frame { payload: &payload[..1], ..Frame::default() };
        assert_eq!(write(&frame, &mut out), Err(Refusal::NoRoom));
        assert_eq!(out, [9u8; 12]);
    }

    /// A frame of which no two fields are alike.
    fn varied(subnet: u8, payload: &[u8]) -> Frame<'_> {
        Frame {
            destination: 1,
            source: 2,
            subnet,
            method: 4,
            parameter1: 5,
            parameter2: 6,
            node_type: 7,
            message_type: 8,
            packet: 9,
            payload,
        }
    }

    #[test]
    fn written_frames_read_back_and_the_rest_is_kept() {
        let payload: Vec<u8> = (0..240).collect();
        for length in [0, 1, 17, 239, 240] {
            let frame = varied(3, &payload[..length]);
            let mut out = [0xEEu8; 260];
            let count = write(&frame, &mut out).unwrap();
            assert_eq!(count, 12 + length);
            assert_eq!(read(&out[..count], 3), Ok(frame));
            assert!(out[count..].iter().all(|&byte| byte == 0xEE));
        }
    }

    #[test]
    fn written_frames_read_back_on_their_own_subnet_and_with_0_on_every_one() {
        for subnet in 0..=255 {
            let frame = varied(subnet, &[10, 11]);
            let mut out = [0u8; 14];
            assert_eq!(write(&frame, &mut out), Ok(14));
            for ours in 0..=255 {
                let read_back = subnet == ours || subnet == 0;
                let expected = if read_back { Ok(frame) } else { Err(Refusal::OtherSubnet) };
                assert_eq!(read(&out, ours), expected);
            }
        }
    }

    #[test]
    fn reading_and_writing_turns_a_zero_check_byte_into_255() {
        let bytes = [0, 0, 0, 0, 0, 0x11, 0, 0, 0, 0, 0x44, 0];
        let frame = read(&bytes, 3).unwrap();
        let mut out = [0u8; 12];
        assert_eq!(write(&frame, &mut out), Ok(12));
        assert_eq!(out[..11], bytes[..11]);
        assert_eq!(out[11], 255);
    }
}
