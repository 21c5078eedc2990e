//! The payloads of Set Display and Set Diagnostics, messages 0x04 and 0x05: what
//! a board wants shown on the wall display (003, 5.4 and 5.5; C-22).

use crate::refusal::{refuse_if, Refusal};
use crate::room;

/// 003, Table 8: a message has 0 to 30 bytes.
pub const DISPLAY_TEXT: usize = 30;
/// 003, Table 10: a fault message has 0 to 15 bytes.
pub const FAULT_TEXT: usize = 15;
/// 003, Tables 9 and 11: the payload of the reply to either message.
pub const REPLY: [u8; 2] = [0xAC, 0x06];

/// 003, Table 8. The text is a part of other bytes.
#[derive(Clone, Copy, Debug, PartialEq, Eq)]
pub struct Display<'a> {
    pub node_type: u8,
    pub text: &'a [u8],
}

/// 003, Table 10; Table 12 is the one with both codes 0 and no text.
#[derive(Clone, Copy, Debug, PartialEq, Eq)]
pub struct Diagnostics<'a> {
    pub node_type: u8,
    pub major: u8,
    pub minor: u8,
    pub text: &'a [u8],
}

pub fn read_display(payload: &[u8]) -> Result<Display<'_>, Refusal> {
    let ([node_type], text) = read(payload, DISPLAY_TEXT)?;
    Ok(Display { node_type, text })
}

pub fn read_diagnostics(payload: &[u8]) -> Result<Diagnostics<'_>, Refusal> {
    let ([node_type, major, minor], text) = read(payload, FAULT_TEXT)?;
    Ok(Diagnostics { node_type, major, minor, text })
}

/// Writes the payload at the front of `out` and gives its length.
pub fn write_display(display: &Display<'_>, out: &mut [u8]) -> Result<usize, Refusal> {
    write(&[display.node_type], display.text, DISPLAY_TEXT, out)
}

/// Writes the payload at the front of `out` and gives its length.
pub fn write_diagnostics(fault: &Diagnostics<'_>, out: &mut [u8]) -> Result<usize, Refusal> {
    write(&[fault.node_type, fault.major, fault.minor], fault.text, FAULT_TEXT, out)
}

/// Whether this is the payload of a reply that confirms either message.
pub fn is_reply(payload: &[u8]) -> bool {
    payload == REPLY
}

/// N fixed bytes, then the text behind its length byte: 32, then 33.
fn read<const N: usize>(payload: &[u8], most: usize) -> Result<([u8; N], &[u8]), Refusal> {
    refuse_if(payload.len() < N, Refusal::BadTextLength)?;
    let (front, field) = payload.split_at(N);
    let text = text_in(field, most)?;
    let mut fixed = [0; N];
    fixed.copy_from_slice(front);
    Ok((fixed, text))
}

/// The text in a field of a length byte and then so many text bytes, at most
/// `most`: 32, then 33.
fn text_in(field: &[u8], most: usize) -> Result<&[u8], Refusal> {
    let (&length, text) = field.split_first().ok_or(Refusal::BadTextLength)?;
    let length = usize::from(length);
    refuse_if(length != text.len() || length > most, Refusal::BadTextLength)?;
    refuse_if(!text.iter().all(|&byte| can_be_shown(byte)), Refusal::BadText)?;
    Ok(text)
}

/// 003, 3.1: alpha-numeric ASCII is 0x20 to 0x7E.
fn can_be_shown(byte: u8) -> bool {
    (0x20..=0x7E).contains(&byte)
}

/// What the reader would refuse is refused with its number, and then 11 is given
/// where the payload is longer than `out`. Bytes of `out` past it stay.
fn write(fixed: &[u8], text: &[u8], most: usize, out: &mut [u8]) -> Result<usize, Refusal> {
    // a longer one would be beyond the maximum as well
    let length = u8::try_from(text.len()).map_err(|_| Refusal::BadTextLength)?;
    let field = [&[length], text].concat();
    text_in(&field, most)?;
    room::put(&[fixed, &field].concat(), out)
}

#[cfg(test)]
mod tests {
    use super::*;

    #[test]
    fn the_text_is_a_part_of_the_payload() {
        let payload = [5, 2, b'H', b'i'];
        let display = read_display(&payload).unwrap();
        assert_eq!(display, Display { node_type: 5, text: b"Hi" });
        assert!(std::ptr::eq(display.text, &payload[2..]));
        let payload = [5, 6, 7, 2, b'H', b'i'];
        let fault = read_diagnostics(&payload).unwrap();
        assert_eq!(fault, Diagnostics { node_type: 5, major: 6, minor: 7, text: b"Hi" });
        assert!(std::ptr::eq(fault.text, &payload[4..]));
    }

    #[test]
    fn a_field_is_a_length_byte_and_so_many_text_bytes_at_most_so_many() {
        for most in [0, 1, 15, 30, 255] {
            for length in 0..=255 {
                let field = [&[length][..], &vec![b'~'; usize::from(length)]].concat();
                let taken = usize::from(length) <= most;
                let expected = if taken { Ok(&field[1..]) } else { Err(Refusal::BadTextLength) };
                assert_eq!(text_in(&field, most), expected);
                let cut = text_in(&field[..field.len() - 1], most);
                assert_eq!(cut, Err(Refusal::BadTextLength));
                let longer = [&field[..], b"~"].concat();
                assert_eq!(text_in(&longer, most), Err(Refusal::BadTextLength));
            }
        }
    }

    #[test]
    fn the_reply_is_two_bytes_in_this_order() {
        assert!(is_reply(&[0xAC, 0x06]) && is_reply(&REPLY));
        for other in [&[][..], &[0xAC], &[0x06], &[0x06, 0xAC], &[0xAC, 0x06, 0], &[0xAC, 0x15]] {
            assert!(!is_reply(other));
        }
    }

    #[test]
    fn what_follows_the_payload_stays_and_a_refusal_writes_nothing() {
        let mut out = [0xEE; 8];
        let display = Display { node_type: 5, text: b"Hi" };
        assert_eq!(write_display(&display, &mut out), Ok(4));
        assert_eq!(out, [5, 2, b'H', b'i', 0xEE, 0xEE, 0xEE, 0xEE]);
        let mut out = [0xEE; 3];
        assert_eq!(write_display(&display, &mut out), Err(Refusal::NoRoom));
        assert_eq!(out, [0xEE; 3]);
    }
}
