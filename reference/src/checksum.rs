//! The Fletcher checksum (001, section 7; 01, "The frame").

/// 001, 7.1: the seed, 0xAA for the first sum and 0 for the second.
const SEED: (u32, u32) = (170, 0);

/// 001, figure 4: both sums over the given bytes, each modulo 255.
pub fn sums(bytes: &[u8]) -> (u32, u32) {
    bytes.iter().fold(SEED, |(first, second), &byte| {
        let first = (first + u32::from(byte)) % 255;
        (first, (second + first) % 255)
    })
}

/// 001, figure 5: a frame is good when both sums over all its bytes are 0.
/// The sums cannot tell 0 from 255, so a check byte 0 passes for 255.
pub fn is_good(frame: &[u8]) -> bool {
    sums(frame) == (0, 0)
}

/// 001, figure 6: the two bytes to put behind `body`; neither is ever 0.
pub fn check_bytes(body: &[u8]) -> [u8; 2] {
    let (a, b) = sums(body);
    let first = 255 - (a + b) % 255;
    let second = 255 - (a + first) % 255;
    [first as u8, second as u8]
}

#[cfg(test)]
mod tests {
    use super::*;

    const OFFER_HEAD: [u8; 10] = [0x02, 0xFF, 0x03, 0, 0, 0, 0xA5, 0, 0, 0];

    fn with(body: &[u8], tail: [u8; 2]) -> Vec<u8> {
        [body, &tail[..]].concat()
    }

    #[test]
    fn the_printed_header_has_3d_6d() {
        assert_eq!(check_bytes(&OFFER_HEAD), [0x3D, 0x6D]);
        assert!(is_good(&with(&OFFER_HEAD, [0x3D, 0x6D])));
        assert!(!is_good(&with(&OFFER_HEAD, [0x3D, 0x6E])));
    }

    #[test]
    fn ten_zeros_have_aa_aa() {
        assert_eq!(check_bytes(&[0; 10]), [0xAA, 0xAA]);
    }

    #[test]
    fn a_zero_check_byte_is_read_as_255() {
        let mut body = [0u8; 10];
        body[5] = 0x11;
        assert_eq!(check_bytes(&body), [0x44, 0xFF]);
        assert!(is_good(&with(&body, [0x44, 0x00])));
        body[0] = 0xFF;
        assert_eq!(check_bytes(&body), [0x44, 0xFF]);
    }

    #[test]
    fn what_is_written_is_good_and_never_zero() {
        for value in 0..=255u8 {
            for place in 0..10 {
                let mut body = [0x5A; 10];
                body[place] = value;
                let tail = check_bytes(&body);
                assert!(tail[0] != 0 && tail[1] != 0);
                assert!(is_good(&with(&body, tail)));
            }
        }
    }
}
