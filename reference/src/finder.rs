//! The frame finder and the list of frames (01, "Finder" and "Program
//! framelist").

use crate::frame::{self, OVERHEAD};

/// The finder's answers; `tried` counts the starts looked at.
#[derive(Clone, Copy, Debug, PartialEq, Eq)]
pub enum Search {
    Found { start: usize, length: usize, tried: usize },
    Nothing { tried: usize },
    Spent { tried: usize },
}

/// At most this many bytes are read by the program `framelist`.
pub const INPUT_LIMIT: usize = 4096;
/// C-14: the subnet that the program `framelist` is started for.
pub const LISTED_SUBNET: u8 = 3;

/// 01: a start has at least 12 bytes from it to the end.
fn starts(line: &[u8]) -> usize {
    (line.len() + 1).saturating_sub(OVERHEAD)
}

/// 01: the length of the good frame that begins at `start`, if one does. One of
/// another subnet is passed over as if it were not good (C-14).
fn frame_at(line: &[u8], ours: u8, start: usize) -> Option<usize> {
    let rest = &line[start..];
    let length = OVERHEAD + usize::from(*rest.get(9)?);
    let candidate = rest.get(..length)?;
    frame::read(candidate, ours).ok().map(|_| length)
}

/// Tries the starts from the first on, at most `budget` of them, for a frame
/// that is read on our subnet.
pub fn find(line: &[u8], ours: u8, budget: usize) -> Search {
    let all = starts(line);
    for start in 0..all.min(budget) {
        if let Some(length) = frame_at(line, ours, start) {
            return Search::Found { start, length, tried: start + 1 };
        }
    }
    if budget < all {
        Search::Spent { tried: budget }
    } else {
        Search::Nothing { tried: all }
    }
}

/// What the program `framelist` prints, one line per frame: start, destination,
/// source, message type, payload length; the search goes on after each frame
/// found.
pub fn list(input: &[u8]) -> String {
    let input = &input[..input.len().min(INPUT_LIMIT)];
    let mut text = String::new();
    let mut from = 0;
    let next = |from: usize| find(&input[from..], LISTED_SUBNET, usize::MAX);
    while let Search::Found { start, length, .. } = next(from) {
        let at = from + start;
        let (to, source, kind) = (input[at], input[at + 1], input[at + 7]);
        let payload = length - OVERHEAD;
        text.push_str(&format!("{at} {to} {source} {kind} {payload}\n"));
        from = at + length;
    }
    text
}

#[cfg(test)]
mod tests {
    use super::*;
    use crate::checksum;

    const PRINTED: [u8; 13] = [0x55, 2, 255, 3, 0, 0, 0, 0xA5, 0, 0, 0, 0x3D, 0x6D];

    /// A frame with this subnet byte, from 7 to 8, with this payload.
    fn frame_on(subnet: u8, payload: &[u8]) -> Vec<u8> {
        let header = [8, 7, subnet, 0, 0, 0, 5, 9, 0, payload.len() as u8];
        let body = [&header[..], payload].concat();
        let tail = checksum::check_bytes(&body);
        [body, tail.to_vec()].concat()
    }

    #[test]
    fn the_printed_input_gives_the_printed_line() {
        assert_eq!(list(&PRINTED), "1 2 255 0 0\n");
    }

    #[test]
    fn the_printed_input_on_subnet_4_gives_none_and_on_0_the_same() {
        for (subnet, expected) in [(4, ""), (2, ""), (255, ""), (0, "1 2 255 0 0\n")] {
            let mut input = PRINTED;
            input[3] = subnet;
            let tail = checksum::check_bytes(&input[1..11]);
            input[11..].copy_from_slice(&tail);
            assert_eq!(list(&input), expected, "{subnet}");
        }
    }

    #[test]
    fn budget_0_is_nothing_on_11_bytes_and_spent_on_12() {
        assert_eq!(find(&[0; 11], 3, 0), Search::Nothing { tried: 0 });
        assert_eq!(find(&[0; 12], 3, 0), Search::Spent { tried: 0 });
    }

    #[test]
    fn tried_counts_the_found_start() {
        let found = Search::Found { start: 1, length: 12, tried: 2 };
        assert_eq!(find(&PRINTED, 3, 2), found);
        assert_eq!(find(&PRINTED, 3, 1), Search::Spent { tried: 1 });
        assert_eq!(find(&PRINTED[..12], 3, 5), Search::Nothing { tried: 1 });
    }

    #[test]
    fn a_frame_of_another_subnet_is_a_start_tried_and_not_found() {
        let line = [frame_on(4, &[]), frame_on(3, &[])].concat();
        assert_eq!(find(&line, 4, 20), Search::Found { start: 0, length: 12, tried: 1 });
        assert_eq!(find(&line, 3, 20), Search::Found { start: 12, length: 12, tried: 13 });
        assert_eq!(find(&line, 3, 12), Search::Spent { tried: 12 });
        assert_eq!(find(&line, 5, 20), Search::Nothing { tried: 13 });
        assert_eq!(find(&line, 5, 12), Search::Spent { tried: 12 });
    }

    #[test]
    fn frames_back_to_back_are_all_listed() {
        let twice = [&PRINTED[1..], &PRINTED[1..]].concat();
        assert_eq!(list(&twice), "0 2 255 0 0\n12 2 255 0 0\n");
    }

    #[test]
    fn frames_of_another_system_between_ours_are_passed_over() {
        let (ours, other) = (frame_on(3, &[1, 2]), frame_on(4, &[1, 2]));
        let line = [&other[..], &ours, &other, &other, &ours, &other].concat();
        assert_eq!(list(&line), "14 8 7 9 2\n56 8 7 9 2\n");
    }

    /// The next start tried is the next byte, not the end of what is passed over.
    #[test]
    fn a_frame_of_ours_inside_one_of_another_system_is_listed() {
        for (subnet, listed) in [(3, true), (0, true), (2, false), (4, false)] {
            let line = frame_on(4, &[&[0x77, 0x77][..], &frame_on(subnet, &[6])].concat());
            let expected = if listed { "12 8 7 9 1\n" } else { "" };
            assert_eq!(list(&line), expected, "{subnet}");
            assert_eq!(list(&frame_on(2, &line)), expected.replace("12", "22"), "{subnet}");
        }
    }

    #[test]
    fn a_frame_of_another_system_inside_one_of_ours_is_not_looked_at() {
        for (subnet, inner) in [(3, 4), (3, 3), (0, 4), (0, 0), (3, 255)] {
            let line = frame_on(subnet, &frame_on(inner, &[6]));
            assert_eq!(list(&line), "0 8 7 9 13\n");
        }
    }

    #[test]
    fn what_lies_past_4096_bytes_is_not_read() {
        let mut input = vec![0xFF; 4084];
        input.extend_from_slice(&PRINTED[1..]);
        assert_eq!(list(&input), "4084 2 255 0 0\n");
        input.insert(0, 0xFF);
        assert_eq!(list(&input), "");
    }

    /// The sums over 97 bytes of 0x55, with n = 85, happen to be good, but the
    /// frame is of subnet 85.
    #[test]
    fn a_run_of_0x55_holds_a_frame() {
        let found = Search::Found { start: 0, length: 97, tried: 1 };
        assert_eq!(find(&[0x55; 97], 0x55, 1), found);
        assert_eq!(find(&[0x55; 96], 0x55, 85), Search::Nothing { tried: 85 });
        assert_eq!(list(&[0x55; 97]), "");
    }

    #[test]
    fn length_above_240_is_no_frame_even_with_good_sums() {
        let mut body = vec![0u8; 10 + 241];
        body[9] = 241;
        let tail = checksum::check_bytes(&body);
        body.extend_from_slice(&tail);
        assert_eq!(frame_at(&body, 0, 0), None);
    }
}
