//! Set Display and Set Diagnostics (003, 5.4 and 5.5; C-22) and the program
//! `payloads`, with the lines of C-16 and C-21 too; answers are worked out by hand
//! from the tables.

use reference::display::{self, Diagnostics, Display};
use reference::display::{read_diagnostics, read_display, write_diagnostics, write_display};
use reference::frame::{self, Frame};
use reference::payloads::play_all;
use reference::prng::Prng;
use reference::refusal::Refusal;
use std::io::Write as _;
use std::process::{Command, Stdio};

/// What a reader says: the fixed bytes and the text.
type Read = Result<(Vec<u8>, Vec<u8>), Refusal>;
/// A writer of fixed bytes and text.
type Write = fn(&[u8], &[u8], &mut [u8]) -> Result<usize, Refusal>;

/// A message as this test sees it: by the numbers of its table alone.
struct Table {
    /// The bytes before the length byte.
    fixed: usize,
    /// The last of the payload lengths that the table gives.
    longest: usize,
    read: fn(&[u8]) -> Read,
    write: Write,
}

/// Table 8: node type, message length, message; payload length 2-32. Table 10:
/// node type, two fault codes, message length, message; payload length 4-19.
const TABLES: [Table; 2] = [
    Table { fixed: 1, longest: 32, read: display_read, write: display_written },
    Table { fixed: 3, longest: 19, read: diagnostics_read, write: diagnostics_written },
];

fn display_read(payload: &[u8]) -> Read {
    read_display(payload).map(|display| (vec![display.node_type], display.text.to_vec()))
}

fn diagnostics_read(payload: &[u8]) -> Read {
    let parts = |fault: Diagnostics<'_>| {
        (vec![fault.node_type, fault.major, fault.minor], fault.text.to_vec())
    };
    read_diagnostics(payload).map(parts)
}

fn display_written(fixed: &[u8], text: &[u8], out: &mut [u8]) -> Result<usize, Refusal> {
    write_display(&Display { node_type: fixed[0], text }, out)
}

fn diagnostics_written(fixed: &[u8], text: &[u8], out: &mut [u8]) -> Result<usize, Refusal> {
    let [node_type, major, minor] = [fixed[0], fixed[1], fixed[2]];
    write_diagnostics(&Diagnostics { node_type, major, minor, text }, out)
}

impl Table {
    /// The longest text: what is left of the longest payload.
    fn most(&self) -> usize {
        self.longest - self.fixed - 1
    }

    fn fixed_bytes(&self) -> Vec<u8> {
        [0x02, 0x7B, 0xC8][..self.fixed].to_vec()
    }

    fn payload(&self, text: &[u8]) -> Vec<u8> {
        [&self.fixed_bytes()[..], &[text.len() as u8], text].concat()
    }

    /// Reader and writer with all the room there can be, which have to agree.
    fn judged(&self, text: &[u8]) -> Result<(), Refusal> {
        let read = (self.read)(&self.payload(text)).map(|_| ());
        let written = (self.write)(&self.fixed_bytes(), text, &mut [0; 1024]).map(|_| ());
        assert_eq!(read, written, "{text:?}");
        read
    }
}

// ---- worked out by hand -------------------------------------------------

/// A board of type 2 wants "Hi!" shown. By Table 8 the payload is 02, the
/// length 03, and the letters: H is 0x48, i 0x69, ! 0x21. Three text bytes and
/// two before them make a payload length of 5.
#[test]
fn a_text_by_table_8() {
    let payload = [0x02, 0x03, 0x48, 0x69, 0x21];
    let display = Display { node_type: 2, text: b"Hi!" };
    assert_eq!(read_display(&payload), Ok(display));
    let mut out = [0xEE; 6];
    assert_eq!(write_display(&display, &mut out), Ok(5));
    assert_eq!(out, [0x02, 0x03, 0x48, 0x69, 0x21, 0xEE]);
}

/// A board of type 4 has major fault 12 and no minor one, "LOW P". By Table 10 the
/// payload is 04, 0C, 00, the length 05, and L 0x4C, O 0x4F, W 0x57, a space 0x20,
/// P 0x50: a payload length of 9.
#[test]
fn a_fault_by_table_10() {
    let payload = [0x04, 0x0C, 0x00, 0x05, 0x4C, 0x4F, 0x57, 0x20, 0x50];
    let fault = Diagnostics { node_type: 4, major: 12, minor: 0, text: b"LOW P" };
    assert_eq!(read_diagnostics(&payload), Ok(fault));
    let mut out = [0; 9];
    assert_eq!(write_diagnostics(&fault, &mut out), Ok(9));
    assert_eq!(out, payload);
}

/// The ends of both tables' ranges: 2 and 32 with messages of 0 and 30 bytes, 4
/// and 19 with messages of 0 and 15. One byte more is refused, as a message
/// length (0x1F, 0x10) and as a payload length (33, 20).
#[test]
fn the_shortest_and_the_longest() {
    assert_eq!(read_display(&[9, 0]), Ok(Display { node_type: 9, text: b"" }));
    let longest = [&[9, 0x1E][..], &[b'~'; 30]].concat();
    assert_eq!(longest.len(), 32);
    assert_eq!(read_display(&longest), Ok(Display { node_type: 9, text: &[b'~'; 30] }));
    let beyond = [&[9, 0x1F][..], &[b'~'; 31]].concat();
    assert_eq!(read_display(&beyond), Err(Refusal::BadTextLength));

    let empty = Diagnostics { node_type: 9, major: 8, minor: 7, text: b"" };
    assert_eq!(read_diagnostics(&[9, 8, 7, 0]), Ok(empty));
    let longest = [&[9, 8, 7, 0x0F][..], &[b' '; 15]].concat();
    assert_eq!(longest.len(), 19);
    assert_eq!(read_diagnostics(&longest), Ok(Diagnostics { text: &[b' '; 15], ..empty }));
    let beyond = [&[9, 8, 7, 0x10][..], &[b' '; 16]].concat();
    assert_eq!(read_diagnostics(&beyond), Err(Refusal::BadTextLength));
}

/// Table 12: payload length 4, the node type, both codes 0, message length 0.
/// It is read and written as any other fault, for every node type.
#[test]
fn a_fault_is_cleared_by_table_12() {
    for node_type in 0..=255 {
        let clearing = Diagnostics { node_type, major: 0, minor: 0, text: b"" };
        let mut out = [0xEE; 4];
        assert_eq!(write_diagnostics(&clearing, &mut out), Ok(4));
        assert_eq!(out, [node_type, 0, 0, 0]);
        assert_eq!(read_diagnostics(&out), Ok(clearing));
    }
}

/// Tables 9 and 11: payload length 2, 0xAC 0x06, in no other order or length.
#[test]
fn the_reply_to_either() {
    assert_eq!(display::REPLY, [0xAC, 0x06]);
    for first in 0..=255 {
        for second in 0..=255 {
            let expected = (first, second) == (0xAC, 0x06);
            assert_eq!(display::is_reply(&[first, second]), expected);
        }
    }
    for payload in [&[][..], &[0xAC], &[0xAC, 0x06, 0x00], &[0x00, 0xAC, 0x06]] {
        assert!(!display::is_reply(payload));
    }
}

/// The message in a frame: type 0x05, packet number 0, payload length 4 + 5. What
/// the frame reader hands out is what the payload's reader takes.
#[test]
fn a_fault_in_a_frame() {
    let payload = [0x04, 0x0C, 0x00, 0x05, 0x4C, 0x4F, 0x57, 0x20, 0x50];
    let sent = Frame { destination: 255, source: 20, subnet: 3, ..Frame::default() };
    let sent = Frame { message_type: 0x05, payload: &payload, ..sent };
    let mut bytes = [0; 21];
    assert_eq!(frame::write(&sent, &mut bytes), Ok(21));
    assert_eq!(bytes[7..10], [0x05, 0x00, 0x09]);
    let received = frame::read(&bytes, 3).unwrap();
    let fault = read_diagnostics(received.payload).unwrap();
    assert_eq!((fault.major, fault.minor, fault.text), (12, 0, &b"LOW P"[..]));
    assert!(std::ptr::eq(fault.text, &bytes[14..19]));
}

// ---- every length -------------------------------------------------------

/// A payload of good text bytes is taken exactly if it is no longer than the
/// table's longest, and its length byte is what is left behind that byte.
#[test]
fn every_payload_with_every_length_byte() {
    for table in TABLES {
        for size in 0..=240 {
            for length in 0..=255 {
                let mut payload = vec![b'A'; size];
                if let Some(byte) = payload.get_mut(table.fixed) {
                    *byte = length;
                }
                let right = size <= table.longest
                    && size > table.fixed
                    && usize::from(length) + table.fixed + 1 == size;
                let expected = match right {
                    true => Ok((vec![b'A'; table.fixed], vec![b'A'; usize::from(length)])),
                    false => Err(Refusal::BadTextLength),
                };
                assert_eq!((table.read)(&payload), expected, "{size} {length}");
            }
        }
    }
}

/// Beyond a frame's longest payload nothing is taken, whatever the length byte:
/// not where it agrees but for what a byte cannot tell.
#[test]
fn every_payload_beyond_a_frame() {
    for table in TABLES {
        for size in 241..=1024 {
            let mut payload = vec![b'A'; size];
            payload[table.fixed] = (size - table.fixed - 1) as u8;
            assert_eq!((table.read)(&payload), Err(Refusal::BadTextLength), "{size}");
        }
    }
}

#[test]
fn every_length_of_a_text_to_be_written() {
    for table in TABLES {
        for size in 0..=1024 {
            let mut out = [0xEE; 1024];
            let written = (table.write)(&table.fixed_bytes(), &vec![b'A'; size], &mut out);
            let payload = table.payload(&vec![b'A'; size]);
            if payload.len() <= table.longest {
                assert_eq!(written, Ok(payload.len()));
                assert_eq!(out[..payload.len()], payload[..]);
                assert!(out[payload.len()..].iter().all(|&byte| byte == 0xEE));
            } else {
                assert_eq!(written, Err(Refusal::BadTextLength));
                assert_eq!(out, [0xEE; 1024]);
            }
        }
    }
}

// ---- every byte ---------------------------------------------------------

/// Every byte in every place of a text of every length: 95 of them are taken,
/// the space, the tilde and what is between.
#[test]
fn every_byte_in_every_place() {
    for table in TABLES {
        for size in 1..=table.most() {
            for at in 0..size {
                let taken = |byte: &u8| {
                    let mut text = vec![b'A'; size];
                    text[at] = *byte;
                    match table.judged(&text) {
                        Ok(()) => true,
                        Err(refusal) => {
                            assert_eq!(refusal, Refusal::BadText);
                            false
                        }
                    }
                };
                let taken: Vec<u8> = (0..=255).filter(taken).collect();
                assert_eq!(taken, (0x20..=0x7E).collect::<Vec<u8>>());
            }
        }
    }
}

/// The bytes beside the range, and what could be thought to end or break a text.
#[test]
fn bytes_beside_the_range_are_refused() {
    for table in TABLES {
        for byte in [0x00, 0x09, 0x0A, 0x0D, 0x1F, 0x7F, 0x80, 0xA0, 0xE9, 0xFF] {
            assert_eq!(table.judged(&[byte]), Err(Refusal::BadText));
            assert_eq!(table.judged(&[b'A', byte]), Err(Refusal::BadText));
            assert_eq!(table.judged(&[byte; 15]), Err(Refusal::BadText));
        }
        for byte in [0x20, 0x21, 0x7D, 0x7E] {
            assert_eq!(table.judged(&[byte; 15]), Ok(()));
        }
    }
}

/// Neither the type nor the codes are examined.
#[test]
fn every_value_of_the_fixed_bytes() {
    for table in TABLES {
        for value in 0..=255 {
            for place in 0..table.fixed {
                let mut fixed = table.fixed_bytes();
                fixed[place] = value;
                let mut out = [0; 32];
                let count = (table.write)(&fixed, b"ok", &mut out).unwrap();
                assert_eq!((table.read)(&out[..count]), Ok((fixed, b"ok".to_vec())));
            }
        }
    }
}

// ---- room ---------------------------------------------------------------

/// From no room to one byte more than the payload needs.
#[test]
fn every_room_for_every_text() {
    for table in TABLES {
        for size in 0..=table.most() {
            let text = vec![b'Z'; size];
            let payload = table.payload(&text);
            for room in 0..=payload.len() + 1 {
                let mut out = vec![0xEE; room];
                let written = (table.write)(&table.fixed_bytes(), &text, &mut out);
                if room < payload.len() {
                    assert_eq!((written, out), (Err(Refusal::NoRoom), vec![0xEE; room]));
                } else {
                    assert_eq!(written, Ok(payload.len()));
                    let rest = vec![0xEE; room - payload.len()];
                    assert_eq!(out, [&payload[..], &rest].concat());
                }
            }
        }
    }
}

// ---- the order of the refusals ------------------------------------------

/// 32 before 33 in both readers: a text that is bad too, behind a length that is
/// too high, one that is above the maximum, and with too few fixed bytes.
#[test]
fn a_reader_tells_the_length_before_the_text() {
    for table in TABLES {
        let mut payload = table.payload(&[0x00; 5]);
        assert_eq!((table.read)(&payload), Err(Refusal::BadText));
        for length in [0, 4, 6, 255] {
            payload[table.fixed] = length;
            assert_eq!((table.read)(&payload), Err(Refusal::BadTextLength), "{length}");
        }
        let beyond = table.payload(&vec![0x00; table.most() + 1]);
        assert_eq!((table.read)(&beyond), Err(Refusal::BadTextLength));
        for size in 0..=table.fixed {
            assert_eq!((table.read)(&vec![0x00; size]), Err(Refusal::BadTextLength));
        }
    }
}

/// 32 before 33 before 11 in both writers, whichever of the three hold.
#[test]
fn a_writer_tells_length_then_text_then_room() {
    for table in TABLES {
        let most = table.most();
        let cases = [
            (most + 1, 0x00, 0, Err(Refusal::BadTextLength)),
            (most + 1, 0x00, 1024, Err(Refusal::BadTextLength)),
            (most + 1, b'A', 0, Err(Refusal::BadTextLength)),
            (most + 1, b'A', 1024, Err(Refusal::BadTextLength)),
            (most, 0x00, 0, Err(Refusal::BadText)),
            (most, 0x00, 1024, Err(Refusal::BadText)),
            (most, b'A', 0, Err(Refusal::NoRoom)),
            (most, b'A', 1024, Ok(table.longest)),
        ];
        for (size, last, room, expected) in cases {
            let mut text = vec![b'A'; size];
            text[size - 1] = last;
            let mut out = vec![0xEE; room];
            assert_eq!((table.write)(&table.fixed_bytes(), &text, &mut out), expected);
            let untouched = out.iter().all(|&byte| byte == 0xEE);
            assert_eq!(untouched, expected.is_err() || room == 0);
        }
    }
}

// ---- round trips --------------------------------------------------------

/// What is written reads back as the same fields.
#[test]
fn what_is_written_is_read() {
    let mut rng = Prng::new(22);
    for table in TABLES {
        for size in (0..=table.most()).cycle().take(3000) {
            let fixed = rng.bytes(table.fixed);
            let text: Vec<u8> = (0..size).map(|_| rng.between(0x20, 0x7E) as u8).collect();
            let mut out = [0; 32];
            let count = (table.write)(&fixed, &text, &mut out).unwrap();
            assert_eq!((table.read)(&out[..count]), Ok((fixed, text)));
        }
    }
}

/// What is read and written again is the same payload, and what is not read is
/// refused with the reader's number, where a writer can be given it at all.
#[test]
fn what_is_read_is_written() {
    let mut rng = Prng::new(23);
    let mut taken = 0;
    for table in TABLES {
        for _ in 0..20_000 {
            let size = rng.between(0, table.most() + 3);
            let mut text: Vec<u8> = (0..size).map(|_| rng.between(0x20, 0x7E) as u8).collect();
            if size > 0 && rng.chance(30) {
                text[rng.below(size)] = rng.byte();
            }
            let payload = table.payload(&text);
            let mut out = [0; 64];
            let written = (table.write)(&table.fixed_bytes(), &text, &mut out);
            match (table.read)(&payload) {
                Ok((fixed, read)) => {
                    assert_eq!((fixed, &read), (table.fixed_bytes(), &text));
                    assert_eq!(written, Ok(payload.len()));
                    assert_eq!(out[..payload.len()], payload[..]);
                    taken += 1;
                }
                Err(refusal) => assert_eq!(written, Err(refusal)),
            }
        }
    }
    assert!(taken > 20_000);
}

// ---- the program --------------------------------------------------------

/// The messages above, as lines.
const LINES: [(&str, &str); 22] = [
    ("read-display 0203486921", "display 2 3 486921"),
    ("write-display 5 2 486921", "wrote 5 0203486921"),
    ("write-display 4 2 486921", "refuse 11"),
    ("read-diagnostics 040C00054C4F572050", "diagnostics 4 12 0 5 4C4F572050"),
    ("write-diagnostics 9 4 12 0 4C4F572050", "wrote 9 040C00054C4F572050"),
    ("write-diagnostics 8 4 12 0 4C4F572050", "refuse 11"),
    ("# Table 12", ""),
    ("read-diagnostics 02000000", "diagnostics 2 0 0 0"),
    ("write-diagnostics 4 2 0 0", "wrote 4 02000000"),
    ("read-display 0900", "display 9 0"),
    ("read-display", "refuse 32"),
    ("read-display 09", "refuse 32"),
    ("read-display 090141FF", "refuse 32"),
    ("read-display 0901FF", "refuse 33"),
    ("write-display 0 9 FF", "refuse 33"),
    ("write-display 0 9", "refuse 11"),
    ("", ""),
    ("write-display 0 9 ", "bad line 18"),
    ("write-display 0256 0009 4b", "wrote 3 09014B"),
    ("write-display 1024 256", "bad line 20"),
    ("write-display 1025 255", "bad line 21"),
    ("write-diagnostics 1024 1 2", "bad line 22"),
];

/// The frames of the tests of encapsulation, where their check bytes are worked
/// out, as lines.
const WRAPPED: [(&str, &str); 27] = [
    ("# one level, then what is in it", ""),
    ("wrap 64 2 255 3 0 0 0 165 1 16 1 2 3 32 2 0 AABB", ONE_LEVEL),
    ("unwrap 3 02FF03000000A57E200910010203020002AABB91F0", "plain 1 16 1 2 3 32 2 0 2 AABB"),
    ("unwrap 0 02FF03000000A57E200910010203020002AABB91F0", "refuse 24"),
    ("unwrap 4 02FF03000000A57E200910010203020002AABB91F0", "refuse 24"),
    ("unwrap 3 02FF03000000A57E200910010203020002AABB91F1", "refuse 4"),
    ("unwrap 3 02FF03000000A57E200910010203020002AABB91", "refuse 3"),
    ("unwrap 3 02FF03000000A57E20F110010203020002AABB91F0", "refuse 2"),
    ("unwrap 3 02FF03000000A57E200910", "refuse 1"),
    ("unwrap 3", "refuse 1"),
    ("wrap 21 2 255 3 0 0 0 165 1 16 1 2 3 32 2 0 AABB", ONE_LEVEL),
    ("wrap 20 2 255 3 0 0 0 165 1 16 1 2 3 32 2 0 AABB", "refuse 11"),
    ("wrap 64 2 255 3 0 0 0 165 1 16 1 2 3 32 126 0 AABB", "refuse 31"),
    (FOUR, FOUR_LEVELS),
    (UNWRAP_FOUR, "plain 4 1 2 3 4 5 6 7 8 9 10 11 12 13 14 15 16 17 18 19 20 21 22 0"),
    (UNWRAP_FIVE, "refuse 31"),
    ("unwrap 3 02FF03000000A57E0006010203040500DA3C", "refuse 30"),
    ("unwrap 3 02FF03000000A57E000701020304050001E62E", "refuse 30"),
    ("unwrap 3 02FF03000000A57E000801020304050000417261", "refuse 30"),
    ("unwrap 3 02FF03000000A57E000701020304050000E82D", "plain 1 1 2 3 4 0 5 0 0"),
    ("unwrap 3 02FF03000000A5FE000401020304B9E3", "plain 0 254 0 4 01020304"),
    ("# without levels it is the frame of 01", ""),
    ("wrap 12 2 255 3 0 0 0 165 0 0 0", "wrote 12 02FF03000000A50000003D6D"),
    ("wrap 12 2 255 3 0 0 0 165 0 126 0", "refuse 31"),
    ("unwrap 3 02ff03000000a50000003d6d", "plain 0 0 0 0"),
    ("wrap 12 2 255 3 0 0 0 165 1 0 0", "bad line 26"),
    ("wrap 12 2 255 3 0 0 0 165 5 1 2 3 4 5 0 0", "bad line 27"),
];
const ONE_LEVEL: &str = "wrote 21 02FF03000000A57E200910010203020002AABB91F0";
const FOUR: &str =
    "wrap 40 2 255 3 0 0 0 165 4 1 2 3 4 5 6 7 8 9 10 11 12 13 14 15 16 17 18 19 20 21 22";
const FOUR_LEVELS: &str = "wrote 40 02FF03000000A57E051C010203047E0A15060708097E0F0E\
                           0B0C0D0E7E1407101112131516005517";
const UNWRAP_FOUR: &str = "unwrap 3 02FF03000000A57E051C010203047E0A15060708097E0F0E\
                           0B0C0D0E7E1407101112131516005517";
const UNWRAP_FIVE: &str = "unwrap 3 02FF03000000A57E0523010203047E0A1C060708097E0F15\
                           0B0C0D0E7E140E101112137E1607111213141517002544";

/// The records of the tests of shared data, as lines. Each script begins with blank
/// images.
const SHARED: [(&str, &str); 43] = [
    ("fetch 2", "none"),
    ("write-answer 0 2", "wrote 0"),
    ("# Table 22, then Table 25", ""),
    ("store 2 090201040302D1D2D3", "stored 1"),
    ("fetch 2", "network 9 090201040302D1D2D3"),
    ("write-answer 10 2", "wrote 10 02090201040302D1D2D3"),
    ("write-answer 9 2", "refuse 11"),
    ("write-answer 0 2", "refuse 11"),
    ("write-answer 0 3", "wrote 0"),
    ("store 4 060504030201", "stored 2"),
    ("store 2 010203040506", "stored 1"),
    ("fetch 002", "network 6 010203040506"),
    ("fetch 4", "network 6 060504030201"),
    ("# too short, and no record at all", ""),
    ("store 2 0102030405", "refuse 26"),
    ("store 2", "refuse 26"),
    ("fetch 2", "network 6 010203040506"),
    ("", ""),
    ("store 2 ", "bad line 19"),
    ("store 256 010203040506", "bad line 20"),
    ("store 2 01020304050", "bad line 21"),
    ("store", "bad line 22"),
    ("fetch", "bad line 23"),
    ("fetch 2 02", "bad line 24"),
    ("write-answer 10", "bad line 25"),
    ("write-answer 1025 2", "bad line 26"),
    ("image both 00", "bad line 27"),
    ("image network 0", "bad line 28"),
    ("fetch 2", "network 6 010203040506"),
    ("# a factory image of another size is not for a store to look at", ""),
    ("image factory", "image 0"),
    ("store 5 0a0B0C0D0E0F", "stored 3"),
    ("fetch 5", "refuse 22"),
    ("write-answer 0 5", "refuse 22"),
    ("write-answer 7 6", "refuse 22"),
    ("# a copy of another size is", ""),
    ("image network 0506060504030201", "image 8"),
    ("store 5 0A0B0C0D0E0F", "refuse 22"),
    ("store 5", "refuse 22"),
    ("fetch 5", "refuse 22"),
    ("read-display 0900", "display 9 0"),
    ("image network", "image 0"),
    ("store 5 0A0B0C0D0E0F", "refuse 22"),
];

#[test]
fn lines_are_answered_as_worked_out() {
    for lines in [&LINES[..], &WRAPPED, &SHARED] {
        let script: String = lines.iter().map(|(line, _)| format!("{line}\n")).collect();
        let answered = lines.iter().filter(|(_, answer)| !answer.is_empty());
        let answers: String = answered.map(|(_, answer)| format!("{answer}\n")).collect();
        assert_eq!(play_all(script.as_bytes()), answers);
        assert_eq!(play_all(script.trim_end().as_bytes()), answers);
        assert_eq!(played(script.as_bytes()), answers);
    }
}

/// 1,024 bytes are taken as HEX, and refused for their length; 1,025 are none.
#[test]
fn the_longest_hex_is_a_line() {
    for start in ["read-display", "write-display 1024 5", "write-diagnostics 1024 5 6 7"] {
        let line = |bytes: usize| format!("{start} {}", "41".repeat(bytes));
        assert_eq!(play_all(line(1024).as_bytes()), "refuse 32\n");
        assert_eq!(play_all(line(1025).as_bytes()), "bad line 1\n");
    }
    for (start, refused) in [("unwrap 3", "refuse 3\n"), (TO_WRAP, "refuse 10\n")] {
        let line = |bytes: usize| format!("{start} {}", "41".repeat(bytes));
        assert_eq!(play_all(line(1024).as_bytes()), refused);
        assert_eq!(play_all(line(1025).as_bytes()), "bad line 1\n");
    }
}

/// An image's HEX may be longer than others: 16,384 bytes are taken, 16,385 are no
/// line, and then the image stays. A record's may not.
#[test]
fn the_longest_image_is_a_line() {
    let stored = |name: &str, size: usize| {
        let image = format!("image {name} {}", "FF".repeat(size));
        play_all(format!("{}\nstore 5 010203040506\n", image.trim_end()).as_bytes())
    };
    for size in [0, 1, 8079, 8080, 8081, 16_383, 16_384] {
        let network = if size == 8080 { "stored 1" } else { "refuse 22" };
        assert_eq!(stored("network", size), format!("image {size}\n{network}\n"));
        assert_eq!(stored("factory", size), format!("image {size}\nstored 1\n"));
    }
    for name in ["network", "factory"] {
        assert_eq!(stored(name, 16_385), "bad line 1\nstored 1\n");
    }
    let record = |bytes: usize| format!("store 5 {}", "41".repeat(bytes));
    assert_eq!(play_all(record(1024).as_bytes()), "refuse 26\n");
    assert_eq!(play_all(record(1025).as_bytes()), "bad line 1\n");
}

/// Slot 1 of the factory image has sector 6, slot 1 of the network's copy sector 7,
/// each with 6 bytes; what is stored for sector 6 then hides the factory's, until the
/// network's copy is set again.
#[test]
fn a_line_sets_one_image_whole() {
    let image = |name: &str, front: &str| {
        format!("image {name} {front}{}\n", "00".repeat(8080 - front.len() / 2))
    };
    let factory = image("factory", "0606F1F2F3F4F5F6");
    let network = image("network", "0706A1A2A3A4A5A6");
    let asked = "fetch 6\nfetch 7\nwrite-answer 7 6\nwrite-answer 7 7\n";
    let script = format!("{factory}{network}{asked}store 6 B1B2B3B4B5B6\n{asked}{network}{asked}");
    let served = "factory 6 F1F2F3F4F5F6\nnetwork 6 A1A2A3A4A5A6\n\
                  wrote 7 06F1F2F3F4F5F6\nwrote 7 07A1A2A3A4A5A6\n";
    let hidden = "stored 2\nnetwork 6 B1B2B3B4B5B6\nnetwork 6 A1A2A3A4A5A6\n\
                  wrote 7 06B1B2B3B4B5B6\nwrote 7 07A1A2A3A4A5A6\n";
    let answers = format!("image 8080\nimage 8080\n{served}{hidden}image 8080\n{served}");
    assert_eq!(play_all(script.as_bytes()), answers);
    assert_eq!(played(script.as_bytes()), answers);
}

/// Forty sectors fill the network's copy; one of them can still be replaced.
#[test]
fn forty_sectors_are_stored_and_no_more() {
    let store = |sector: usize| format!("store {sector} 0102030405{sector:02X}\n");
    let mut script: String = (0..41).map(store).collect();
    script.push_str("store 39 FFFFFFFFFFFFFF\nfetch 39\nfetch 40\nstore 40 0102030405\n");
    let mut answers: String = (1..=40).map(|slot| format!("stored {slot}\n")).collect();
    answers.push_str("refuse 27\nstored 40\nnetwork 7 FFFFFFFFFFFFFF\nnone\nrefuse 26\n");
    assert_eq!(play_all(script.as_bytes()), answers);
    assert_eq!(played(script.as_bytes()), answers);
}

/// A line that wraps, up to its HEX.
const TO_WRAP: &str = "wrap 1024 2 255 3 0 0 0 165 1 16 1 2 3 32 2 0";

/// Of the input 1,048,576 bytes are played; what the limit leaves of a line is
/// played as it stands.
#[test]
fn what_is_past_the_limit_is_not_played() {
    let line = "read-display 0203486921";
    let filled = |more: usize| {
        let comment = "#".repeat((1 << 20) - line.len() - 1 + more);
        format!("{comment}\n{line}\nread-display 0900\n")
    };
    for (more, expected) in
        [(0, "display 2 3 486921\n"), (1, "bad line 2\n"), (2, "refuse 32\n"), (11, "refuse 32\n")]
    {
        assert_eq!(play_all(filled(more).as_bytes()), expected, "{more}");
        assert_eq!(played(filled(more).as_bytes()), expected, "{more}");
    }
}

/// What the program itself answers.
fn played(script: &[u8]) -> String {
    let mut command = Command::new(env!("CARGO_BIN_EXE_payloads"));
    let mut child = command.stdin(Stdio::piped()).stdout(Stdio::piped()).spawn().unwrap();
    // it may end before it has read what is past the limit
    let _ = child.stdin.take().unwrap().write_all(script);
    let output = child.wait_with_output().unwrap();
    assert!(output.status.success());
    String::from_utf8(output.stdout).unwrap()
}
