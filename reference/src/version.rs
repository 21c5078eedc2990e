//! The version of ClimateTalk that a board speaks (C-15): 1.0, or a later one. By
//! it go the board's subnet, the form of its node list, and how many node types
//! the network may hold.

/// What a record has of a 1.0 board, and of every other one; a free one has 0.
pub const OLD: u8 = 1;
pub const LATER: u8 = 2;
/// 000, 11.11: the subnet of every 1.0 board.
pub const OLD_SUBNET: u8 = 2;
/// 003, 4.3: the version bit. The coordinator sets it when it discovers, and a 1.0
/// board alone answers with it.
pub const PACKET_VERSION: u8 = 0x20;
/// 000, 8.1.2.4: a condensed list has room for this many different types.
pub const MOST_TYPES: usize = 15;

/// By the byte of a join: 1 is 1.0, and every other byte is a later one.
pub fn of_join(byte: u8) -> u8 {
    if byte == OLD {
        OLD
    } else {
        LATER
    }
}

/// By the packet number of a Node Discovery Response; its other bits say nothing.
pub fn of_packet(packet: u8) -> u8 {
    if packet & PACKET_VERSION != 0 {
        OLD
    } else {
        LATER
    }
}

/// Whether a listed board may have this version.
pub fn fits(version: u8) -> bool {
    version == OLD || version == LATER
}

/// The subnet of a board of this version where the setup's is ours.
pub fn subnet(version: u8, ours: u8) -> u8 {
    if version == OLD {
        OLD_SUBNET
    } else {
        ours
    }
}

/// 25, of boards by type and version: a 1.0 board among more than 15 different
/// types.
pub fn too_many_types(boards: &[(u8, u8)]) -> bool {
    boards.iter().any(|&(_, version)| version == OLD) && different_types(boards) > MOST_TYPES
}

/// How many different types these boards have.
pub fn different_types(boards: &[(u8, u8)]) -> usize {
    let mut types: Vec<u8> = boards.iter().map(|&(node_type, _)| node_type).collect();
    types.sort_unstable();
    types.dedup();
    types.len()
}

#[cfg(test)]
mod tests {
    use super::*;

    #[test]
    fn byte_1_of_a_join_is_1_0_and_every_other_is_not() {
        for byte in 0..=255 {
            assert_eq!(of_join(byte), if byte == 1 { 1 } else { 2 });
            assert_eq!(fits(byte), byte == 1 || byte == 2);
        }
    }

    #[test]
    fn bit_5_alone_tells_the_version_of_what_is_discovered() {
        for packet in 0..=255 {
            assert_eq!(of_packet(packet), if (packet >> 5) % 2 == 1 { 1 } else { 2 });
        }
    }

    #[test]
    fn a_1_0_board_has_subnet_2_whatever_ours_is() {
        for ours in 0..=255 {
            assert_eq!((subnet(OLD, ours), subnet(LATER, ours)), (2, ours));
        }
    }

    #[test]
    fn types_are_counted_once_and_only_where_a_1_0_board_is() {
        for count in 0..=20 {
            let later: Vec<(u8, u8)> = (1..=count).map(|kind| (kind, LATER)).collect();
            assert!(!too_many_types(&later));
            for place in 0..later.len() {
                let mut boards = later.clone();
                boards[place].1 = OLD;
                assert_eq!(too_many_types(&boards), count > 15);
                boards.extend(later.clone());
                assert_eq!(too_many_types(&boards), count > 15);
            }
        }
    }
}
