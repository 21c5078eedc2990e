//! The node list in its two forms: the full one, and the condensed one that a 1.0
//! board reads (C-15; 000, 8.1.2.3 and 8.1.2.4).

use crate::state::Record;
use crate::version::{self, MOST_TYPES};

/// The internal type, then the types (0 if free) up to the highest listed position
/// (01, house).
pub(super) fn full(records: &[Record], internal: u8) -> Vec<u8> {
    let highest = records.iter().rposition(Record::listed).map_or(0, |place| place + 1);
    let types = records[..highest].iter().map(|record| record.node_type);
    std::iter::once(internal).chain(types).collect()
}

/// Always 16 bytes: the internal type, then each listed type once. First every 1.0
/// board has its own byte, but of those of a type the lowest alone; then each type
/// that is not there yet has the lowest byte that is open.
pub(super) fn condensed(records: &[Record], internal: u8) -> Vec<u8> {
    let mut types = [0; MOST_TYPES];
    for (place, record) in records.iter().enumerate().take(MOST_TYPES) {
        if record.version == version::OLD && !types.contains(&record.node_type) {
            types[place] = record.node_type;
        }
    }
    for record in records.iter().filter(|record| record.listed()) {
        if !types.contains(&record.node_type) {
            put_in_the_lowest(&mut types, record.node_type);
        }
    }
    std::iter::once(internal).chain(types).collect()
}

/// In a fit table a byte is open wherever a type has none yet.
fn put_in_the_lowest(types: &mut [u8], node_type: u8) {
    if let Some(open) = types.iter_mut().find(|byte| **byte == 0) {
        *open = node_type;
    }
}

#[cfg(test)]
mod tests {
    use super::*;
    use crate::version::{LATER, OLD};

    /// Records of these types and versions, 0 for a free one.
    fn records(boards: &[(u8, u8)]) -> Vec<Record> {
        let mut records = vec![Record::default(); 40];
        for (record, &(node_type, version)) in records.iter_mut().zip(boards) {
            (record.node_type, record.version) = (node_type, version);
        }
        records
    }

    fn condensed_of(boards: &[(u8, u8)]) -> Vec<u8> {
        condensed(&records(boards), 9)
    }

    /// The bytes and as many 0 as make 16.
    fn filled_up(bytes: &[u8]) -> Vec<u8> {
        [bytes, &vec![0; 16 - bytes.len()]].concat()
    }

    /// 000, tables 4 and 6: a priority board and one at 2 that speak 1.0; two of
    /// type 24 and one more of type 1 that do not, at 16 to 18.
    #[test]
    fn the_printed_list_is_condensed_as_printed() {
        let mut boards = vec![(0, 0); 18];
        (boards[0], boards[1]) = ((1, OLD), (5, OLD));
        (boards[15], boards[16], boards[17]) = ((24, LATER), (24, LATER), (1, LATER));
        assert_eq!(condensed(&records(&boards), 3), filled_up(&[3, 1, 5, 24]));
        let far = [&[3, 1, 5][..], &[0; 13], &[24, 24, 1]].concat();
        assert_eq!(full(&records(&boards), 3), far);
    }

    #[test]
    fn nobody_listed_leaves_the_internal_type() {
        assert_eq!((full(&records(&[]), 9), condensed_of(&[])), (vec![9], filled_up(&[9])));
    }

    #[test]
    fn a_1_0_board_stands_at_its_position_and_others_fill_what_is_open() {
        let boards = [(7, LATER), (2, OLD), (8, LATER), (0, 0), (3, OLD), (7, LATER)];
        assert_eq!(condensed_of(&boards), filled_up(&[9, 7, 2, 8, 0, 3]));
        // the second's byte is open, since its type stands at the first
        let boards = [(2, OLD), (2, OLD), (5, OLD), (4, LATER), (6, LATER)];
        assert_eq!(condensed_of(&boards), filled_up(&[9, 2, 4, 5, 6]));
    }

    /// The 1.0 boards come first, though one of a later version has the type at a
    /// lower position.
    #[test]
    fn a_type_of_both_versions_stands_where_its_1_0_board_is() {
        let boards = [(2, LATER), (3, LATER), (2, OLD)];
        assert_eq!(condensed_of(&boards), filled_up(&[9, 3, 0, 2]));
    }

    #[test]
    fn what_is_filled_in_goes_by_the_lowest_position_of_its_type() {
        let boards = [(8, LATER), (6, LATER), (8, LATER), (5, OLD), (1, LATER)];
        assert_eq!(condensed_of(&boards), filled_up(&[9, 8, 6, 1, 5]));
    }

    #[test]
    fn a_1_0_board_past_position_15_is_filled_in_as_any_other() {
        let mut boards = vec![(0, 0); 17];
        (boards[1], boards[14]) = ((4, OLD), (6, OLD));
        (boards[15], boards[16]) = ((3, OLD), (4, OLD));
        let expected = [&[9, 3, 4][..], &[0; 12], &[6]].concat();
        assert_eq!(condensed_of(&boards), expected);
    }

    /// The type 0 of a free record is none, and the internal type is one like any
    /// other where a board has it.
    #[test]
    fn the_internal_type_is_not_counted_among_the_boards() {
        assert_eq!(condensed_of(&[(9, LATER), (4, OLD)]), filled_up(&[9, 9, 4]));
        assert_eq!(condensed_of(&[(0, 0), (9, OLD)]), filled_up(&[9, 0, 9]));
    }

    /// Every table of five records of types 0 to 2 and either version: each listed
    /// type appears once, and no other but 0.
    #[test]
    fn each_listed_type_appears_in_both_forms_and_no_other_does() {
        let kinds = [(0, 0), (1, OLD), (1, LATER), (2, OLD), (2, LATER), (3, LATER)];
        for number in 0..6usize.pow(5) {
            let boards = [0, 1, 2, 3, 4].map(|place| kinds[number / 6usize.pow(place) % 6]);
            let (full, condensed) = (full(&records(&boards), 9), condensed_of(&boards));
            assert_eq!(condensed.len(), 16);
            for node_type in 1..=255 {
                let listed = boards.iter().any(|board| board.0 == node_type);
                assert_eq!(full[1..].contains(&node_type), listed);
                let times = condensed[1..].iter().filter(|&&byte| byte == node_type).count();
                assert_eq!(times, usize::from(listed), "{boards:?}");
            }
        }
    }

    #[test]
    fn fifteen_types_fill_it() {
        let boards: Vec<(u8, u8)> = (1..=15).rev().map(|kind| (kind, LATER)).collect();
        let expected: Vec<u8> = [9].into_iter().chain((1..=15).rev()).collect();
        for place in 0..15 {
            let mut boards = boards.clone();
            boards[place].1 = OLD;
            assert_eq!(condensed_of(&boards), expected);
        }
    }
}
