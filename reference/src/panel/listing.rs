//! A board comes or goes. Each record keeps its board's index (C-13), so the
//! boards of its type above it move by one.

use crate::state::{Identity, Record};

/// Lists the board at this position, which is free or its own. A listed board
/// goes as what it was and comes as what it is (C-12).
pub(super) fn list(records: &mut [Record], position: usize, board: &Identity) {
    clear(records, position);
    let Identity { node_type, mac, session, version } = *board;
    let index = next_index(&records[..position - 1], node_type);
    let (misses, owed) = (0, true);
    records[position - 1] = Record { node_type, mac, session, misses, owed, index, version };
    for record in above(records, position, node_type) {
        record.index += 1;
    }
}

/// Clears the record at this position, listed or not.
pub(super) fn clear(records: &mut [Record], position: usize) {
    let gone = std::mem::take(&mut records[position - 1]);
    for record in above(records, position, gone.node_type) {
        record.index -= 1;
    }
}

/// The index that comes after those of a type.
fn next_index(records: &[Record], node_type: u8) -> u8 {
    let last = records.iter().rev().find(|record| record.node_type == node_type);
    last.map_or(0, |record| record.index + 1)
}

/// The boards of a type above this position; type 0 has none.
fn above(
    records: &mut [Record],
    position: usize,
    node_type: u8,
) -> impl Iterator<Item = &mut Record> + '_ {
    let of_type = move |record: &&mut Record| record.listed() && record.node_type == node_type;
    records[position..].iter_mut().filter(of_type)
}

#[cfg(test)]
mod tests {
    use super::*;

    /// A table of these types, 0 for a free record, with counted indexes.
    fn table(types: &[u8]) -> Vec<Record> {
        let count = |place: usize| types[..place].iter().filter(|&&t| t == types[place]).count();
        let record = |place: usize| Record {
            node_type: types[place],
            mac: 1 + place as u64,
            session: 7,
            misses: 2,
            owed: false,
            index: count(place) as u8,
            version: 2,
        };
        let free = |place: usize| types[place] == 0;
        let places = 0..types.len();
        places.map(|place| if free(place) { Record::default() } else { record(place) }).collect()
    }

    /// A 1.0 board.
    fn board(node_type: u8, mac: u64) -> Identity {
        Identity { node_type, mac, session: 41, version: 1 }
    }

    /// Every table of five records of types 0 to 3.
    fn tables() -> impl Iterator<Item = [u8; 5]> {
        (0..4u32.pow(5))
            .map(|number| [0, 1, 2, 3, 4].map(|place| (number >> (2 * place)) as u8 & 3))
    }

    fn indexes(records: &[Record]) -> Vec<u8> {
        records.iter().map(|record| record.index).collect()
    }

    #[test]
    fn a_board_that_comes_leaves_every_index_as_counted() {
        for types in tables() {
            for (place, node_type) in (0..5).flat_map(|place| [1, 2, 3, 9].map(|t| (place, t))) {
                let (mut records, mut types) = (table(&types), types);
                list(&mut records, place + 1, &board(node_type, 40));
                types[place] = node_type;
                let mut expected = table(&types);
                let new = Record { mac: 40, session: 41, version: 1, ..expected[place] };
                expected[place] = Record { misses: 0, owed: true, ..new };
                assert_eq!(records, expected, "{types:?} {place}");
            }
        }
    }

    #[test]
    fn a_board_that_goes_leaves_every_index_as_counted() {
        for types in tables() {
            for place in 0..5 {
                let (mut records, mut types) = (table(&types), types);
                clear(&mut records, place + 1);
                types[place] = 0;
                assert_eq!(records, table(&types), "{types:?} {place}");
            }
        }
    }

    #[test]
    fn those_above_move_and_nobody_below() {
        let mut records = table(&[2, 0, 2, 5, 2]);
        assert_eq!(indexes(&records), [0, 0, 1, 0, 2]);
        list(&mut records, 2, &board(2, 9));
        assert_eq!(indexes(&records), [0, 1, 2, 0, 3]);
        list(&mut records, 3, &board(5, 3));
        assert_eq!(indexes(&records), [0, 1, 0, 1, 2]);
        clear(&mut records, 1);
        assert_eq!(indexes(&records), [0, 0, 0, 1, 1]);
    }

    #[test]
    fn forty_boards_of_a_type_have_the_indexes_0_to_39() {
        let mut records = vec![Record::default(); 40];
        for position in [40, 1, 20, 30, 10].into_iter().chain(2..40) {
            list(&mut records, position, &board(2, 1));
        }
        assert_eq!(indexes(&records), (0..40).collect::<Vec<u8>>());
    }
}
