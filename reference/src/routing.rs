//! Routing of requests (000, section 6.3 and its Table 3).

/// Node types named in Table 3 (000: 4.2.1, 4.4, 8.1.4.1; the crossover
/// device's number is the Command Reference's).
pub const ZONE_CONTROLLER: u8 = 21;
pub const FURNACE: u8 = 2;
pub const AIR_HANDLER: u8 = 3;
pub const AIR_CONDITIONER: u8 = 4;
pub const HEAT_PUMP: u8 = 5;
pub const CROSSOVER: u8 = 9;

/// Table 3, row "Heat" (100).
const HEAT: [u8; 5] = [ZONE_CONTROLLER, HEAT_PUMP, FURNACE, CROSSOVER, AIR_HANDLER];
/// Table 3, row "Cool" (101).
const COOL: [u8; 5] = [ZONE_CONTROLLER, HEAT_PUMP, AIR_CONDITIONER, CROSSOVER, FURNACE];
/// Table 3, rows "Fan", "Emergency", "Defrost" and "Aux Heat" (102 to 105).
const AIR: [u8; 4] = [ZONE_CONTROLLER, AIR_HANDLER, FURNACE, CROSSOVER];

/// Table 3: the node types for a control command code, first one first.
pub fn priority_list(code: u8) -> &'static [u8] {
    match code {
        100 => &HEAT,
        101 => &COOL,
        102..=105 => &AIR,
        _ => &[],
    }
}

/// The lowest position of a type; type 0 marks a free position, no board.
/// `types` holds the type at position 1, 2, ... or 0 if free.
fn lowest_of_type(types: &[u8], wanted: u8) -> Option<usize> {
    let place = types.iter().position(|&kind| kind != 0 && kind == wanted)?;
    Some(place + 1)
}

/// 6.3.2: the first type of the list that any board has; its lowest position.
fn by_command(types: &[u8], code: u8) -> Option<usize> {
    let list = priority_list(code);
    list.iter().find_map(|&wanted| lowest_of_type(types, wanted))
}

/// 6.3.4: the board at that place in the node list. Place 0 is the internal
/// subordinate, which counts as absent (01, house).
fn by_socket(types: &[u8], socket: u8) -> Option<usize> {
    let place = usize::from(socket).checked_sub(1)?;
    let kind = *types.get(place)?;
    (kind != 0).then_some(place + 1)
}

/// The position a request of the given method goes to, if there is one.
pub fn resolve(types: &[u8], method: u8, parameter1: u8) -> Option<usize> {
    match method {
        1 => by_command(types, parameter1),
        2 => lowest_of_type(types, parameter1),
        3 => by_socket(types, parameter1),
        _ => None,
    }
}

#[cfg(test)]
mod tests {
    use super::*;

    #[test]
    fn heat_goes_down_its_list() {
        let mut types = vec![AIR_HANDLER, CROSSOVER, FURNACE, HEAT_PUMP, ZONE_CONTROLLER];
        for expected in [5, 4, 3, 2, 1] {
            assert_eq!(resolve(&types, 1, 100), Some(expected));
            types[expected - 1] = 0;
        }
        assert_eq!(resolve(&types, 1, 100), None);
    }

    #[test]
    fn cool_goes_down_its_list() {
        let mut types = vec![FURNACE, CROSSOVER, AIR_CONDITIONER, HEAT_PUMP, ZONE_CONTROLLER];
        for expected in [5, 4, 3, 2, 1] {
            assert_eq!(resolve(&types, 1, 101), Some(expected));
            types[expected - 1] = 0;
        }
        assert_eq!(resolve(&[AIR_HANDLER], 1, 101), None);
    }

    #[test]
    fn fan_emergency_defrost_and_aux_heat_share_a_list() {
        for code in 102..=105 {
            let mut types = vec![CROSSOVER, FURNACE, AIR_HANDLER, ZONE_CONTROLLER];
            for expected in [4, 3, 2, 1] {
                assert_eq!(resolve(&types, 1, code), Some(expected));
                types[expected - 1] = 0;
            }
            assert_eq!(resolve(&[HEAT_PUMP, AIR_CONDITIONER], 1, code), None);
        }
    }

    #[test]
    fn other_codes_name_nobody() {
        let types = [ZONE_CONTROLLER, HEAT_PUMP, FURNACE];
        assert!((0..100).chain(106..=255).all(|code| resolve(&types, 1, code).is_none()));
    }

    #[test]
    fn types_and_sockets() {
        let types = [7, 0, 5, 7];
        assert_eq!(resolve(&types, 2, 7), Some(1));
        assert_eq!(resolve(&types, 2, 5), Some(3));
        assert_eq!(resolve(&types, 2, 0), None);
        assert_eq!(resolve(&types, 3, 4), Some(4));
        assert_eq!(resolve(&types, 3, 2), None);
        assert_eq!(resolve(&types, 3, 0), None);
        assert_eq!(resolve(&types, 3, 5), None);
    }
}
