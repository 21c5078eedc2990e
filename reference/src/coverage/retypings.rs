//! Boards that came back as something else (C-12), and what goes by the types
//! that they now have.

use super::cases::{request, waiting};
use crate::panel::Panel;
use crate::state::Phase;

/// A listed board that came back as something else, and what it was before.
#[derive(Clone, Debug)]
struct Retyped {
    mac: u64,
    was: u8,
}

/// The retypings since the setup.
#[derive(Clone, Debug, Default)]
pub struct Retypings {
    boards: Vec<Retyped>,
    /// How the one was made that no list has told of yet.
    untold: Option<&'static str>,
}

/// Whether the board at this position was listed and has another type now.
pub fn retyped(before: &Panel, at: usize, after: &Panel) -> bool {
    let was = before.record(at);
    was.listed() && was.node_type != after.record(at).node_type
}

impl Retypings {
    /// What a line is a case of. A board that is dropped is forgotten: it comes
    /// back as a new one.
    pub fn note(&mut self, before: &Panel, line: &str, head: &str, after: &Panel) -> Vec<String> {
        match head {
            "ready" => *self = Retypings::default(),
            "rest dropped" => self.boards.retain(|board| after.position_of(board.mac).is_some()),
            "rest joined" | "transmit joined" => self.note_join(before, after),
            "wait list" => return self.note_list(),
            "transmit" => return self.note_request(before, line, after),
            _ => (),
        }
        Vec::new()
    }

    /// Keeps a board that is retyped.
    fn note_join(&mut self, before: &Panel, after: &Panel) {
        let at = match before.listed().find(|&at| retyped(before, at, after)) {
            Some(at) => at,
            None => return,
        };
        let (mac, was) = (after.record(at).mac, before.record(at).node_type);
        self.boards.retain(|board| board.mac != mac);
        self.boards.push(Retyped { mac, was });
        self.untold = Some(waiting(before).unwrap_or("join"));
    }

    fn note_list(&mut self) -> Vec<String> {
        let told = self.untold.take();
        told.map(|how| format!("a list told of a retyping ({how})")).into_iter().collect()
    }

    /// Sees where a request by type goes: to a retyped board, or to nobody
    /// because its board has another type now.
    fn note_request(&self, before: &Panel, line: &str, after: &Panel) -> Vec<String> {
        let retyped = |at| self.boards.iter().any(|board| board.mac == after.record(at).mac);
        let had = |kind| self.boards.iter().any(|board| board.was == kind);
        match (&after.coordinator.phase, request(before, line)) {
            (Phase::ForwardDue { to, .. }, Some((method @ (1 | 2), _))) if retyped(*to) => {
                vec![format!("a request of method {method} was passed on to a retyped board")]
            }
            (Phase::Idle, Some((2, kind))) if had(kind) && !after.types().contains(&kind) => {
                vec!["a request for the type that a board had was discarded".to_string()]
            }
            _ => Vec::new(),
        }
    }
}

#[cfg(test)]
mod tests {
    use super::*;
    use crate::draft::Draft;
    use crate::language::hex;

    /// Boards of these types, with the MACs 1, 2, ...
    fn with(types: &[u8]) -> Panel {
        let mut panel = Panel::default();
        panel.coordinator.pool = vec![16, 17, 18];
        panel.coordinator.mac = 7;
        for (place, &node_type) in types.iter().enumerate() {
            panel.records[place].node_type = node_type;
            panel.records[place].mac = 1 + place as u64;
            panel.records[place].version = 2;
        }
        panel
    }

    /// What a request of board 2 is a case of, by where it goes.
    fn asked(retypings: &mut Retypings, panel: &Panel, method: u8, parameter1: u8) -> Vec<String> {
        let mut panel = panel.clone();
        panel.records.iter_mut().for_each(|record| record.owed = false);
        panel.coordinator.last_offered = 1;
        panel.turn(&mut [0; 64]).unwrap();
        let request = Draft { destination: 255, source: 17, message_type: 3, ..Draft::default() };
        let bytes = Draft { method, parameter1, ..request }.bytes();
        let before = panel.clone();
        panel.frame(&bytes, &mut [0; 64]).unwrap();
        retypings.note(&before, &format!("frame 64 {}", hex(&bytes)), "transmit", &panel)
    }

    #[test]
    fn a_retyping_is_seen_in_lists_and_requests() {
        let (mut retypings, before) = (Retypings::default(), with(&[2, 1, 3]));
        let nothing = Vec::<String>::new();
        assert_eq!(asked(&mut retypings, &before, 2, 2), nothing);
        let mut after = before.clone();
        after.join(3, 1, 0, 2).unwrap();
        let joined = retypings.note(&before, "join 3 1 0 2", "rest joined", &after);
        assert_eq!(joined, nothing);
        let mut list = || retypings.note(&after, "turn 64", "wait list", &after);
        assert_eq!(list(), ["a list told of a retyping (join)"]);
        assert_eq!(list(), nothing);
        for (method, parameter1) in [(1, 102), (2, 3)] {
            let case = format!("a request of method {method} was passed on to a retyped board");
            assert_eq!(asked(&mut retypings, &after, method, parameter1), [case]);
        }
        let discarded = asked(&mut retypings, &after, 2, 2);
        assert_eq!(discarded, ["a request for the type that a board had was discarded"]);
        assert_eq!(asked(&mut retypings, &after, 2, 77), nothing);
        assert_eq!(asked(&mut retypings, &after, 3, 1), nothing);
    }

    #[test]
    fn a_board_that_joins_as_it_was_is_not_retyped_and_one_dropped_is_forgotten() {
        let (mut retypings, before) = (Retypings::default(), with(&[2, 1]));
        for (node_type, count) in [(2, 0), (3, 1)] {
            let mut after = before.clone();
            after.join(node_type, 1, 0, 2).unwrap();
            retypings.note(&before, "join", "rest joined", &after);
            assert_eq!(retypings.boards.len(), count);
        }
        let mut gone = before.clone();
        gone.records[0] = Default::default();
        retypings.note(&before, "quiet", "rest dropped", &gone);
        assert!(retypings.boards.is_empty());
    }
}
