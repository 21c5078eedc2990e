//! The indexes that a join, a retyping or a drop leaves in the records (C-13),
//! and whether a `table` shows them before the next of these.

use super::cases::waiting;
use super::retypings::retyped;
use crate::panel::Panel;

/// What the last of these did, by position, until a table has shown it.
#[derive(Clone, Debug, Default)]
pub struct Indexes {
    unseen: Vec<(usize, String)>,
}

impl Indexes {
    /// What an answer is a case of.
    pub fn note(&mut self, before: &Panel, answer: &str, head: &str, after: &Panel) -> Vec<String> {
        match head {
            "ready" => self.unseen.clear(),
            "rest joined" | "transmit joined" | "rest dropped" => {
                self.unseen = moves(before, answer, after);
                return self.unseen.iter().map(|(_, case)| case.clone()).collect();
            }
            "listed" => return self.note_table(answer),
            _ => (),
        }
        Vec::new()
    }

    /// Only an index above 0 counts: a table of nothing but zeros shows no move.
    fn note_table(&mut self, answer: &str) -> Vec<String> {
        let shown: Vec<usize> = answer.lines().skip(1).filter_map(above_0).collect();
        let unseen = std::mem::take(&mut self.unseen).into_iter();
        let seen = unseen.filter(|(at, _)| shown.contains(at));
        seen.map(|(_, case)| format!("a table showed that {case}")).collect()
    }
}

/// The position in a row of a table whose index, the last number but one, is above
/// 0.
fn above_0(row: &str) -> Option<usize> {
    let words: Vec<&str> = row.split(' ').collect();
    let [position, index] = [words.first()?, words.iter().nth_back(1)?];
    position.parse().ok().filter(|_| *index != "0")
}

/// What a step did to the index of the board that its answer names as the last
/// word, and to those of the others.
fn moves(before: &Panel, answer: &str, after: &Panel) -> Vec<(usize, String)> {
    let named = answer.rsplit(' ').next().and_then(|word| word.parse().ok()).unwrap_or(0);
    let step = step_at(before, named, after);
    let how = |at: usize| match (before.record(at).index, after.record(at).index) {
        (_, index) if at == named => (index > 0).then_some("gave its board an index above 0"),
        (old, new) if old < new => Some("raised the index of another board"),
        (old, new) if old > new => Some("lowered the index of another board"),
        _ => None,
    };
    after.listed().filter_map(|at| how(at).map(|how| (at, format!("{step} {how}")))).collect()
}

/// Which of the steps it was that changed the record at this position.
fn step_at(before: &Panel, at: usize, after: &Panel) -> String {
    let way = waiting(before).unwrap_or("join");
    match before.record(at) {
        _ if !after.record(at).listed() => "a drop".to_string(),
        record if !record.listed() => format!("a join of a new board ({way})"),
        _ if retyped(before, at, after) => format!("a retyping ({way})"),
        _ => format!("a join as it was ({way})"),
    }
}

#[cfg(test)]
mod tests {
    use super::super::cases::head;
    use super::*;
    use crate::script::Player;

    /// What a line is a case of, where no list is owed and no join held.
    fn play(player: &mut Player, indexes: &mut Indexes, line: &str) -> Vec<String> {
        player.panel.records.iter_mut().for_each(|record| record.owed = false);
        player.panel.coordinator.held = false;
        let before = player.panel.clone();
        let answer = player.play(line.as_bytes()).unwrap();
        indexes.note(&before, &answer, &head(&answer), &player.panel)
    }

    #[test]
    fn moves_are_seen_and_a_table_shows_those_that_left_an_index_above_0() {
        let (mut player, mut indexes) = (Player::default(), Indexes::default());
        let new = "a join of a new board (join) gave its board an index above 0";
        let same = "a join as it was (join) gave its board an index above 0";
        let lowered = "a retyping (join) lowered the index of another board";
        let raised = "a retyping (join) raised the index of another board";
        let [new_shown, lowered_shown] =
            [new, lowered].map(|case| format!("a table showed that {case}"));
        let expected: [(&str, &[&str]); 12] = [
            ("setup 3 1 9 1 16 17 18 19", &[]),
            ("join 2 1 1 2", &[]),
            ("table", &[]),
            ("join 2 2 1 2", &[new]),
            ("table", &[&new_shown]),
            ("table", &[]),
            ("join 2 3 1 2", &[new]),
            ("join 2 3 1 2", &[same]),
            ("join 5 1 1 2", &[lowered, lowered]),
            // the second board's is 0 now
            ("table", &[&lowered_shown]),
            ("join 2 1 1 2", &[raised, raised]),
            ("setup 3 1 9 1 16 17 18 19", &[]),
        ];
        for (line, cases) in expected {
            assert_eq!(play(&mut player, &mut indexes, line), cases, "{line}");
        }
        assert!(indexes.unseen.is_empty());
    }

    #[test]
    fn a_drop_lowers_and_a_join_in_its_place_raises() {
        let (mut player, mut indexes) = (Player::default(), Indexes::default());
        for line in ["setup 3 1 9 1 16 17", "join 2 1 1 2", "join 2 2 1 2", "turn 64"] {
            play(&mut player, &mut indexes, line);
        }
        player.panel.records[0].misses = 2;
        let dropped = play(&mut player, &mut indexes, "quiet");
        assert_eq!(dropped, ["a drop lowered the index of another board"]);
        let joined = play(&mut player, &mut indexes, "join 2 3 1 2");
        assert_eq!(joined, ["a join of a new board (join) raised the index of another board"]);
    }
}
