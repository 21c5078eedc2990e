//! Boards that speak 1.0 (C-15): how they come and come back, the houses that they
//! make, and how many types the network then holds.

use super::cases::{step, waiting};
use crate::panel::Panel;
use crate::state;
use crate::version::{different_types, of_join, MOST_TYPES, OLD};

/// From so many addresses on a pool can hold more types than a condensed list.
const LARGE_POOL: usize = MOST_TYPES + 1;

pub fn named(version: u8) -> &'static str {
    match version {
        OLD => "1.0",
        _ => "later",
    }
}

/// What an answer is a case of.
pub fn cases(before: &Panel, line: &str, answer: &str, head: &str, after: &Panel) -> Vec<String> {
    match (step(line), head) {
        (_, "rest joined" | "transmit joined") => joined(before, answer, after),
        ("join", "refuse 25") => refused(before, line),
        ("turn", "wait offer") => house(before).into_iter().collect(),
        _ => Vec::new(),
    }
}

/// How many different types the listed boards have, and whether one speaks 1.0.
fn types_and_old(panel: &Panel) -> (usize, bool) {
    let boards = state::boards(&panel.records);
    (different_types(&boards), boards.iter().any(|board| board.1 == OLD))
}

/// Where every position is taken: by boards of which versions.
fn house(panel: &Panel) -> Option<String> {
    let (boards, k) = (state::boards(&panel.records), panel.coordinator.pool.len());
    let old = boards.iter().filter(|board| board.1 == OLD).count();
    let who = match old {
        0 => "later boards alone",
        _ if old == boards.len() => "1.0 boards alone",
        _ => "both",
    };
    (boards.len() == k).then(|| format!("an offer, all of k {k} taken by {who}"))
}

fn joined(before: &Panel, answer: &str, after: &Panel) -> Vec<String> {
    let at = answer.rsplit(' ').next().and_then(|word| word.parse().ok()).unwrap_or(1);
    let (was, now, way) = (before.record(at), after.record(at), waiting(before).unwrap_or("join"));
    let mut cases = Vec::new();
    if was.listed() {
        let (was, now) = (named(was.version), named(now.version));
        cases.push(format!("a rejoin ({way}) of a {was} board as a {now} one"));
    }
    cases.extend(types_now(before, way, after));
    let ((types_before, old_before), (types, old)) = (types_and_old(before), types_and_old(after));
    let another = !before.types().contains(&now.node_type);
    if (types_before, types) == (15, 15) && old_before && old && another {
        cases.push(format!("a rejoin ({way}): its type goes, a 15th comes, with a 1.0 board"));
    }
    if old_before && !old && types > MOST_TYPES {
        cases.push("the only 1.0 board came back as a later one of a 16th type".to_string());
    }
    cases
}

/// A join that brings the types near the limit.
fn types_now(before: &Panel, way: &str, after: &Panel) -> Option<String> {
    let ((types_before, _), (types, old)) = (types_and_old(before), types_and_old(after));
    let large = after.coordinator.pool.len() >= LARGE_POOL;
    let near = (MOST_TYPES - 1..=MOST_TYPES + 1).contains(&types) && types != types_before;
    let with = if old { "with" } else { "without" };
    (large && near).then(|| format!("a join ({way}): {types} types, {with} a 1.0 board"))
}

/// Whose join would leave a 1.0 board with too many types, and where.
fn refused(before: &Panel, line: &str) -> Vec<String> {
    let word = |place: usize| line.split(' ').nth(place).unwrap_or("");
    let (kind, version) = (word(1).parse().unwrap_or(0), word(4).parse().unwrap_or(0));
    let own = word(2).parse().ok().and_then(|mac| before.position_of(mac));
    let others: Vec<usize> = before.listed().filter(|&at| Some(at) != own).collect();
    let who = match own {
        None => "a new MAC",
        Some(at) if before.record(at).node_type == kind => "a listed MAC as its own type",
        Some(_) => "a listed MAC as another type",
    };
    let others_old = others.iter().any(|&at| before.record(at).version == OLD);
    let old = match (of_join(version), others_old) {
        (OLD, true) => "one more 1.0 board",
        (OLD, false) => "the only 1.0 board",
        _ => "beside a 1.0 board",
    };
    let full = before.listed().count() == before.coordinator.pool.len();
    let place = if full { "no position free" } else { "positions free" };
    let board = |&at: &usize| (before.record(at).node_type, before.record(at).version);
    let boards: Vec<(u8, u8)> = others.iter().map(board).chain([(kind, version)]).collect();
    let exactly = different_types(&boards) == MOST_TYPES + 1;
    let count = if exactly { "16" } else { "more than 16" };
    vec![
        format!("join: refuse 25 ({who}, {old}, {place})"),
        format!("join: refuse 25, {count} types"),
    ]
}

#[cfg(test)]
mod tests {
    use super::super::cases::head;
    use super::*;
    use crate::script::Player;

    /// What a line is a case of, where no list is owed and no join held.
    fn play(player: &mut Player, line: &str) -> Vec<String> {
        player.panel.records.iter_mut().for_each(|record| record.owed = false);
        player.panel.coordinator.held = false;
        let before = player.panel.clone();
        let answer = player.play(line.as_bytes()).unwrap();
        cases(&before, line, &answer, &head(&answer), &player.panel)
    }

    /// A pool of so many addresses with boards of the types 1, 2, ..., all later
    /// ones.
    fn with_types(k: usize, types: usize) -> Player {
        let mut player = Player::default();
        let addresses: Vec<String> = (1..=k).map(|address| address.to_string()).collect();
        play(&mut player, &format!("setup 3 1 9 1 {}", addresses.join(" ")));
        for number in 1..=types {
            play(&mut player, &format!("join {number} {number} 1 2"));
        }
        player
    }

    #[test]
    fn refusals_are_named_by_who_joins_what_speaks_1_0_and_the_room() {
        let mut player = with_types(17, 16);
        let named = |how, count| {
            [format!("join: refuse 25 ({how})"), format!("join: refuse 25, {count} types")]
        };
        let expected = [
            ("join 1 50 1 1", "a new MAC, the only 1.0 board, positions free", "16"),
            ("join 99 50 1 1", "a new MAC, the only 1.0 board, positions free", "more than 16"),
            (
                "join 1 1 1 1",
                "a listed MAC as its own type, the only 1.0 board, positions free",
                "16",
            ),
            (
                "join 99 1 1 1",
                "a listed MAC as another type, the only 1.0 board, positions free",
                "16",
            ),
        ];
        for (line, how, count) in expected {
            assert_eq!(play(&mut player, line), named(how, count), "{line}");
        }
        let mut player = with_types(15, 15);
        assert_eq!(
            play(&mut player, "join 1 1 1 1"),
            ["a rejoin (join) of a later board as a 1.0 one"]
        );
        let how = "a new MAC, beside a 1.0 board, no position free";
        assert_eq!(play(&mut player, "join 99 50 1 2"), named(how, "16"));
        let how = "a new MAC, one more 1.0 board, no position free";
        assert_eq!(play(&mut player, "join 99 50 1 1"), named(how, "16"));
    }

    #[test]
    fn joins_near_the_limit_are_seen() {
        let mut player = with_types(20, 13);
        let mut join = |line| play(&mut player, line);
        assert_eq!(join("join 14 14 1 0"), ["a join (join): 14 types, without a 1.0 board"]);
        assert_eq!(join("join 15 15 1 1"), ["a join (join): 15 types, with a 1.0 board"]);
        let stays = [
            "a rejoin (join) of a later board as a later one",
            "a rejoin (join): its type goes, a 15th comes, with a 1.0 board",
        ];
        assert_eq!(join("join 99 14 1 2"), stays);
        assert!(join("join 99 60 1 2").is_empty());
        // type 15 goes, and comes again
        let fewer = [
            "a rejoin (join) of a 1.0 board as a 1.0 one",
            "a join (join): 14 types, with a 1.0 board",
        ];
        assert_eq!(join("join 99 15 1 1"), fewer);
        assert_eq!(join("join 15 61 1 2"), ["a join (join): 15 types, with a 1.0 board"]);
        let only = [
            "a rejoin (join) of a 1.0 board as a later one",
            "a join (join): 16 types, without a 1.0 board",
            "the only 1.0 board came back as a later one of a 16th type",
        ];
        assert_eq!(join("join 98 15 1 2"), only);
    }

    #[test]
    fn a_house_is_named_where_it_is_full() {
        let mut player = with_types(2, 1);
        assert!(play(&mut player, "turn 64").is_empty());
        play(&mut player, "quiet");
        for (line, who) in [
            ("join 5 2 1 2", "later boards alone"),
            ("join 5 1 1 1", "both"),
            ("join 5 2 1 1", "1.0 boards alone"),
        ] {
            play(&mut player, line);
            let expected = format!("an offer, all of k 2 taken by {who}");
            assert_eq!(play(&mut player, "turn 64"), [expected]);
            play(&mut player, "quiet");
            player.panel.records.iter_mut().for_each(|record| record.misses = 0);
        }
    }
}
