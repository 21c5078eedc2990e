//! The script language of the program `replay` (design 7).

use crate::language::{self, byte, counted, last_pairs, number, refused, room, Lines};
use crate::panel::{Action, Answer, Outcome, Panel, Settings};

/// One line that is well formed.
enum Command {
    Setup { subnet: u8, internal: u8, mac: u64, session: u64, pool: Vec<u8> },
    Join { node_type: u8, mac: u64, session: u64, version: u8 },
    Discover { room: usize },
    Turn { room: usize },
    Frame { room: usize, bytes: Vec<u8> },
    Quiet,
    Table,
}

/// Plays a script line by line on one panel.
#[derive(Default)]
pub struct Player {
    pub panel: Panel,
    lines: Lines,
}

impl Player {
    /// The answer to the next line, or none for an empty line or a comment.
    pub fn play(&mut self, line: &[u8]) -> Option<String> {
        let panel = &mut self.panel;
        self.lines.answer(line, |words| parse(words).map(|command| run(panel, command)))
    }
}

/// Plays a whole script; each answer ends its line.
pub fn play_all(script: &[u8]) -> String {
    let mut player = Player::default();
    language::play_all(script, |line| player.play(line))
}

fn run(panel: &mut Panel, command: Command) -> String {
    match command {
        Command::Setup { subnet, internal, mac, session, pool } => {
            let settings = Settings { subnet, internal, mac, session, pool: &pool };
            match panel.setup(&settings) {
                Ok(k) => format!("ready {k}"),
                Err(refusal) => refused(refusal),
            }
        }
        Command::Join { node_type, mac, session, version } => {
            tell(panel.join(node_type, mac, session, version), &[])
        }
        Command::Discover { room } => {
            let mut out = vec![0; room];
            tell(panel.discover(&mut out), &out)
        }
        Command::Turn { room } => {
            let mut out = vec![0; room];
            tell(panel.turn(&mut out), &out)
        }
        Command::Frame { room, bytes } => {
            let mut out = vec![0; room];
            tell(panel.frame(&bytes, &mut out), &out)
        }
        Command::Quiet => tell(panel.quiet(), &[]),
        Command::Table => table(panel),
    }
}

/// `listed N`, then a line for each board.
fn table(panel: &Panel) -> String {
    let mut text = format!("listed {}", panel.listed().count());
    for position in panel.listed() {
        let record = panel.record(position);
        let address = panel.address(position);
        let (kind, mac, session) = (record.node_type, record.mac, record.session);
        let (misses, owed, index) = (record.misses, u8::from(record.owed), record.index);
        let state = format!("{misses} {owed} {index} {}", record.version);
        text.push_str(&format!("\n{position} {address} {kind} {mac} {session} {state}"));
    }
    text
}

/// The text of a step's answer.
fn tell(answer: Answer, out: &[u8]) -> String {
    match answer {
        Err(refusal) => refused(refusal),
        Ok(outcome) => tell_outcome(&outcome, &out[..outcome.written]),
    }
}

fn tell_outcome(outcome: &Outcome, written: &[u8]) -> String {
    match outcome.action {
        Action::Wait { board, exchange } => {
            format!("wait {board} {} {}", exchange.name(), counted(written))
        }
        Action::Deliver => format!("deliver {}", counted(written)),
        Action::Transmit if outcome.joined != 0 => {
            format!("transmit {} joined {}", counted(written), outcome.joined)
        }
        Action::Transmit => format!("transmit {}", counted(written)),
        Action::Rest if outcome.joined != 0 => format!("rest joined {}", outcome.joined),
        Action::Rest if outcome.dropped != 0 => format!("rest dropped {}", outcome.dropped),
        Action::Rest => "rest".to_string(),
    }
}

fn parse(words: &[&str]) -> Option<Command> {
    match *words {
        ["setup", subnet, internal, mac, session, ref addresses @ ..] => Some(Command::Setup {
            subnet: byte(subnet)?,
            internal: byte(internal)?,
            mac: number(mac)?,
            session: number(session)?,
            pool: addresses.iter().map(|word| byte(word)).collect::<Option<Vec<u8>>>()?,
        }),
        ["join", node_type, mac, session, version] => Some(Command::Join {
            node_type: byte(node_type)?,
            mac: number(mac)?,
            session: number(session)?,
            version: byte(version)?,
        }),
        ["discover", size] => Some(Command::Discover { room: room(size)? }),
        ["turn", size] => Some(Command::Turn { room: room(size)? }),
        ["frame", size, ref rest @ ..] => {
            Some(Command::Frame { room: room(size)?, bytes: last_pairs(rest)? })
        }
        ["quiet"] => Some(Command::Quiet),
        ["table"] => Some(Command::Table),
        _ => None,
    }
}

#[cfg(test)]
mod tests {
    use super::*;

    /// The answers to a script, one string each.
    fn answers(script: &str) -> Vec<String> {
        play_all(script.as_bytes()).lines().map(str::to_string).collect()
    }

    #[test]
    fn before_a_setup_steps_answer_22() {
        let script = "join 1 1 1 2\ndiscover 64\nturn 64\nframe 64\nquiet\ntable\n";
        let answers = answers(script);
        assert_eq!(answers[..5], ["refuse 22"; 5]);
        assert_eq!(answers[5], "listed 0");
    }

    #[test]
    fn a_first_round() {
        let script = "setup 3 1 1 2 2 5 9\njoin 2 7 8 2\nturn 64\nquiet\nturn 64\nquiet\ntable\n";
        let expected = [
            "ready 3",
            "rest joined 1",
            "wait 1 list 14 02FF03000000A514000201020B86",
            "rest",
            "wait 1 offer 29 02FF03000000A5008011000100000000000000020000000000000021F4",
            "rest",
            "listed 1",
            "1 2 2 7 8 2 0 0 2",
        ];
        assert_eq!(answers(script), expected);
    }

    /// Two boards of a type; the first then misses for the third time.
    #[test]
    fn a_table_has_the_index_as_its_last_column_but_one() {
        let script = "setup 3 1 1 2 2 5 9\njoin 2 7 8 2\nturn 64\nquiet\nturn 64\nquiet\n\
                      join 2 9 8 2\ntable\nturn 64\nquiet\ntable\n";
        let answers = answers(script);
        assert_eq!(answers[7..10], ["listed 2", "1 2 2 7 8 2 1 0 2", "2 5 2 9 8 0 1 1 2"]);
        assert_eq!(answers[11..], ["rest dropped 1", "listed 1", "2 5 2 9 8 0 1 0 2"]);
    }

    /// A version is 1 or 2 there, whatever byte the join had (C-15).
    #[test]
    fn a_table_has_the_version_as_its_last_column() {
        for version in 0..=255 {
            let script = format!("setup 3 1 1 2 5\njoin 2 7 8 {version}\ntable\n");
            let kept = if version == 1 { 1 } else { 2 };
            assert_eq!(answers(&script)[3], format!("1 5 2 7 8 0 1 0 {kept}"));
        }
    }

    #[test]
    fn empty_lines_and_comments_are_counted_and_not_answered() {
        let script = "\n# a comment\nnonsense\n\nturn\n";
        assert_eq!(answers(script), ["bad line 3", "bad line 5"]);
    }

    #[test]
    fn numbers_that_do_not_fit_are_bad_lines() {
        let lines = [
            "turn 1025",
            "turn -1",
            "turn +1",
            "turn 0x10",
            "turn",
            "turn  5",
            " turn 5",
            "turn 5 ",
            "Turn 5",
            "discover",
            "discover 1025",
            "discover 5 5",
            "Discover 5",
            "setup 256 1 1 1 1",
            "setup 1 256 1 1 1",
            "setup 1 1 1 1 256",
            "setup 1 1 1",
            "frame",
            "frame 1025",
            "frame 5 ABC",
            "frame 5 GG",
            "frame 5 AA BB",
            "frame 5 ",
            "quiet 1",
            "table 1",
        ];
        for line in lines {
            assert_eq!(answers(line), ["bad line 1"], "{line}");
        }
        let too_long = format!("frame 5 {}", "AA".repeat(1025));
        assert_eq!(answers(&too_long), ["bad line 1"]);
        assert_eq!(play_all(b"turn \xFF"), "bad line 1\n");
    }

    #[test]
    fn joins_that_lack_a_number_or_have_one_that_does_not_fit_are_bad_lines() {
        for line in [
            "join 256 1 1 2",
            "join 1 18446744073709551616 1 2",
            "join 1 1 18446744073709551616 2",
            "join 1 1",
            "join 1 1 1",
            "join 1 1 1 256",
            "join 1 1 1 -1",
            "join 1 1 1 1.0",
            "join 1 1 1 1 1",
        ] {
            assert_eq!(answers(line), ["bad line 1"], "{line}");
        }
    }

    #[test]
    fn numbers_that_fit_are_taken() {
        let most = format!("frame 1024 {}", "aA".repeat(1024));
        for line in [
            "turn 1024",
            "turn 0",
            "turn 007",
            "discover 1024",
            "join 255 0 18446744073709551615 2",
            &most,
        ] {
            assert_eq!(answers(line), ["refuse 22"], "{line}");
        }
    }

    #[test]
    fn setups_are_refused_by_21_then_13_and_change_nothing() {
        let script = "setup 1 1 0 0\nsetup 1 1 0 0 5 5\nsetup 1 1 0 0 5\nquiet\n\
                      setup 1 1 9 0 5\nsetup 1 1 72057594037927936 0 5\nquiet\n";
        let expected = [
            "refuse 21",
            "refuse 21",
            "refuse 13",
            "refuse 22",
            "ready 1",
            "refuse 13",
            "refuse 20",
        ];
        assert_eq!(answers(script), expected);
    }
}
