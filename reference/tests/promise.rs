//! Demand 3 and what C-11 to C-15 add to it, watched from outside: the model below
//! sees only the lines of a generated script and their answers.

use reference::checksum;
use reference::generator;
use reference::language;
use reference::routing;
use reference::script::Player;

/// One listed position as seen from outside.
#[derive(Clone, Copy, Default)]
struct Seen {
    listed: bool,
    /// The type that the board's last join told (C-12).
    node_type: u8,
    /// 1 or 2, by the board's last join or by how it was discovered (C-15).
    version: u8,
    mac: u64,
    misses: usize,
    offers: usize,
    steps: usize,
}

/// C-11: an exchange has at most six accepted steps.
const LONGEST_EXCHANGE: usize = 6;

#[derive(Default)]
struct Watch {
    k: usize,
    subnet: u8,
    internal: u8,
    boards: Vec<Seen>,
    awaited: usize,
    /// Where the request goes that was just taken, and whose it is.
    asked: Option<usize>,
    requester: usize,
    heard: bool,
    drops: usize,
    /// The accepted steps of the discovery that runs; 0 if none does.
    exchange: usize,
    identifies: bool,
    started: bool,
    /// The type and the version that the response to a search told.
    discovered: u8,
    found_version: u8,
    /// Whether a 1.0 board may answer now.
    hears_old: bool,
    found: usize,
    retyped: usize,
    /// The frames of another subnet.
    overheard: usize,
    /// The condensed lists, and the joins refused by 25.
    condensed: usize,
    too_many: usize,
}

impl Watch {
    /// Follows one line; panics where the promise is broken.
    fn follow(&mut self, line: &str, answer: &str) {
        let words: Vec<&str> = answer.split(['\n', ' ']).collect();
        let step = line.split(' ').next().unwrap_or("");
        if step == "frame" && self.k > 0 {
            self.keeps_to_its_subnet(line, answer);
        }
        if step == "join" {
            self.keeps_to_its_types(line, answer);
        }
        let exchanges = self.exchange > 0;
        match (step, &words[..]) {
            (_, ["refuse" | "bad", ..]) => return,
            ("table", _) => return self.shown(answer),
            ("setup", ["ready", k]) => return self.start(k.parse().unwrap(), line),
            ("discover", ["wait", _, "search", ..]) => self.discovery(),
            (step, _) if self.exchange > 0 => self.in_exchange(step, line, &words),
            ("join", ["rest", "joined", at]) => {
                let (node_type, mac, version) = joiner(line);
                self.joined(at, node_type, mac, version);
            }
            ("turn", ["wait", at, kind, _, sent]) => {
                self.sent(at.parse().unwrap(), kind, &language::pairs(sent).unwrap());
            }
            ("frame", _) => self.accepted(line),
            ("quiet", ["rest", "dropped", at]) => self.quiet(at.parse().unwrap()),
            ("quiet", ["rest"]) => self.quiet(0),
            _ => panic!("{line}: {answer}"),
        }
        self.carries_index(&words);
        self.carries_subnet(&words, exchanges);
        self.hears_old = self.may_hear_old(&words);
        self.count_step();
    }

    fn start(&mut self, k: usize, line: &str) {
        let (subnet, internal) = (word(line, 1).parse().unwrap(), word(line, 2).parse().unwrap());
        let boards = vec![Seen::default(); k + 1];
        let Watch { found, retyped, overheard, condensed, too_many, .. } = *self;
        let counts = Watch { found, retyped, overheard, condensed, too_many, ..Watch::default() };
        *self = Watch { k, subnet, internal, boards, ..counts };
    }

    /// C-14: 24 is for a good frame whose subnet is neither ours nor 0, nor 2 where
    /// a 1.0 board may answer (C-15), and for no other. It is refused, so the board
    /// is not heard by it.
    fn keeps_to_its_subnet(&mut self, line: &str, answer: &str) {
        let bytes = language::pairs(word(line, 2)).unwrap_or_default();
        let length = bytes.get(9).map_or(0, |&n| usize::from(n));
        let whole = length <= 240 && bytes.len() == 12 + length;
        let heard = |subnet| [self.subnet, 0].contains(&subnet) || subnet == 2 && self.hears_old;
        let other = whole && checksum::is_good(&bytes) && !heard(bytes[2]);
        assert_eq!(answer == "refuse 24", other, "{line}: {answer}");
        self.overheard += usize::from(other);
    }

    /// C-15: in a search, and while the board awaited or discovered speaks 1.0.
    fn may_hear_old(&self, answer: &[&str]) -> bool {
        match (self.exchange, answer) {
            (1, _) => true,
            (2.., _) => self.found_version == 1,
            (_, ["wait", at, ..]) => self.boards[at.parse::<usize>().unwrap()].version == 1,
            _ => false,
        }
    }

    /// C-15: 25 is for a join that would leave a 1.0 board with more than 15 types,
    /// and what comes after 25, with what is accepted, for the others.
    fn keeps_to_its_types(&mut self, line: &str, answer: &str) {
        if answer == "refuse 25" {
            assert!(self.too_many_types(joiner(line)), "{line}");
            self.too_many += 1;
        }
        if answer == "refuse 16" || answer.starts_with("rest") {
            assert!(!self.too_many_types(joiner(line)), "{line}");
        }
    }

    /// Whether this board, in the place of its own record if it has one, would be too
    /// much.
    fn too_many_types(&self, (node_type, mac, version): (u8, u64, u8)) -> bool {
        let others = self.boards.iter().filter(|board| board.listed && board.mac != mac);
        let (mut types, mut old) = ([false; 256], version == 1);
        types[usize::from(node_type)] = true;
        for board in others {
            types[usize::from(board.node_type)] = true;
            old |= board.version == 1;
        }
        old && types.iter().filter(|listed| **listed).count() > 15
    }

    /// C-15: a frame to a 1.0 board carries subnet 2, to any other ours, to all 0. In
    /// an exchange it goes by the version of what was discovered.
    fn carries_subnet(&self, answer: &[&str], exchanges: bool) {
        let (to_all, sent) = match *answer {
            ["wait", _, kind, _, sent] => (["search", "assign"].contains(&kind), sent),
            ["deliver" | "transmit", _, sent, ..] => (false, sent),
            _ => return,
        };
        let version =
            if exchanges { self.found_version } else { self.boards[self.awaited].version };
        let expected = match version {
            _ if to_all => 0,
            1 => 2,
            _ => self.subnet,
        };
        assert_eq!(language::pairs(sent).unwrap()[2], expected, "{answer:?}");
    }

    fn joined(&mut self, at: &str, node_type: u8, mac: u64, version: u8) {
        let board = &mut self.boards[at.parse::<usize>().unwrap()];
        let old = if board.listed { *board } else { Seen::default() };
        assert!(!board.listed || board.mac == mac);
        self.retyped += usize::from(old.listed && old.node_type != node_type);
        *board = Seen { listed: true, node_type, version, mac, misses: 0, ..old };
    }

    /// The types at positions 1 to k, 0 if free, as the last joins told them.
    fn types(&self) -> Vec<u8> {
        self.boards[1..].iter().map(|board| board.node_type).collect()
    }

    /// The number of lower listed positions of its type, 0 where it is free.
    fn index(&self, at: usize) -> usize {
        let kind = self.boards[at].node_type;
        self.boards[..at].iter().filter(|board| board.listed && board.node_type == kind).count()
    }

    /// C-13: the index in every row of the table is the one counted. The version is
    /// that of the last join (C-15).
    fn shown(&self, table: &str) {
        let column = |row: &str, place| word(row, place).parse::<usize>().unwrap();
        let row = |row| [0, 2, 7, 8].map(|place| column(row, place));
        let seen = |at: usize| {
            let Seen { node_type, version, .. } = self.boards[at];
            [at, usize::from(node_type), self.index(at), usize::from(version)]
        };
        let listed = (1..self.boards.len()).filter(|&at| self.boards[at].listed);
        assert!(table.lines().skip(1).map(row).eq(listed.map(seen)), "{table}");
    }

    /// C-13: a frame carries the index that the step leaves, on a forward the
    /// requester's; 0 on a return and to all.
    fn carries_index(&self, answer: &[&str]) {
        let (kind, sent) = match *answer {
            ["wait", _, kind, _, sent] => (kind, sent),
            ["deliver" | "transmit", _, sent, ..] => ("ACK", sent),
            _ => return,
        };
        let expected = match kind {
            "return" | "search" | "assign" => 0,
            "forward" => self.index(self.requester),
            _ => self.index(self.awaited),
        };
        assert_eq!(usize::from(language::pairs(sent).unwrap()[5]), expected, "{answer:?}");
    }

    /// While someone is listed, one at most is started between two offers.
    fn discovery(&mut self) {
        assert!(self.exchange == 0);
        assert!(!self.started || self.boards.iter().all(|board| !board.listed));
        (self.started, self.exchange, self.identifies) = (true, 1, false);
    }

    /// Nobody misses in it, no other join is accepted, and it ends with one
    /// join or with none.
    fn in_exchange(&mut self, step: &str, line: &str, answer: &[&str]) {
        self.exchange += 1;
        assert!(self.exchange <= LONGEST_EXCHANGE);
        match (step, answer) {
            ("turn", ["wait", at, kind @ ("identify" | "assign"), ..]) => {
                (self.awaited, self.identifies) = (at.parse().unwrap(), *kind == "identify");
                self.heard = false;
            }
            ("frame", ["wait", _, "identify", "0"]) => self.identity_heard(mac_in(line)),
            ("frame", ["rest"]) => {
                let packet = language::pairs(word(line, 2)).unwrap()[8];
                self.found_version = if packet & 0x20 == 0 { 2 } else { 1 };
                self.exchange = self.found_exchange(line);
                self.discovered = payload(line)[0];
            }
            ("frame", ["transmit", _, _, "joined", at]) => {
                let told = if self.identifies { payload(line)[0] } else { self.discovered };
                assert!(!self.too_many_types((told, mac_in(line), self.found_version)));
                self.joined(at, told, mac_in(line), self.found_version);
                (self.exchange, self.found) = (0, self.found + 1);
            }
            ("frame", ["transmit", _, _]) => {
                self.broken_off(line);
                self.identity_heard(mac_in(line));
                self.exchange = 0;
            }
            ("quiet", ["rest"]) if self.identifies && !self.heard => self.identifies = false,
            ("quiet", ["rest"]) => self.exchange = 0,
            _ => panic!("{line}: {answer:?}"),
        }
    }

    /// Whether a response to a search lets the exchange go on: where its join
    /// would be refused it has broken off.
    fn found_exchange(&self, line: &str) -> usize {
        let (kind, mac) = (payload(line)[0], mac_in(line));
        let too_many = self.too_many_types((kind, mac, self.found_version));
        if joins(kind, mac) && !too_many {
            self.exchange
        } else {
            0
        }
    }

    /// Where a Get Node ID Response joined nobody, its join would be refused, or would
    /// take another position.
    fn broken_off(&self, line: &str) {
        let (kind, mac) = (payload(line)[0], mac_in(line));
        let listed = |board: &&Seen| board.listed && board.mac == mac;
        let position =
            self.boards.iter().find(listed).is_some() || self.boards[self.awaited].listed;
        let elsewhere = position && self.boards[self.awaited].mac != mac;
        let too_many = self.too_many_types((kind, mac, self.found_version));
        assert!(!joins(kind, mac) || elsewhere || too_many, "{line}");
    }

    /// In identify a listed board is heard by its own MAC alone.
    fn identity_heard(&mut self, mac: u64) {
        self.heard = true;
        let board = &mut self.boards[self.awaited];
        if board.listed && board.mac == mac {
            board.misses = 0;
        }
    }

    fn sent(&mut self, at: usize, kind: &str, bytes: &[u8]) {
        assert!(self.boards[at].listed);
        (self.awaited, self.heard) = (at, false);
        self.goes_by_type(at, kind, bytes);
        if kind == "offer" {
            self.started = false;
            for board in &mut self.boards {
                board.offers += 1;
            }
            (self.boards[at].offers, self.boards[at].steps) = (0, 0);
            assert!(self.boards.iter().all(|board| !board.listed || board.offers < self.k));
        }
    }

    /// The list and the way of a request are by the types that the last joins
    /// told.
    fn goes_by_type(&mut self, at: usize, kind: &str, bytes: &[u8]) {
        assert_eq!((kind == "forward").then_some(at), self.asked.take());
        if kind == "list" && self.boards[at].version == 1 {
            self.condensed += 1;
            assert_eq!(bytes[10..bytes.len() - 2], self.condensed_list());
        } else if kind == "list" {
            let types = self.types();
            let highest = types.iter().rposition(|&kind| kind != 0).unwrap();
            let list = [&[self.internal][..], &types[..=highest]].concat();
            assert_eq!(bytes[10..bytes.len() - 2], list);
        }
    }

    /// 000, 8.1.2.4: a 1.0 board keeps its byte if it is the lowest of its type; then
    /// each other type has the lowest one that is open, by its lowest position.
    fn condensed_list(&self) -> Vec<u8> {
        let mut list = vec![0; 16];
        list[0] = self.internal;
        for (at, board) in self.boards.iter().enumerate().take(16).skip(1) {
            let (node_type, version, lower) = (board.node_type, board.version, &self.boards[1..at]);
            let first =
                lower.iter().all(|other| (other.node_type, other.version) != (node_type, 1));
            if version == 1 && first {
                list[at] = node_type;
            }
        }
        for board in self.boards[1..].iter().filter(|board| board.listed) {
            if !list[1..].contains(&board.node_type) {
                let open = list[1..].iter().position(|&kind| kind == 0).unwrap();
                list[1 + open] = board.node_type;
            }
        }
        list
    }

    /// Of what is accepted only a request has a type of 1 to 127.
    fn accepted(&mut self, line: &str) {
        self.heard = true;
        self.boards[self.awaited].misses = 0;
        let bytes = language::pairs(word(line, 2)).unwrap();
        if (1..=127).contains(&bytes[7]) {
            let to = routing::resolve(&self.types(), bytes[3], bytes[4]);
            self.asked = to.filter(|&to| to != self.awaited);
            self.requester = self.awaited;
        }
    }

    /// A board leaves exactly at the third message in a row unanswered.
    fn quiet(&mut self, dropped: usize) {
        let board = &mut self.boards[self.awaited];
        board.misses += usize::from(!self.heard);
        let expected = if board.misses == 3 { self.awaited } else { 0 };
        assert_eq!(dropped, expected);
        if dropped != 0 {
            *board = Seen::default();
            self.drops += 1;
        }
    }

    /// Offered within k times (2k^2 + 2k + 14) accepted steps.
    fn count_step(&mut self) {
        let limit = self.k * (2 * self.k * self.k + 2 * self.k + 14);
        for board in self.boards.iter_mut().filter(|board| board.listed) {
            board.steps += 1;
            assert!(board.steps <= limit);
        }
    }
}

fn word(line: &str, place: usize) -> &str {
    line.split(' ').nth(place).unwrap_or("")
}

/// Type, MAC and version of a `join` line: of its last byte 1 alone is a 1.0 board.
fn joiner(line: &str) -> (u8, u64, u8) {
    let version = if word(line, 4) == "1" { 1 } else { 2 };
    (word(line, 1).parse().unwrap_or(0), word(line, 2).parse().unwrap_or(0), version)
}

/// Whether 12 and 13 let it join.
fn joins(kind: u8, mac: u64) -> bool {
    kind != 0 && kind != 165 && (1..1 << 56).contains(&mac)
}

/// The payload of the frame in a line.
fn payload(line: &str) -> Vec<u8> {
    let bytes = language::pairs(word(line, 2)).unwrap();
    bytes[10..bytes.len() - 2].to_vec()
}

/// The MAC in an ACK or in a response of the exchange: by length behind the
/// first byte, or the first two.
fn mac_in(line: &str) -> u64 {
    let payload = payload(line);
    let at = if payload.len() == 17 { 1 } else { 2 };
    u64::from_le_bytes(payload[at..at + 8].try_into().unwrap())
}

fn addresses_and_macs_differ(player: &Player) -> bool {
    let panel = &player.panel;
    let macs: Vec<u64> = panel.listed().map(|at| panel.record(at).mac).collect();
    let spots: Vec<u8> = panel.listed().map(|at| panel.address(at)).collect();
    (1..macs.len()).all(|i| !macs[..i].contains(&macs[i]) && !spots[..i].contains(&spots[i]))
}

#[test]
fn generated_scripts_keep_the_promise() {
    let mut too_many = 0;
    for seed in 100..106 {
        let (mut player, mut watch, mut drops) = (Player::default(), Watch::default(), 0);
        generator::generate(seed, 12000, &mut |line| {
            if let Some(answer) = player.play(line.as_bytes()) {
                let before = watch.drops;
                watch.follow(line, &answer);
                // a table after each line, not only where the script has one
                watch.follow("table", &player.play(b"table").unwrap());
                drops += watch.drops.saturating_sub(before);
                assert!(addresses_and_macs_differ(&player));
            }
        });
        assert!(drops > 20 && watch.found > 20 && watch.retyped > 20 && watch.overheard > 200);
        assert!(watch.condensed > 200);
        too_many += watch.too_many;
    }
    assert!(too_many > 20);
}
