//! The panel's state: the table of boards, the coordinator's record, and when
//! the two are fit (01, "Boards and positions" and "Fit").

use crate::frame::{Frame, COORDINATOR_TYPE, MAX_PAYLOAD};
use crate::version;

/// 01: the host lends forty records.
pub const RECORDS: usize = 40;
/// 01: a MAC is a number from 1 to 2^56 - 1.
pub const MAX_MAC: u64 = (1 << 56) - 1;

/// One board's record; a free one is all zeros.
#[derive(Clone, Copy, Debug, Default, PartialEq, Eq)]
pub struct Record {
    pub node_type: u8,
    pub mac: u64,
    pub session: u64,
    pub misses: u8,
    pub owed: bool,
    /// The number of lower listed positions of its type (C-13).
    pub index: u8,
    /// 1 of a 1.0 board, 2 of any other (C-15).
    pub version: u8,
}

impl Record {
    pub fn listed(&self) -> bool {
        self.node_type != 0
    }
}

/// What is kept of a frame that is to be passed on (01, "Forward and return").
#[derive(Clone, Debug, PartialEq, Eq)]
pub struct Message {
    pub message_type: u8,
    pub packet: u8,
    pub node_type: u8,
    pub method: u8,
    pub parameter1: u8,
    pub payload: Vec<u8>,
}

impl Message {
    pub fn of(frame: &Frame<'_>) -> Message {
        Message {
            message_type: frame.message_type,
            packet: frame.packet,
            node_type: frame.node_type,
            method: frame.method,
            parameter1: frame.parameter1,
            payload: frame.payload.to_vec(),
        }
    }
}

/// Who a board is: what a join tells of it, and what it tells of itself when it
/// is discovered or identified (003, tables 58 and 62; the version 4.3).
#[derive(Clone, Copy, Debug, Default, PartialEq, Eq)]
pub struct Identity {
    pub node_type: u8,
    pub mac: u64,
    pub session: u64,
    pub version: u8,
}

/// The kind of exchange in which the panel waits for a board. The last three
/// are the waits of a discovery; they keep whom it found as long as they need.
#[derive(Clone, Copy, Debug, PartialEq, Eq)]
pub enum Exchange {
    Offer,
    List,
    Forward { requester: usize, request_type: u8, acked: bool },
    Return,
    Search,
    Identify { found: Identity, acked: bool },
    Assign { found: Identity },
}

impl Exchange {
    pub fn name(&self) -> &'static str {
        match self {
            Exchange::Offer => "offer",
            Exchange::List => "list",
            Exchange::Forward { .. } => "forward",
            Exchange::Return => "return",
            Exchange::Search => "search",
            Exchange::Identify { .. } => "identify",
            Exchange::Assign { .. } => "assign",
        }
    }

    /// Whether this is a wait of a discovery.
    pub fn discovers(&self) -> bool {
        matches!(self, Exchange::Search | Exchange::Identify { .. } | Exchange::Assign { .. })
    }
}

/// At most one wait, forward or return at a time (01, "Fit"), and as little of
/// a discovery: its two dues stand here beside those of a request.
#[derive(Clone, Debug, Default, PartialEq, Eq)]
pub enum Phase {
    #[default]
    Idle,
    ForwardDue {
        to: usize,
        requester: usize,
        request: Message,
    },
    ReturnDue {
        to: usize,
        response: Message,
    },
    IdentifyDue {
        at: usize,
        found: Identity,
    },
    AssignDue {
        at: usize,
        found: Identity,
    },
    Waiting {
        board: usize,
        exchange: Exchange,
    },
}

impl Phase {
    /// Whether a discovery runs: one of its waits or dues.
    pub fn discovers(&self) -> bool {
        match self {
            Phase::IdentifyDue { .. } | Phase::AssignDue { .. } => true,
            Phase::Waiting { exchange, .. } => exchange.discovers(),
            _ => false,
        }
    }

    /// The board awaited and the exchange it is awaited in, if there is a wait.
    pub fn awaited(&self) -> Option<(usize, Exchange)> {
        match *self {
            Phase::Waiting { board, exchange } => Some((board, exchange)),
            _ => None,
        }
    }
}

/// The coordinator's record. The empty one, before a setup, is not fit.
#[derive(Clone, Debug, Default, PartialEq, Eq)]
pub struct Coordinator {
    pub pool: Vec<u8>,
    pub subnet: u8,
    pub internal: u8,
    pub mac: u64,
    pub session: u64,
    pub phase: Phase,
    pub last_offered: usize,
    pub held: bool,
    /// A discovery was started since the last offer.
    pub started: bool,
}

/// 01: k from 1 to 40, strictly rising, each 1 to 254.
pub fn pool_fits(pool: &[u8]) -> bool {
    let count = (1..=RECORDS).contains(&pool.len());
    let range = pool.iter().all(|&address| (1..=254).contains(&address));
    count && range && pool.windows(2).all(|pair| pair[0] < pair[1])
}

pub fn mac_fits(mac: u64) -> bool {
    (1..=MAX_MAC).contains(&mac)
}

/// 01: a listed record's type is neither 0 nor 165.
pub fn type_fits(node_type: u8) -> bool {
    node_type != 0 && node_type != COORDINATOR_TYPE
}

/// A listed record within the ranges, or a free one that is all zeros.
fn record_fits(record: &Record) -> bool {
    if !record.listed() {
        return *record == Record::default();
    }
    type_fits(record.node_type)
        && mac_fits(record.mac)
        && record.misses <= 2
        && version::fits(record.version)
}

fn macs_differ(records: &[Record]) -> bool {
    let listed: Vec<u64> = records.iter().filter(|r| r.listed()).map(|r| r.mac).collect();
    (1..listed.len()).all(|i| !listed[..i].contains(&listed[i]))
}

/// C-13: the index stored is the one counted, for every board; that of a free
/// record is among its zeros.
fn indexes_fit(records: &[Record]) -> bool {
    records.iter().enumerate().filter(|(_, record)| record.listed()).all(|(place, record)| {
        let lower = records[..place].iter().filter(|other| other.node_type == record.node_type);
        lower.count() == usize::from(record.index)
    })
}

/// The listed boards by type and version.
pub fn boards(records: &[Record]) -> Vec<(u8, u8)> {
    let listed = records.iter().filter(|record| record.listed());
    listed.map(|record| (record.node_type, record.version)).collect()
}

fn records_fit(records: &[Record], k: usize) -> bool {
    let forty = records.len() == RECORDS;
    let past_free = records.iter().skip(k).all(|record| !record.listed());
    let each_fits = records.iter().all(record_fits);
    let differ = macs_differ(records) && indexes_fit(records);
    forty && past_free && each_fits && differ && !version::too_many_types(&boards(records))
}

fn is_listed(records: &[Record], position: usize) -> bool {
    let place = position.checked_sub(1);
    place.and_then(|i| records.get(i)).map_or(false, Record::listed)
}

fn request_fits(request: &Message) -> bool {
    (1..=127).contains(&request.message_type)
        && (1..=3).contains(&request.method)
        && request.payload.len() <= MAX_PAYLOAD
}

fn response_fits(response: &Message) -> bool {
    response.message_type > 128 && response.payload.len() <= MAX_PAYLOAD
}

/// What was discovered is within the ranges of a join.
fn identity_fits(found: &Identity) -> bool {
    type_fits(found.node_type) && mac_fits(found.mac) && version::fits(found.version)
}

/// In a discovery the position at stake need not be listed.
fn wait_fits(records: &[Record], k: usize, board: usize, exchange: &Exchange) -> bool {
    match exchange {
        Exchange::Forward { requester, request_type, .. } => {
            is_listed(records, board)
                && is_listed(records, *requester)
                && (1..=127).contains(request_type)
        }
        Exchange::Search => (1..=k).contains(&board),
        Exchange::Identify { found, .. } | Exchange::Assign { found } => {
            (1..=k).contains(&board) && identity_fits(found)
        }
        _ => is_listed(records, board),
    }
}

fn phase_fits(records: &[Record], k: usize, phase: &Phase) -> bool {
    match phase {
        Phase::Idle => true,
        Phase::ForwardDue { to, requester, request } => {
            is_listed(records, *to) && is_listed(records, *requester) && request_fits(request)
        }
        Phase::ReturnDue { to, response } => is_listed(records, *to) && response_fits(response),
        Phase::IdentifyDue { at, found } | Phase::AssignDue { at, found } => {
            (1..=k).contains(at) && identity_fits(found)
        }
        Phase::Waiting { board, exchange } => wait_fits(records, k, *board, exchange),
    }
}

/// 01, "Fit": what every step asks of the lent table and record (else 22).
pub fn fit(records: &[Record], coordinator: &Coordinator) -> bool {
    let k = coordinator.pool.len();
    pool_fits(&coordinator.pool)
        && mac_fits(coordinator.mac)
        && records_fit(records, k)
        && phase_fits(records, k, &coordinator.phase)
        && (!coordinator.held || records.iter().any(Record::listed))
        && coordinator.last_offered <= k
}

#[cfg(test)]
mod tests {
    use super::*;

    fn board(node_type: u8, mac: u64) -> Record {
        Record { node_type, mac, session: 1, version: version::LATER, ..Record::default() }
    }

    fn sample() -> (Vec<Record>, Coordinator) {
        let mut records = vec![Record::default(); RECORDS];
        records[0] = board(2, 7);
        records[2] = board(5, 8);
        let pool = vec![2, 5, 9];
        let coordinator = Coordinator { pool, mac: 1, ..Coordinator::default() };
        (records, coordinator)
    }

    /// Whether the sample is still fit after a change.
    fn fit_after(change: impl Fn(&mut Vec<Record>, &mut Coordinator)) -> bool {
        let (mut records, mut coordinator) = sample();
        change(&mut records, &mut coordinator);
        fit(&records, &coordinator)
    }

    #[test]
    fn the_sample_is_fit_and_the_empty_record_is_not() {
        assert!(fit_after(|_, _| ()));
        assert!(!fit(&vec![Record::default(); RECORDS], &Coordinator::default()));
    }

    #[test]
    fn records_out_of_range_are_unfit() {
        assert!(!fit_after(|r, _| r.truncate(39)));
        assert!(!fit_after(|r, _| r.push(Record::default())));
        assert!(!fit_after(|r, _| r[0].node_type = 165));
        assert!(!fit_after(|r, _| r[0].node_type = 0));
        assert!(!fit_after(|r, _| r[0].mac = 0));
        assert!(!fit_after(|r, _| r[0].mac = 1 << 56));
        assert!(!fit_after(|r, _| r[0].mac = 8));
        assert!(!fit_after(|r, _| r[0].misses = 3));
        assert!(!fit_after(|r, _| r[1].owed = true));
        assert!(!fit_after(|r, _| r[1].version = version::LATER));
        assert!(!fit_after(|r, _| r[3] = board(4, 11)));
    }

    #[test]
    fn indexes_other_than_the_count_are_unfit() {
        for index in 0..=255 {
            for place in 0..RECORDS {
                assert_eq!(fit_after(|r, _| r[place].index = index), index == 0);
            }
            // of the first board's type, and of that of the board above it
            let (twin, other) = (board(2, 9), board(5, 9));
            assert_eq!(fit_after(|r, _| r[1] = Record { index, ..twin }), index == 1);
            assert!(!fit_after(|r, _| r[1] = Record { index, ..other }));
        }
    }

    #[test]
    fn a_listed_board_has_version_1_or_2() {
        for version in 0..=255 {
            assert_eq!(fit_after(|r, _| r[0].version = version), [1, 2].contains(&version));
        }
    }

    /// So many boards of different types, and one more of the first's; the last
    /// ones, as many as said, speak 1.0.
    fn fit_of_types(types: u8, old: usize) -> bool {
        let kinds = (1..=types).chain([1]);
        fit_after(move |r, c| {
            c.pool = (1..=40).collect();
            for (place, kind) in kinds.clone().enumerate() {
                let later = place + old <= usize::from(types);
                let version = if later { version::LATER } else { version::OLD };
                let index = u8::from(place == usize::from(types));
                r[place] = Record { version, index, ..board(kind, 1 + place as u64) };
            }
        })
    }

    #[test]
    fn a_1_0_board_among_more_than_15_types_is_unfit() {
        for types in 3..=30 {
            for old in 0..=3 {
                assert_eq!(fit_of_types(types, old), old == 0 || types <= 15, "{types} {old}");
            }
        }
    }

    #[test]
    fn coordinator_records_out_of_range_are_unfit() {
        assert!(!fit_after(|_, c| c.pool = vec![5, 5]));
        assert!(!fit_after(|_, c| c.mac = 0));
        assert!(!fit_after(|_, c| c.last_offered = 4));
        assert!(fit_after(|_, c| c.last_offered = 3));
        assert!(fit_after(|_, c| c.held = true));
        assert!(!fit_after(|r, c| {
            r.fill(Record::default());
            c.held = true;
        }));
    }

    fn message(message_type: u8, method: u8, length: usize) -> Message {
        let payload = vec![0; length];
        Message { message_type, packet: 0, node_type: 1, method, parameter1: 0, payload }
    }

    fn forward_due(to: usize, requester: usize, request: Message) -> bool {
        let phase = Phase::ForwardDue { to, requester, request };
        fit_after(move |_, c| c.phase = phase.clone())
    }

    #[test]
    fn a_forward_names_listed_boards_and_a_request() {
        assert!(forward_due(1, 3, message(1, 1, 240)));
        assert!(!forward_due(2, 3, message(1, 1, 0)));
        assert!(!forward_due(1, 0, message(1, 1, 0)));
        assert!(!forward_due(1, 41, message(1, 1, 0)));
        assert!(!forward_due(1, 3, message(0, 1, 0)));
        assert!(!forward_due(1, 3, message(128, 1, 0)));
        assert!(!forward_due(1, 3, message(1, 0, 0)));
        assert!(!forward_due(1, 3, message(1, 4, 0)));
        assert!(!forward_due(1, 3, message(1, 1, 241)));
    }

    fn in_phase(phase: Phase) -> bool {
        fit_after(move |_, c| c.phase = phase.clone())
    }

    #[test]
    fn returns_and_waits_name_listed_boards() {
        assert!(in_phase(Phase::ReturnDue { to: 1, response: message(129, 9, 240) }));
        assert!(!in_phase(Phase::ReturnDue { to: 2, response: message(129, 9, 0) }));
        assert!(!in_phase(Phase::ReturnDue { to: 1, response: message(128, 9, 0) }));
        assert!(in_phase(Phase::Waiting { board: 3, exchange: Exchange::Return }));
        assert!(!in_phase(Phase::Waiting { board: 2, exchange: Exchange::Offer }));
        let forward = |requester, request_type| {
            let exchange = Exchange::Forward { requester, request_type, acked: false };
            in_phase(Phase::Waiting { board: 1, exchange })
        };
        assert!(forward(3, 127));
        assert!(!forward(2, 127));
        assert!(!forward(3, 0));
    }

    /// The phases that keep whom a discovery found.
    fn with_found(at: usize, found: Identity) -> [Phase; 5] {
        let waiting = |exchange| Phase::Waiting { board: at, exchange };
        [
            Phase::IdentifyDue { at, found },
            Phase::AssignDue { at, found },
            waiting(Exchange::Identify { found, acked: false }),
            waiting(Exchange::Identify { found, acked: true }),
            waiting(Exchange::Assign { found }),
        ]
    }

    #[test]
    fn a_discovery_names_a_position_listed_or_not_and_whom_it_found() {
        let found = Identity { node_type: 9, mac: 11, session: 0, version: 2 };
        for at in 0..=4 {
            let fits = (1..=3).contains(&at);
            assert_eq!(in_phase(Phase::Waiting { board: at, exchange: Exchange::Search }), fits);
            for phase in with_found(at, found) {
                assert!(phase.discovers());
                assert_eq!(in_phase(phase), fits);
            }
        }
        let misfits = [
            Identity { node_type: 0, ..found },
            Identity { node_type: 165, ..found },
            Identity { mac: 0, ..found },
            Identity { mac: MAX_MAC + 1, ..found },
            Identity { version: 0, ..found },
            Identity { version: 3, ..found },
        ];
        for misfit in misfits {
            assert!(with_found(2, misfit).into_iter().all(|phase| !in_phase(phase)));
        }
        assert!(!Phase::Idle.discovers());
        assert!(!Phase::Waiting { board: 1, exchange: Exchange::Offer }.discovers());
    }
}
