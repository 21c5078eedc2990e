//! Frames with two faults at once: the number told is the first in the order
//! of 01.

use super::boards::ACK_LENGTH;
use super::{frame_text, Generator};
use crate::draft::Draft;
use crate::line::{Kind, Line};
use crate::state::Exchange;

/// The faults behind numbers 24, 5 to 9 and 11.
#[derive(Clone, Copy)]
enum Fault {
    Subnet,
    Destination,
    Source,
    Type,
    Echo,
    Method,
    Room,
}

/// A type that no wait takes.
const NEVER_TAKEN: u8 = 128;

/// The faults that a frame can have in this wait.
fn faults_in(exchange: Exchange) -> &'static [Fault] {
    use Fault::*;
    match exchange {
        Exchange::Offer => &[Subnet, Destination, Source, Type, Method, Room],
        Exchange::List => &[Subnet, Destination, Source, Type, Echo, Room],
        Exchange::Forward { .. } => &[Subnet, Destination, Source, Type, Room],
        Exchange::Return | Exchange::Search => &[Subnet, Destination, Source, Type],
        Exchange::Identify { .. } => &[Subnet, Destination, Source, Type, Room],
        Exchange::Assign { .. } => &[Subnet, Destination, Source, Type, Echo, Room],
    }
}

impl Generator<'_> {
    pub(super) fn faults_line(&mut self, board: usize, exchange: Exchange) -> Line {
        let faults = faults_in(exchange);
        let first = self.rng.below(faults.len());
        let second = (first + self.rng.between(1, faults.len() - 1)) % faults.len();
        let mut draft = self.acknowledged(board, exchange);
        let mut room = ACK_LENGTH;
        for place in [first, second] {
            self.lay(faults[place], board, exchange, &mut draft, &mut room);
        }
        let mut bytes = draft.bytes();
        if self.rng.chance(20) {
            bytes[8] ^= 1 << self.rng.below(8);
        }
        Line::new(Kind::Faults, frame_text(room, &bytes))
    }

    fn lay(
        &mut self,
        fault: Fault,
        board: usize,
        exchange: Exchange,
        draft: &mut Draft,
        room: &mut usize,
    ) {
        match fault {
            Fault::Subnet => draft.subnet = self.other_subnet(),
            Fault::Destination => draft.destination = self.not_ours(),
            Fault::Source => draft.source = draft.source.wrapping_add(1),
            Fault::Type => draft.message_type = NEVER_TAKEN,
            Fault::Echo => draft.payload = self.other_echo(board, exchange),
            Fault::Method => draft.method = self.rng.pick(&[4, 255]),
            Fault::Room => *room = self.rng.pick(&[0, ACK_LENGTH - 1]),
        }
    }
}
