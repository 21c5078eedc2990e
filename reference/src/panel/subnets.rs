//! Which subnet a frame to a board carries, and which ones a frame step takes: a
//! 1.0 board is on subnet 2, every other one on ours (C-14, C-15).

use super::Panel;
use crate::frame::{self, Frame};
use crate::refusal::Refusal;
use crate::state::{Exchange, Phase};
use crate::version::{self, OLD, OLD_SUBNET};

impl Panel {
    /// The subnet of a board of this version.
    pub fn subnet_of_version(&self, version: u8) -> u8 {
        version::subnet(version, self.coordinator.subnet)
    }

    /// The subnet of the board at this position by its record.
    pub fn subnet_at(&self, position: usize) -> u8 {
        self.subnet_of_version(self.record(position).version)
    }

    /// Whether a frame with this subnet byte is taken now: 0, ours, and 2 where a
    /// 1.0 board may answer.
    pub fn takes(&self, subnet: u8) -> bool {
        let ours = frame::takes(self.coordinator.subnet, subnet);
        ours || subnet == OLD_SUBNET && self.may_hear_old()
    }

    /// A frame read as the frame step reads it: 1 to 4, then 24.
    pub fn read<'a>(&self, bytes: &'a [u8]) -> Result<Frame<'a>, Refusal> {
        frame::read_if(bytes, |subnet| self.takes(subnet))
    }

    /// Whether the board awaited or discovered speaks 1.0; in a search nobody knows
    /// yet.
    fn may_hear_old(&self) -> bool {
        match &self.coordinator.phase {
            Phase::Idle | Phase::ForwardDue { .. } | Phase::ReturnDue { .. } => false,
            Phase::IdentifyDue { found, .. } | Phase::AssignDue { found, .. } => {
                found.version == OLD
            }
            Phase::Waiting { board, exchange } => match exchange {
                Exchange::Search => true,
                Exchange::Identify { found, .. } | Exchange::Assign { found } => {
                    found.version == OLD
                }
                _ => self.record(*board).version == OLD,
            },
        }
    }
}
