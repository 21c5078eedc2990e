//! A frame in the making: its fields and a payload of its own.

use crate::captures::zero_for_255;
use crate::frame::{self, Fields};

/// A frame that owns its payload.
pub type Draft = Fields<Vec<u8>>;

impl Draft {
    pub fn bytes(&self) -> Vec<u8> {
        let mut out = vec![0; 300];
        let written = frame::write(self, &mut out).unwrap_or(0);
        out.truncate(written);
        out
    }

    /// The frame with a check byte 0, by way of a packet number that gives
    /// one; the plain frame if none does.
    pub fn zeroed(mut self) -> Vec<u8> {
        let plain = self.bytes();
        let found = (0..=255).find_map(|packet| {
            self.packet = packet;
            zero_for_255(&self.bytes())
        });
        found.unwrap_or(plain)
    }
}
