//! The two sides of the comparison and what they are given.

use super::program::Program;
use crate::{finder, payloads, script};
use std::io;

/// Scripts are played, by `replay` or by `payloads`, a capture is listed.
#[derive(Clone, Copy, Debug, PartialEq, Eq)]
pub enum Sort {
    Script,
    Capture,
    Payloads,
}

/// The answer to one line after another.
pub type Play = Box<dyn FnMut(&[u8]) -> Option<String>>;

impl Sort {
    /// Plays a script of this sort line by line; none for what has no lines.
    pub fn player(self) -> Option<Play> {
        match self {
            Sort::Script => {
                let mut player = script::Player::default();
                Some(Box::new(move |line| player.play(line)))
            }
            Sort::Payloads => {
                let mut player = payloads::Player::default();
                Some(Box::new(move |line| player.play(line)))
            }
            Sort::Capture => None,
        }
    }
}

pub trait Side: Sync {
    /// The answers, each ended by a line feed.
    fn answer(&self, sort: Sort, input: &[u8]) -> io::Result<String>;
}

/// The programs that are compared with this implementation.
pub struct Ours {
    pub replay: Program,
    pub framelist: Program,
    pub payloads: Program,
}

impl Side for Ours {
    fn answer(&self, sort: Sort, input: &[u8]) -> io::Result<String> {
        match sort {
            Sort::Script => self.replay.answer(input),
            Sort::Capture => self.framelist.answer(input),
            Sort::Payloads => self.payloads.answer(input),
        }
    }
}

/// This implementation.
pub struct Reference;

impl Side for Reference {
    fn answer(&self, sort: Sort, input: &[u8]) -> io::Result<String> {
        Ok(match sort {
            Sort::Script => script::play_all(input),
            Sort::Capture => finder::list(input),
            Sort::Payloads => payloads::play_all(input),
        })
    }
}
