//! Plays readers and writers of payloads, and the store of shared data, from the lines
//! on standard input (C-16, C-21 and C-22).

use reference::{language, payloads};
use std::io;

fn main() -> io::Result<()> {
    language::play_input(payloads::play_all)
}
