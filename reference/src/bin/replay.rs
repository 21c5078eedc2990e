//! Plays the script on standard input and writes the answers (design 7).

use reference::{language, script};
use std::io;

fn main() -> io::Result<()> {
    language::play_input(script::play_all)
}
