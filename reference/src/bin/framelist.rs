//! Lists the frames of subnets 3 and 0 in the first 4,096 bytes of standard input
//! (01; C-14).

use reference::finder::{self, INPUT_LIMIT};
use std::io::{self, Read, Write};

fn main() -> io::Result<()> {
    let mut input = Vec::new();
    io::stdin().lock().take(INPUT_LIMIT as u64).read_to_end(&mut input)?;
    io::stdout().write_all(finder::list(&input).as_bytes())
}
