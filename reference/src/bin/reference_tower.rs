//! Prints what the program `tower` has to print for the text on standard input.

use std::io::{self, Read, Write};

use reference::brute::program;

fn main() -> io::Result<()> {
    let mut text = Vec::new();
    let most = program::BUFFER as u64;
    io::stdin().take(most).read_to_end(&mut text)?;
    io::stdout().write_all(program::output(&text).as_bytes())
}
