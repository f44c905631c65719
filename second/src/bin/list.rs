//! `list`: reads a network on standard input, up to 4,096 bytes of it, and prints its listing or
//! why it is refused.

#![forbid(unsafe_code)]

use std::io::{self, Read};

use second::listing::listing;

/// The bytes of standard input that are read.
const MOST: u64 = 4096;

fn main() -> io::Result<()> {
    let mut file = Vec::new();
    io::stdin().take(MOST).read_to_end(&mut file)?;
    match listing(&file) {
        Ok(text) => print!("{text}"),
        Err(refusal) => println!("refused {} at {}", refusal.reply as u32, refusal.place),
    }
    Ok(())
}
