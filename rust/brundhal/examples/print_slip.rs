//! Prints the slip of the lot file on standard input.

#![deny(warnings)]

use std::io::{self, Read, Write};

fn main() -> io::Result<()> {
    let mut file = Vec::new();
    io::stdin().read_to_end(&mut file)?;
    let mut slip = Box::new([0; brundhal::SLIP_BYTES]);
    let length = brundhal::slip(&file, &mut slip);
    io::stdout().write_all(&slip[..length])
}
