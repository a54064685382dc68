//! Prints the slip of the lot file on standard input, or the line "unreadable" if
//! it cannot be read.

#![deny(warnings)]

use std::io::{self, Read, Write};

fn main() -> io::Result<()> {
    let mut file = Vec::new();
    let slip = match io::stdin().read_to_end(&mut file) {
        Ok(_) => second::slip::slip(&file),
        Err(_) => b"unreadable\n".to_vec(),
    };
    io::stdout().write_all(&slip)
}
