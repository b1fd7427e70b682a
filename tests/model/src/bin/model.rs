//! Reads a text and writes what hubcalls writes for it.

use std::io::{self, Read, Write};

fn main() -> io::Result<()> {
    let mut text = Vec::new();
    io::stdin().read_to_end(&mut text)?;
    io::stdout().write_all(hub::hubcalls::output(&text).as_bytes())
}
