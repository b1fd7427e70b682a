//! Reads a list of records and writes what hubtally writes for it.

use std::io::{self, Read, Write};

fn main() -> io::Result<()> {
    let mut list = Vec::new();
    io::stdin().read_to_end(&mut list)?;
    io::stdout().write_all(hub::hubtally::output(&list).as_bytes())
}
