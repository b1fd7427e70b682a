//! Reads a script and writes its answers; SCRIPT.md has the format.

use std::io::{self, Read, Write};
use std::process::exit;

fn main() -> io::Result<()> {
    let mut script = String::new();
    io::stdin().read_to_string(&mut script)?;
    match hub::script::run(&script) {
        Ok(output) => io::stdout().write_all(output.as_bytes()),
        Err(line) => {
            eprintln!("line {line} is no command");
            exit(2)
        }
    }
}
