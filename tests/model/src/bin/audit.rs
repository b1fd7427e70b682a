//! audit SLOT [raw]
//!
//! Reads a text and writes what hubaudit writes for it and the slot: lines or, with
//! `raw`, bytes, and then a refusal on standard error too.

use std::env;
use std::io::{self, Read, Write};
use std::process::exit;

use hub::hubaudit::{output, shown};

fn main() -> io::Result<()> {
    let arguments: Vec<String> = env::args().skip(1).collect();
    let (slot, raw) = match arguments.as_slice() {
        [slot] => (slot, false),
        [slot, word] if word == "raw" => (slot, true),
        _ => usage(),
    };
    let Ok(slot) = slot.parse() else { usage() };
    let mut text = Vec::new();
    io::stdin().read_to_end(&mut text)?;
    let written = if raw {
        shown(&text, slot).unwrap_or_else(|refused| {
            eprint!("{refused}");
            refused.into_bytes()
        })
    } else {
        output(&text, slot).into_bytes()
    };
    io::stdout().write_all(&written)
}

fn usage() -> ! {
    eprintln!("audit SLOT [raw]");
    exit(2)
}
