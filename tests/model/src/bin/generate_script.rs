//! generate_script SEED COUNT KIND
//!
//! Writes a script of COUNT scenes to standard output; SCRIPT.md has the format. KIND is
//! `plain`, where each group's number is 1, or `numbers`.

use std::{env, process::exit};

use hub::generate::scenes::script;
use hub::generate::world::Numbers;

fn main() {
    let arguments: Vec<String> = env::args().skip(1).collect();
    let [seed, count, kind] = arguments.as_slice() else { usage() };
    let (Ok(seed), Ok(count)) = (seed.parse::<u64>(), count.parse::<usize>()) else { usage() };
    let numbers = match kind.as_str() {
        "plain" => Numbers::Ones,
        "numbers" => Numbers::Near,
        _ => usage(),
    };
    print!("{}", script(seed, count, numbers));
}

fn usage() -> ! {
    eprintln!("generate_script SEED COUNT plain|numbers");
    exit(2)
}
