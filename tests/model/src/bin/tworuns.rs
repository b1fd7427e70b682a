//! tworuns SEED COUNT
//!
//! Checks the claim about two runs on COUNT random pairs. On a counterexample it
//! prints the seed and the pair and exits with 1.

use std::{env, process::exit};

use hub::generate::rng::Rng;
use hub::tworuns::{check, random_pair};

fn main() {
    let mut numbers = env::args().skip(1).map(|argument| argument.parse::<u64>().ok());
    let (Some(Some(seed)), Some(Some(count))) = (numbers.next(), numbers.next()) else {
        eprintln!("tworuns SEED COUNT");
        exit(2)
    };
    let mut events = 0;
    for index in 0..count {
        let pair = random_pair(&mut Rng::for_case(seed, index));
        events += pair.a.events.len() + pair.b.events.len();
        if let Err(part) = check(&pair) {
            println!("counterexample at seed {seed} index {index}: {part}");
            println!("{pair:?}");
            exit(1)
        }
    }
    println!("{count} pairs checked, {events} calls and previews");
}
