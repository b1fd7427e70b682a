//! stats DIRECTORY
//!
//! Counts the numbers in the model's answers to the texts (*.txt) of a directory:
//! 0 to 11 per record, 14 to 17 per text; and what stands in the callers' slots.

use std::collections::BTreeMap;
use std::{env, fs};

use hub::generate::scenes::caller_words;
use hub::raw::Table;
use hub::text::load;

fn main() {
    let directory = env::args().nth(1).expect("a directory");
    let mut records: BTreeMap<u8, usize> = BTreeMap::new();
    let mut by_call: BTreeMap<&str, BTreeMap<u8, usize>> = BTreeMap::new();
    let mut callers: BTreeMap<&str, usize> = BTreeMap::new();
    let mut texts: BTreeMap<u8, usize> = BTreeMap::new();
    let mut bytes = 0;
    for entry in fs::read_dir(directory).expect("a directory") {
        let path = entry.expect("an entry").path();
        if path.extension().is_none_or(|extension| extension != "txt") {
            continue;
        }
        let text = fs::read(path).expect("a text");
        bytes += text.len();
        match load(&text) {
            Err(refused) => *texts.entry(refused.number).or_default() += 1,
            Ok((mut hub, calls)) => {
                *texts.entry(0).or_default() += 1;
                for call in calls {
                    *callers.entry(caller_words(&Table::of_hub(&hub), call.caller)).or_default() += 1;
                    let (next, answer) = hub.call(&call);
                    *records.entry(answer.number).or_default() += 1;
                    *by_call.entry(call.name.word()).or_default().entry(answer.number).or_default() += 1;
                    hub = next;
                }
            }
        }
    }
    println!("texts {} bytes {bytes}", texts.values().sum::<usize>());
    for (number, count) in texts {
        println!("text {number}: {count}");
    }
    for (number, count) in records {
        println!("record {number}: {count}");
    }
    for (caller, count) in callers {
        println!("caller {caller}: {count}");
    }
    for (call, numbers) in by_call {
        println!("{call} {numbers:?}");
    }
}
