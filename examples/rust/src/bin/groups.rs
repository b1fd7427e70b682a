//! Two nurseries hand on rights, in Rust. Prints what becomes of each hand, and for those refused by 11 the group that stands
//! in the way: examples/groups.out.

use hub::{load, Slot, Table, ADD_INTEGRITY, ADD_SECRECY};

/// Nobody may combine the yields of the two nurseries, tags 0 and 1, nor their seals, tags 2 and 3.
const TEXT: &str = "\
slot kind sec int sa sd ia id data
0 prog 1 0 1 0 4 0 -
1 prog 2 0 2 0 8 0 -
2 prog 0 0 0 0 0 0 -

tags
3
c

call caller other set tag data
";

const FIRST: u8 = 0;
const SECOND: u8 = 1;
const TRIAL: u8 = 2;

const FIRST_YIELDS: u8 = 0;
const SECOND_YIELDS: u8 = 1;
const FIRST_SEAL: u8 = 2;
const SECOND_SEAL: u8 = 3;

/// All that is held in a slot.
fn held(slot: &Slot) -> u64 {
    slot.rights.iter().fold(slot.secrecy | slot.integrity, |held, right| held | right)
}

/// The tags of a set, each after a space.
fn tags(set: u64) -> String {
    (0..u64::BITS).filter(|tag| set >> tag & 1 != 0).map(|tag| format!(" {tag}")).collect()
}

/// Makes a hand, prints what becomes of it, and gives the next table. The group in the way is the last that the check counts.
fn handed(table: Table, caller: u8, other: u8, right: u8, tag: u8) -> Table {
    let reply = table.hand(caller, other, right, tag);
    print!("hand {caller} {other} {right} {tag}: ");
    match reply.number {
        0 => print!("allowed"),
        number => print!("refused by {number}"),
    }
    if reply.number == 11 {
        let checked = table.check(held(&table.slots[other as usize]) | 1 << tag);
        print!(", group {} has tags{}", checked.counted, tags(table.groups[checked.counted - 1]));
    }
    println!();
    reply.table
}

fn main() {
    let loaded = load(TEXT.as_bytes());
    if loaded.number != 0 {
        println!("refused {} line {}", loaded.number, loaded.line);
        std::process::exit(1);
    }
    let table = handed(loaded.table, FIRST, TRIAL, ADD_SECRECY, FIRST_YIELDS);
    let table = handed(table, SECOND, TRIAL, ADD_SECRECY, SECOND_YIELDS);
    let table = handed(table, SECOND, TRIAL, ADD_INTEGRITY, SECOND_SEAL);
    let table = handed(table, FIRST, TRIAL, ADD_INTEGRITY, FIRST_SEAL);
    let table = handed(table, FIRST, SECOND, ADD_SECRECY, FIRST_YIELDS);
    handed(table, FIRST, TRIAL, ADD_SECRECY, SECOND_YIELDS);
}
