//! The round of examples/audit.txt in Rust, on a table that is filled by hand, and then an audit by the first grower.
//! Prints what hubaudit 0 prints for that text.

use hub::{digits, Reply, Slot, Table, ITEM, PROGRAM, RECORD};

// Secrecy tags, and the slots: two growers, the water office, and an item of each.
const FIRST: u64 = 1;
const SECOND: u64 = 2;
const GROWER: u8 = 0;
const OTHER_GROWER: u8 = 1;
const OFFICE: u8 = 2;
const GROWERS_ITEM: u8 = 3;
const OTHERS_ITEM: u8 = 4;
const OFFICE_ITEM: u8 = 5;

/// A table, and the records of the calls that led to it.
struct Round {
    table: Table,
    records: Vec<u8>,
}

impl Round {
    fn play(&mut self, call: impl FnOnce(Table) -> Reply) {
        let reply = call(self.table);
        self.table = reply.table;
        self.records.extend(reply.record);
    }
}

fn start() -> Table {
    let mut table = Table::empty();
    let entity = |kind, secrecy| Slot { kind, secrecy, ..Slot::default() };
    table.slots[GROWER as usize] = entity(PROGRAM, FIRST);
    table.slots[OTHER_GROWER as usize] = entity(PROGRAM, SECOND);
    table.slots[OFFICE as usize] = entity(PROGRAM, 0);
    table.slots[GROWERS_ITEM as usize] = entity(ITEM, FIRST);
    table.slots[OTHERS_ITEM as usize] = entity(ITEM, SECOND);
    table.slots[OFFICE_ITEM as usize] = entity(ITEM, 0);
    table.groups[0] = FIRST | SECOND;
    table.most[0] = 1;
    table.count = 1;
    table
}

fn main() {
    let mut round = Round { table: start(), records: Vec::new() };
    round.play(|table| table.put(GROWER, &[0x31, 0x32]));
    round.play(|table| table.send(GROWER, GROWERS_ITEM));
    round.play(|table| table.put(OTHER_GROWER, &[0x34, 0x35]));
    round.play(|table| table.send(OTHER_GROWER, OTHERS_ITEM));
    round.play(|table| table.put(OFFICE, &[0x05]));
    round.play(|table| table.send(OFFICE, OFFICE_ITEM));
    round.play(|table| table.fetch(GROWER, OFFICE_ITEM));
    round.play(|table| table.fetch(OFFICE, GROWERS_ITEM));
    round.play(|table| table.fetch(OTHER_GROWER, GROWERS_ITEM));

    let mut shown = vec![0; round.records.len()];
    let audit = round.table.audit(GROWER, &round.records, &mut shown);
    if audit.number != 0 {
        println!("refused {}", audit.number);
        std::process::exit(1);
    }
    println!("record");
    for record in shown[..audit.len].chunks(RECORD) {
        println!("{}", digits(record));
    }
}
