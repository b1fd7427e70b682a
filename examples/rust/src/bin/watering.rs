//! The watering round of document 01 in Rust. Prints what hubcalls prints for examples/watering.txt.

use hub::{digits, load, Reply, Table, CONTENT, SECRECY};

const TEXT: &str = "\
slot kind sec int sa sd ia id data
0 prog 1 0 0 0 0 0 a1b2
1 prog 0 0 1 0 0 0 -
2 item 0 0 0 0 0 0 07

tags
3

call caller other set tag data
";

/// Prints the record and the bytes shown, and hands the next table on.
fn played(reply: Reply, shown: &[u8]) -> Table {
    let shown = if shown.is_empty() { "-".to_string() } else { digits(shown) };
    println!("{} {shown}", digits(&reply.record));
    reply.table
}

fn main() {
    let loaded = load(TEXT.as_bytes());
    if loaded.number != 0 {
        println!("refused {} line {}", loaded.number, loaded.line);
        std::process::exit(1);
    }
    println!("record data");
    let table = played(loaded.table.fetch(1, 0), &[]);
    let table = played(table.add(1, SECRECY, 0), &[]);
    let table = played(table.fetch(1, 0), &[]);
    let mut buffer = [0; CONTENT];
    let reply = table.show(1, &mut buffer);
    let table = played(reply, &buffer[..reply.record[4] as usize]);
    let table = played(table.send(1, 2), &[]);
    played(table.drop(1, SECRECY, 0), &[]);
}
