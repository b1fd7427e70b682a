//! Structs that no script gives: kinds other than 0, 1 and 2, and lengths and counts of any size; and groups with every
//! number that a byte may be. Every call and audit on one that lacks the form is refused by 99, and hands back the very
//! struct and buffer; and a check counts no group.

use hub::{load, Checked, Reply, Table, GROUPS, ITEM, PROGRAM, SLOTS};

const TEXT: &[u8] = b"slot kind sec int sa sd ia id data
0 prog 1 0 3 3 0 0 a1b2
1 prog 1 0 0 0 0 0 -
2 item 1 0 0 0 0 0 07

tags
c

call caller other set tag data
";

fn start() -> Table {
    let loaded = load(TEXT);
    assert_eq!((loaded.number, loaded.line), (0, 0));
    loaded.table
}

/// The nine calls, each of which is allowed on the table of the text.
fn calls(table: Table, buffer: &mut [u8]) -> [Reply; 9] {
    [
        table.put(0, &[1, 2, 3]),
        table.show(0, buffer),
        table.send(0, 2),
        table.fetch(0, 2),
        table.add(0, 0, 1),
        table.drop(0, 0, 1),
        table.create(0, 31, ITEM),
        table.release(0, 2),
        table.hand(0, 1, 0, 1),
    ]
}

fn lacks_the_form(table: Table) {
    let mut buffer = [0xee; 64];
    for reply in calls(table, &mut buffer) {
        assert_eq!(reply.number, 99);
        assert_eq!(reply.record[3..5], [99, 0]);
        assert_eq!(reply.record[7..], [0; 9]);
        assert!(reply.table == table);
    }
    let audited = table.audit(0, &[0; 32], &mut buffer);
    assert_eq!((audited.number, audited.len), (99, 0));
    assert_eq!(buffer, [0xee; 64]);
    for held in [0, 0xc, u64::MAX] {
        assert_eq!(table.check(held), Checked { number: 99, keeps: false, counted: 0 });
    }
}

#[test]
fn the_text_has_the_form() {
    let table = start();
    let mut buffer = [0xee; 64];
    for reply in calls(table, &mut buffer) {
        assert_eq!(reply.number, 0);
    }
    assert_eq!(buffer[..3], [0xa1, 0xb2, 0xee]);
    let audited = table.audit(0, &[0; 32], &mut buffer);
    assert_eq!((audited.number, audited.len), (0, 32));
    for held in [0, 0xb] {
        assert_eq!(table.check(held), Checked { number: 0, keeps: true, counted: 1 });
    }
    assert_eq!(table.check(0xc), Checked { number: 0, keeps: false, counted: 1 });
}

#[test]
fn every_other_kind_in_every_slot() {
    for slot in 0..SLOTS {
        for kind in 3..=255 {
            let mut table = start();
            table.slots[slot].kind = kind;
            lacks_the_form(table);
        }
    }
}

#[test]
fn lengths_of_any_size() {
    for slot in 0..SLOTS {
        for len in
            [65, 66, 128, 255, 256, 65 << 8, 1 << 16, 1 << 32, (1 << 32) + 1, 1 << 63, usize::MAX]
        {
            let mut table = start();
            table.slots[slot].kind = PROGRAM;
            table.slots[slot].len = len;
            lacks_the_form(table);
        }
    }
}

#[test]
fn counts_of_any_size() {
    for count in [9, 10, 16, 255, 256, 8 << 8, 1 << 16, 1 << 32, (1 << 32) + 8, 1 << 63, usize::MAX]
    {
        let mut table = start();
        table.count = count;
        lacks_the_form(table);
    }
}

/// 99 refuses nothing here, and the groups and their numbers come back as they are.
fn has_the_form(table: Table) {
    let mut buffer = [0xee; 64];
    for reply in calls(table, &mut buffer) {
        assert!(reply.number != 99);
        let Table { groups, most, count, .. } = reply.table;
        assert_eq!((groups, most, count), (table.groups, table.most, table.count));
    }
    let audited = table.audit(0, &[0; 32], &mut buffer);
    assert_eq!((audited.number, audited.len), (0, 32));
    assert_eq!(table.check(0).number, 0);
}

#[test]
fn every_number_at_every_place() {
    for count in 0..=GROUPS {
        for place in 0..GROUPS {
            for number in 0..=255 {
                let mut table = start();
                table.count = count;
                table.most[place] = number;
                if place < count && !(1..=64).contains(&number) {
                    lacks_the_form(table);
                } else {
                    has_the_form(table);
                }
            }
        }
    }
}

#[test]
fn numbers_of_a_text() {
    let text = |groups: &str| String::from_utf8_lossy(TEXT).replace("tags\nc\n", groups);
    assert_eq!(load(text("tags\nc\n3\n").as_bytes()).number, 17);
    for groups in ["tags most\nc 1\n3 64\n", "most tags\n1 c\n64 3\n"] {
        let loaded = load(text(groups).as_bytes());
        assert_eq!((loaded.number, loaded.line), (0, 0));
        assert_eq!(loaded.table.groups, [0xc, 3, 0, 0, 0, 0, 0, 0]);
        assert_eq!(loaded.table.most, [1, 64, 1, 1, 1, 1, 1, 1]);
    }
}

#[test]
fn another_kind_with_another_length_comes_back() {
    let mut table = start();
    for slot in 0..SLOTS {
        table.slots[slot].kind = 200 + slot as u8;
        table.slots[slot].len = usize::MAX - slot;
    }
    table.count = usize::MAX;
    lacks_the_form(table);
}

#[test]
fn the_empty_table() {
    let table = Table::empty();
    assert!(table == load(b"").table);
    assert_eq!(table.slots, [hub::Slot::default(); SLOTS]);
    assert!(table.content.iter().all(|byte| *byte == 0));
    assert_eq!((table.groups, table.most, table.count), ([0; 8], [1; 8], 0));
}
