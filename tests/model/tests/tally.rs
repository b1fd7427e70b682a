//! The tally, its page, and what an audit hands to it.

use hub::generate::rng::Rng;
use hub::hubaudit;
use hub::hubtally::output;
use hub::record::Record;
use hub::tally::{tally, Row};

const NAMES: &str = "caller n0 n1 n2 n3 n4 n5 n6 n7 n8 n9 n10 n11 n12 n13 n14 n15 n16 n17 more bytes";
const NONE: &str = " 0 0 0 0 0 0 0 0 0 0 0 0 0 0 0 0 0 0 0 0";

/// The records that document 01 prints for its watering round.
const WATERING: [&str; 6] = [
    "0401000700ffff000100000000000000",
    "0501ff00000000000100000000000000",
    "0401000002ffff000100000000000000",
    "0201ff0002ffff000100000000000000",
    "0301020700ffff000100000000000000",
    "0601ff0a000000000100000000000000",
];

fn record(caller: u8, number: u8, moved: u8) -> Record {
    let mut record = [0; 16];
    (record[1], record[3], record[4]) = (caller, number, moved);
    record
}

/// The page of a list, line by line; the last one has its byte 10.
fn page(list: &[u8]) -> Vec<String> {
    let page = output(list);
    assert!(page.ends_with('\n'));
    page.lines().map(String::from).collect()
}

/// A page that has zeros but in some lines, each with its place.
fn zeros_but(lines: &[(usize, &str)]) -> Vec<String> {
    let callers = (0..32).map(|caller| caller.to_string()).chain(["more".to_string()]);
    let mut page: Vec<String> = callers.map(|caller| caller + NONE).collect();
    for (place, line) in lines {
        page[*place] = line.to_string();
    }
    page.insert(0, NAMES.to_string());
    page
}

#[test]
fn the_watering_round() {
    let list = hub::hex::bytes(WATERING.concat().as_bytes()).unwrap();
    let line = "1 3 0 0 0 0 0 0 2 0 0 1 0 0 0 0 0 0 0 0 4";
    assert_eq!(page(&list), zeros_but(&[(1, line)]));
}

#[test]
fn no_records_give_zeros() {
    assert_eq!(page(&[]), zeros_but(&[]));
}

#[test]
fn lengths() {
    for length in 0..100 {
        let refused = output(&vec![0; length]) == "refused 12\n";
        assert_eq!(refused, length % 16 != 0, "{length} bytes");
    }
}

#[test]
fn callers_above_31_have_one_row() {
    let list = [0, 31, 32, 33, 255].map(|caller| record(caller, 2, 10 + caller % 10)).concat();
    let lines = [
        (0, "0 0 0 1 0 0 0 0 0 0 0 0 0 0 0 0 0 0 0 0 10"),
        (31, "31 0 0 1 0 0 0 0 0 0 0 0 0 0 0 0 0 0 0 0 11"),
        (32, "more 0 0 3 0 0 0 0 0 0 0 0 0 0 0 0 0 0 0 0 40"),
    ];
    assert_eq!(page(&list), zeros_but(&lines));
}

#[test]
fn numbers_above_17_have_one_count() {
    let list = [0, 16, 17, 17, 18, 99, 255].map(|number| record(5, number, 0)).concat();
    let line = "5 1 0 0 0 0 0 0 0 0 0 0 0 0 0 0 0 1 2 3 0";
    assert_eq!(page(&list), zeros_but(&[(5, line)]));
}

#[test]
fn each_caller_and_number_has_its_place() {
    for caller in 0..=255 {
        for number in 0..=255 {
            let rows = tally(&record(caller, number, 7)).unwrap();
            let mut wanted = vec![Row::default(); 33];
            let row = &mut wanted[if caller < 32 { caller as usize } else { 32 }];
            row.counts[if number < 18 { number as usize } else { 18 }] = 1;
            row.bytes = 7;
            assert_eq!(rows, wanted, "caller {caller}, number {number}");
        }
    }
}

#[test]
fn bytes_moved_are_summed_whatever_was_returned() {
    let list = [0, 7, 17, 18, 99, 255].map(|number| record(3, number, 255)).concat();
    assert_eq!(tally(&list).unwrap()[3].bytes, 6 * 255);
}

#[test]
fn other_bytes_do_not_matter() {
    let mut rng = Rng::new(1);
    for _ in 0..100 {
        let list = rng.bytes(320);
        let mut other = list.clone();
        for (at, byte) in other.iter_mut().enumerate() {
            if ![1, 3, 4].contains(&(at % 16)) {
                *byte = rng.byte();
            }
        }
        assert_eq!(tally(&other), tally(&list));
    }
}

#[test]
fn counts_and_sums_are_modulo_2_to_the_64() {
    let mut row = Row::default();
    row.counts[17] = u64::MAX;
    row.counts[18] = u64::MAX;
    row.bytes = u64::MAX - 1;
    row.add(17, 0);
    row.add(18, 1);
    assert_eq!((row.counts[17], row.counts[18], row.bytes), (0, 0, u64::MAX));
    row.add(17, 255);
    assert_eq!((row.counts[17], row.counts[18], row.bytes), (1, 0, 254));
}

#[test]
fn all_counts_together_are_the_records() {
    let mut rng = Rng::new(2);
    for records in 0..100 {
        let rows = tally(&rng.bytes(16 * records)).unwrap();
        let counts = rows.iter().flat_map(|row| row.counts);
        assert_eq!(counts.sum::<u64>(), records as u64);
    }
}

const TEXT: &str = "\
slot kind sec int sa sd ia id data
0 prog 1 0 0 0 0 0 -
1 prog 2 0 0 0 0 0 -
2 item 0 0 0 0 0 0 -

tags

call caller other set tag data
put 0 - - - 3132
put 1 - - - 3334
send 0 2 - - -
";

#[test]
fn raw_bytes_are_the_records_of_the_lines() {
    let text = TEXT.as_bytes();
    let records = hubaudit::shown(text, 0).unwrap();
    let lines: Vec<String> = records.chunks(16).map(hub::hex::digits).collect();
    assert_eq!(lines, ["0100ff0002ffff000100000000000000", "0300020700ffff000100000000000000"]);
    assert_eq!(hubaudit::output(text, 0), format!("record\n{}\n", lines.join("\n")));
    let line = "0 1 0 0 0 0 0 0 1 0 0 0 0 0 0 0 0 0 0 0 2";
    assert_eq!(page(&records), zeros_but(&[(0, line)]));
}

#[test]
fn an_audit_that_shows_nothing_has_no_raw_bytes() {
    let calls = TEXT.find("put").unwrap();
    assert_eq!(hubaudit::shown(TEXT[..calls].as_bytes(), 0), Ok(vec![]));
}

#[test]
fn a_refusal_is_no_list_of_records() {
    for (text, slot, line) in [(TEXT, 2, "refused 1\n"), ("", 0, "refused 15 line 1\n")] {
        assert_eq!(hubaudit::shown(text.as_bytes(), slot), Err(line.to_string()));
        assert_eq!(hubaudit::output(text.as_bytes(), slot), line);
        assert_eq!(output(line.as_bytes()), "refused 12\n");
    }
}
