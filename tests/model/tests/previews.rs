//! Previews: the answer of the call, by hand, and nothing that stays.

use std::collections::BTreeMap;

use hub::call::Name;
use hub::generate::scenes::script;
use hub::generate::world::Numbers;
use hub::hex::digits;
use hub::script::{run, State};

const TEXT: &str = "\
slot kind sec int sa sd ia id data
0 prog 1 0 6 6 6 6 a1b2
1 prog 0 0 0 0 0 0 b3
2 item 1 0 0 0 0 0 c4c5c6
3 item 0 0 0 0 0 0 -
4 prog 1 10 0 0 0 0 -
5 prog 1 0 8 0 0 0 -
6 item 201 10 0 0 0 0 06

tags
a

call caller other set tag data
";

/// Calls on the table of the text; of the answer the number, the record, the part and the buffer.
const ANSWERS: [(&str, &str); 63] = [
    ("put 0 0708", "0 0100ff0002ffff000100000000000000 - -"),
    ("put 1 -", "0 0101ff0000ffff000000000000000000 - -"),
    ("put 2 07", "1 0102ff0100ffff000100000000000000 - -"),
    ("put 3 07", "1 0103ff0100ffff000000000000000000 - -"),
    ("put 6 07", "1 0106ff0100ffff000102000000000000 - -"),
    ("put 9 07", "1 0109ff0100ffff000000000000000000 - -"),
    ("put 40 07", "1 0128ff0100ffff000000000000000000 - -"),
    ("show 0 4 ee", "0 0200ff0002ffff000100000000000000 a1b2 a1b2eeee"),
    ("show 0 2 ee", "0 0200ff0002ffff000100000000000000 a1b2 a1b2"),
    ("show 0 1 ee", "6 0200ff0600ffff000100000000000000 - ee"),
    ("show 0 0 ee", "6 0200ff0600ffff000100000000000000 - -"),
    ("show 2 4 ee", "1 0202ff0100ffff000100000000000000 - eeeeeeee"),
    ("show 4 0 ee", "0 0204ff0000ffff000100000000000000 - -"),
    ("send 0 5", "0 0300050002ffff000100000000000000 - -"),
    ("send 0 0", "0 0300000002ffff000100000000000000 - -"),
    ("send 1 6", "7 0301060700ffff000102000000000000 - -"),
    ("send 1 0", "0 0301000001ffff000100000000000000 - -"),
    ("send 0 1", "7 0300010700ffff000100000000000000 - -"),
    ("send 0 4", "7 0300040700ffff000100000000000000 - -"),
    ("send 0 9", "3 0300090300ffff000100000000000000 - -"),
    ("send 0 32", "2 0300200200ffff000100000000000000 - -"),
    ("send 2 0", "1 0302000100ffff000100000000000000 - -"),
    ("fetch 0 2", "0 0400020003ffff000100000000000000 - -"),
    ("fetch 1 0", "7 0401000700ffff000100000000000000 - -"),
    ("fetch 1 9", "3 0401090300ffff000000000000000000 - -"),
    ("fetch 1 255", "2 0401ff0200ffff000000000000000000 - -"),
    ("fetch 3 6", "1 0403060100ffff000000000000000000 - -"),
    ("add 0 0 1", "0 0500ff00000100000300000000000000 - -"),
    ("add 0 1 2", "0 0500ff00000201000100000000000000 - -"),
    ("add 0 0 5", "10 0500ff0a000500000100000000000000 - -"),
    ("add 0 2 1", "2 0500ff02000102000100000000000000 - -"),
    ("add 0 0 64", "2 0500ff02004000000100000000000000 - -"),
    ("add 6 0 1", "1 0506ff01000100000102000000000000 - -"),
    ("drop 0 0 1", "0 0600ff00000100000100000000000000 - -"),
    ("drop 0 0 0", "10 0600ff0a000000000100000000000000 - -"),
    ("drop 0 9 1", "2 0600ff02000109000100000000000000 - -"),
    ("drop 255 0 1", "1 06ffff01000100000000000000000000 - -"),
    ("create 0 9 1", "0 0700090000ff01000100000000000000 - -"),
    ("create 0 9 2", "0 0700090000ff02000100000000000000 - -"),
    ("create 0 9 0", "2 0700090200ff00000100000000000000 - -"),
    ("create 0 32 1", "2 0700200200ff01000100000000000000 - -"),
    ("create 1 6 1", "4 0701060400ff01000102000000000000 - -"),
    ("create 9 9 1", "1 0709090100ff01000000000000000000 - -"),
    ("release 0 2", "0 0800020000ffff000100000000000000 - -"),
    ("release 0 0", "0 0800000000ffff000100000000000000 - -"),
    ("release 0 3", "8 0800030800ffff000100000000000000 - -"),
    ("release 0 5", "8 0800050800ffff000100000000000000 - -"),
    ("release 0 9", "3 0800090300ffff000100000000000000 - -"),
    ("release 0 32", "2 0800200200ffff000100000000000000 - -"),
    ("release 2 2", "1 0802020100ffff000100000000000000 - -"),
    ("hand 0 1 1 2", "0 09000100000201000100000000000000 - -"),
    ("hand 0 0 3 1", "0 09000000000103000100000000000000 - -"),
    ("hand 0 5 0 2", "0 09000500000200000100000000000000 - -"),
    ("hand 0 5 0 1", "11 0900050b000100000100000000000000 - -"),
    ("hand 0 1 0 3", "10 0900010a000300000100000000000000 - -"),
    ("hand 0 3 0 1", "9 09000309000100000100000000000000 - -"),
    ("hand 0 6 0 9", "9 09000609000900000102000000000000 - -"),
    ("hand 0 9 0 1", "3 09000903000100000100000000000000 - -"),
    ("hand 0 32 0 1", "2 09002002000100000100000000000000 - -"),
    ("hand 0 1 4 1", "2 09000102000104000100000000000000 - -"),
    ("hand 0 1 0 64", "2 09000102004000000100000000000000 - -"),
    ("hand 2 1 0 1", "1 09020101000100000100000000000000 - -"),
    ("hand 6 6 4 64", "1 09060601004004000102000000000000 - -"),
];

fn load() -> String {
    format!("load {}\n", digits(TEXT.as_bytes()))
}

/// The answers of a script without digests, and the digests.
fn answers(script: &str) -> (Vec<String>, Vec<String>) {
    let output = run(script).expect("commands");
    let parted = output.lines().map(|line| line.rsplit_once(' ').expect("a digest"));
    parted.map(|(told, digest)| (told.to_string(), digest.to_string())).unzip()
}

#[test]
fn a_preview_answers_as_the_call_and_leaves_the_table() {
    for (call, answer) in ANSWERS {
        let (told, digests) = answers(&format!("{}preview {call}\n{call}\n", load()));
        assert_eq!(told[1..], [answer, answer], "{call}");
        assert_eq!(digests[0], digests[1], "{call}");
    }
}

#[test]
fn previews_are_all_of_one_table() {
    let lines: String = ANSWERS.iter().map(|(call, _)| format!("preview {call}\n")).collect();
    let (told, digests) = answers(&(load() + &lines));
    let wanted = ANSWERS.map(|(_, answer)| answer);
    assert_eq!(told[1..], wanted);
    assert!(digests.iter().all(|digest| *digest == digests[0]));
}

/// The answer where 99 comes first: no bytes are moved, the need is empty, a buffer is as it was lent.
fn under_99(call: &str, answer: &str) -> String {
    let words: Vec<&str> = call.split(' ').collect();
    let record = answer.split(' ').nth(1).expect("a record");
    let buffer = match words.as_slice() {
        ["show", _, room, fill] if *room != "0" => fill.repeat(room.parse().expect("a length")),
        _ => "-".to_string(),
    };
    format!("99 {}6300{}0000000000000000 - {buffer}", &record[..6], &record[10..16])
}

#[test]
fn on_a_table_that_lacks_the_form_each_is_refused_by_99() {
    let nine_groups = format!("groups 9{}", " 0000000000000000".repeat(8));
    for lacking in [nine_groups.as_str(), "bytes 640 01"] {
        for (call, answer) in ANSWERS {
            let script = format!("{}{lacking}\npreview {call}\n{call}\n", load());
            let (told, digests) = answers(&script);
            let wanted = under_99(call, answer);
            assert_eq!(told[1..], [wanted.clone(), wanted], "{call}");
            assert_eq!(digests[1], digests[2], "{call}");
        }
    }
}

#[test]
fn the_list_of_records_gains_nothing() {
    for (call, _) in ANSWERS {
        let before = format!("{}send 1 0\nput 3 01\n", load());
        let audit = "audit 0 run 64 ee\n";
        let without = answers(&(before.clone() + audit));
        let with = answers(&format!("{before}preview {call}\n{audit}"));
        assert_eq!(with.0.last(), without.0.last(), "{call}");
        assert_eq!(with.1.last(), without.1.last(), "{call}");
    }
}

#[test]
fn generated_scripts_preview_every_kind_of_call() {
    let mut counts: BTreeMap<(String, &str), usize> = BTreeMap::new();
    let mut followed = 0;
    for seed in 0..60 {
        let script = script(seed, 4, Numbers::Ones);
        let mut state = State::start();
        let mut previewed = "";
        for line in script.lines() {
            let State { table, records } = &state;
            let before = (table.clone(), records.clone());
            let answer = state.line(line).expect("a command");
            followed += usize::from(line == previewed);
            previewed = line.strip_prefix("preview ").unwrap_or("");
            let Some((name, _)) = previewed.split_once(' ') else { continue };
            assert_eq!((&state.table, &state.records), (&before.0, &before.1), "{line}");
            let what = match answer.split(' ').next() {
                Some("0") => "allowed",
                Some("99") => "refused by 99",
                _ => "refused",
            };
            *counts.entry((name.to_string(), what)).or_default() += 1;
        }
    }
    for name in Name::ALL.map(Name::word) {
        for what in ["allowed", "refused", "refused by 99"] {
            let count = counts.get(&(name.to_string(), what));
            assert!(count > Some(&10), "{name} {what}: {counts:?}");
        }
    }
    assert!(followed > 500, "{followed} before their calls");
}

#[test]
fn only_calls_are_previewed() {
    for line in [
        "preview",
        "preview ",
        "preview dump",
        "preview table",
        "preview load -",
        "preview audit 0 - 0 00",
        "preview bytes 0 00",
        "preview groups 0",
        "preview preview send 0 1",
        "preview send 0",
        "preview send 0 1 2",
        "preview give 0 0 1",
        "previews send 0 1",
        "Preview send 0 1",
    ] {
        assert_eq!(run(&format!("dump\n{line}\n")), Err(2), "{line:?}");
    }
}
