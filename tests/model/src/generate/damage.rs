//! Texts that break a rule of the form, and texts just inside it.

use super::draft::{round_draft, Draft, Lines, CALLS, ENTITIES, GROUPS, NAMES};
use super::rng::Rng;
use super::world::Numbers;
use crate::hex;
use crate::text::MOST_TEXT;

/// What a case is meant to meet.
#[derive(Clone, Copy, PartialEq, Eq, Debug)]
pub enum Class {
    /// Refusal 14.
    Long,
    /// Refusal 15.
    Form,
    /// Refusal 16.
    Twice,
    /// Refusal 17.
    Breaks,
    /// Accepted, at a limit of the form.
    Inside,
    /// Random changes; whatever comes.
    Random,
}

pub struct Case {
    pub name: String,
    pub class: Class,
    pub make: Box<dyn Fn(&mut Rng) -> Vec<u8>>,
}

/// Entity rows that are bad; `@` stands for a slot that no other line names.
const BAD_ENTITIES: &[&str] = &[
    "00 prog 0 0 0 0 0 0 -",
    "01 prog 0 0 0 0 0 0 -",
    "031 item 0 0 0 0 0 0 -",
    "32 prog 0 0 0 0 0 0 -",
    "63 item 0 0 0 0 0 0 -",
    "255 prog 0 0 0 0 0 0 -",
    "256 prog 0 0 0 0 0 0 -",
    "288 item 0 0 0 0 0 0 -",
    "4294967297 prog 0 0 0 0 0 0 -",
    "18446744073709551617 prog 0 0 0 0 0 0 -",
    "+1 prog 0 0 0 0 0 0 -",
    "-1 prog 0 0 0 0 0 0 -",
    "- prog 0 0 0 0 0 0 -",
    "1a item 0 0 0 0 0 0 -",
    "0x1 item 0 0 0 0 0 0 -",
    "a item 0 0 0 0 0 0 -",
    "/ item 0 0 0 0 0 0 -",
    ": item 0 0 0 0 0 0 -",
    "@ program 0 0 0 0 0 0 -",
    "@ Prog 0 0 0 0 0 0 -",
    "@ PROG 0 0 0 0 0 0 -",
    "@ pro 0 0 0 0 0 0 -",
    "@ items 0 0 0 0 0 0 -",
    "@ ite 0 0 0 0 0 0 -",
    "@ free 0 0 0 0 0 0 -",
    "@ - 0 0 0 0 0 0 -",
    "@ 2 0 0 0 0 0 0 -",
    "@ prog A 0 0 0 0 0 -",
    "@ prog 0 F0 0 0 0 0 -",
    "@ prog 0 0 1B 0 0 0 -",
    "@ prog 0 0 0 g 0 0 -",
    "@ prog 0 0 0 0 - 0 -",
    "@ prog 0 0 0 0 0 0x1 -",
    "@ prog 11111111111111111 0 0 0 0 0 -",
    "@ prog 00000000000000000 0 0 0 0 0 -",
    "@ prog 0 00000000000000001 0 0 0 0 -",
    "@ prog 0 0 00000000000000000 0 0 0 -",
    "@ item 0 0 0 00000000000000000 0 0 -",
    "@ prog 0 0 0 0 00000000000000002 0 -",
    "@ prog 0 0 0 0 0 00000000000000000 -",
    "@ item 0 0 0 0 0 0 a",
    "@ item 0 0 0 0 0 0 0",
    "@ prog 0 0 0 0 0 0 abc",
    "@ prog 0 0 0 0 0 0 AB",
    "@ item 0 0 0 0 0 0 aB",
    "@ item 0 0 0 0 0 0 zz",
    "@ prog 0 0 0 0 0 0 --",
    "@ prog 0 0 0 0 0 0 -a",
    "@ item 0 0 0 0 0 0 0x12",
    "@ item 0 0 1 0 0 0 -",
    "@ item 0 0 0 1 0 0 -",
    "@ item 0 0 0 0 8000000000000000 0 -",
    "@ item 0 0 0 0 0 1 -",
    "@ item 1 0 1 1 1 1 00",
    "@ item 0 0 0 0 0 0 ",
    "@ prog  0 0 0 0 0 -",
    "@ prog 0 0 0 0 0  -",
    "@  0 0 0 0 0 0 -",
    " item 0 0 0 0 0 0 -",
];

const BAD_GROUPS: &[&str] = &[
    "-",
    "A",
    "3F",
    "g",
    "0x3",
    "+3",
    "00000000000000000",
    "00000000000000003",
    "30000000000000000",
];

const BAD_CALLS: &[&str] = &[
    "Put 0 - - - -",
    "PUT 0 - - - -",
    "puts 0 - - - -",
    "pu 0 - - - -",
    "audit 0 - - - -",
    "load 0 - - - -",
    "- 0 - - - -",
    "1 0 - - - -",
    "put 00 - - - -",
    "put 01 - - - -",
    "show 031 - - - -",
    "show 256 - - - -",
    "put 300 - - - -",
    "put 1000 - - - -",
    "show 4294967296 - - - -",
    "show 18446744073709551616 - - - -",
    "put - - - - -",
    "put +1 - - - -",
    "put a - - - -",
    "send 0 - - - -",
    "send 0 256 - - -",
    "send 0 00 - - -",
    "send 0 007 - - -",
    "fetch 0 - - - -",
    "fetch 0 257 - - -",
    "fetch 0 01 - - -",
    "create 0 - 1 - -",
    "create 0 256 1 - -",
    "release 0 - - - -",
    "release 0 256 - - -",
    "hand 0 - 0 0 -",
    "hand 0 256 0 0 -",
    "add 0 - - 0 -",
    "add 0 - 256 0 -",
    "add 0 - 00 0 -",
    "drop 0 - - 0 -",
    "drop 0 - 01 0 -",
    "create 0 1 - - -",
    "create 0 1 256 - -",
    "create 0 1 01 - -",
    "hand 0 1 - 0 -",
    "hand 0 1 00 0 -",
    "add 0 - 0 - -",
    "add 0 - 0 256 -",
    "add 0 - 0 063 -",
    "drop 0 - 0 - -",
    "drop 0 - 0 00 -",
    "hand 0 1 0 - -",
    "hand 0 1 0 256 -",
    "hand 0 1 0 00 -",
    "put 0 0 - - -",
    "put 0 - 0 - -",
    "put 0 - - 0 -",
    "put 0 255 - - -",
    "show 0 0 - - -",
    "show 0 - 0 - -",
    "show 0 - - 0 -",
    "send 0 1 0 - -",
    "send 0 1 - 0 -",
    "fetch 0 1 0 - -",
    "fetch 0 1 - 0 -",
    "add 0 0 0 0 -",
    "drop 0 255 0 0 -",
    "create 0 1 1 0 -",
    "release 0 0 0 - -",
    "release 0 0 - 0 -",
    "show 0 - - - 00",
    "send 0 1 - - 00",
    "fetch 0 1 - - 00",
    "add 0 - 0 0 00",
    "drop 0 - 0 0 00",
    "create 0 1 1 - 00",
    "release 0 0 - - 00",
    "hand 0 1 0 0 00",
    "put 0 - - - a",
    "put 0 - - - 0",
    "put 0 - - - AB",
    "put 0 - - - aB",
    "put 0 - - - zz",
    "put 0 - - - --",
    "put 0 - - - 0x00",
    "put 0 - - - ",
    "show 0 - - - ",
    "show 0 - -  -",
    "send 0  - - -",
    "show  - - - -",
    " 0 - - - -",
];

/// Lines of names that are bad in the block they stand in.
const BAD_NAMES: [&[&str]; 3] = [
    &[
        "",
        "slot kind sec int sa sd ia id",
        "kind sec int sa sd ia id data",
        "slot kind sec int sa sd ia id data data",
        "slot kind sec int sa sd ia id id",
        "slot slot sec int sa sd ia id data",
        "slot kind sec int sa sa ia id data",
        "slot kind sec int sa sd ia id data more",
        "slot kind sec int sa sd ia id date",
        "slot kind sec int sa sd ia id dat",
        "slot kind secs int sa sd ia id data",
        "Slot kind sec int sa sd ia id data",
        "SLOT KIND SEC INT SA SD IA ID DATA",
        "slot,kind,sec,int,sa,sd,ia,id,data",
        "slot kind sec int sa sd ia id tags",
        "tags",
        "call caller other set tag data",
    ],
    &[
        "",
        "tag",
        "Tags",
        "TAGS",
        "tagss",
        "tags tags",
        "tags -",
        "group",
        "0",
        "slot kind sec int sa sd ia id data",
        "call caller other set tag data",
    ],
    &[
        "",
        "call caller other set tag",
        "caller other set tag data",
        "call caller other set tag data data",
        "call caller other set tag tag",
        "call caller caller set tag data",
        "call call other set tag data",
        "call caller other set tag data show",
        "call caller other set tags data",
        "call caller othr set tag data",
        "Call caller other set tag data",
        "calls caller other set tag data",
        "call caller other set tag slot",
        "tags",
        "slot kind sec int sa sd ia id data",
    ],
];

/// Changes to one line, whatever it holds.
pub const LINE_TRICKS: &[(&str, fn(&mut Rng, &mut Vec<u8>))] = &[
    ("leading-space", |_, line| line.insert(0, b' ')),
    ("trailing-space", |_, line| line.push(b' ')),
    ("trailing-tab", |_, line| line.push(b'\t')),
    ("trailing-cr", |_, line| line.push(b'\r')),
    ("trailing-nul", |_, line| line.push(0)),
    ("extra-field", |_, line| line.extend(b" 0")),
    ("nul-inside", |rng, line| line.insert(rng.below(line.len()), 0)),
    ("high-byte", |rng, line| {
        let at = rng.below(line.len());
        line[at] |= 0x80;
    }),
    ("other-line-end", |rng, line| {
        let end = rng.pick(&[0x0b, 0x0c, 0x0d, 0x1c, 0x1e, 0x85]);
        line.insert(rng.below(line.len() + 1), end);
    }),
];

/// Changes to one line that has a space.
pub const SPACE_TRICKS: &[(&str, fn(&mut Rng, &mut Vec<u8>, usize))] = &[
    ("double-space", |_, line, at| line.insert(at, b' ')),
    ("tab", |_, line, at| line[at] = b'\t'),
    ("no-space", |_, line, at| {
        line.remove(at);
    }),
    ("missing-field", |_, line, _| {
        let last = line.iter().rposition(|byte| *byte == b' ').expect("a space");
        line.truncate(last);
    }),
    ("nul-for-space", |_, line, at| line[at] = 0),
    ("comma-for-space", |_, line, at| line[at] = b','),
];

const BLOCKS: [&str; 3] = ["entities", "groups", "calls"];

fn base(rng: &mut Rng) -> Draft {
    small_draft(rng, Numbers::Ones)
}

/// A small accepted draft with at least two entities, one group and two calls.
pub fn small_draft(rng: &mut Rng, numbers: Numbers) -> Draft {
    loop {
        let entities = rng.between(2, 5);
        let calls = rng.between(2, 7);
        let draft = round_draft(rng, numbers, entities, calls);
        let rows = |block: usize| draft.sheets[block].rows.len();
        let short = draft.text().len() < 1200;
        if rows(ENTITIES) >= 2 && (1..8).contains(&rows(GROUPS)) && rows(CALLS) >= 2 && short {
            return draft;
        }
    }
}

/// The slots that no entity row names.
fn unused_slots(rng: &mut Rng, draft: &Draft) -> Vec<String> {
    let sheet = &draft.sheets[ENTITIES];
    let column = sheet.names.iter().position(|name| name == "slot").expect("the slot column");
    let mut slots: Vec<String> = (0..32)
        .map(|slot| slot.to_string())
        .filter(|slot| sheet.rows.iter().all(|row| row[column] != *slot))
        .collect();
    rng.shuffle(&mut slots);
    slots
}

/// Puts a row at a random place of a block; `@` becomes an unused slot.
pub fn insert_anywhere(rng: &mut Rng, draft: &mut Draft, block: usize, row: &str) {
    let slot = unused_slots(rng, draft).remove(0);
    let at = rng.between(0, draft.sheets[block].rows.len());
    draft.insert(block, at, &row.replace('@', &slot));
}

/// Adds rows at the end of the entities; `@` and `%` become unused slots.
fn push_entities(rng: &mut Rng, draft: &mut Draft, rows: &[&str]) {
    let slots = unused_slots(rng, draft);
    for row in rows {
        draft.push(ENTITIES, &row.replace('@', &slots[0]).replace('%', &slots[1]));
    }
}

fn zeros(bytes: usize) -> String {
    "00".repeat(bytes)
}

/// All cases, in a fixed order.
pub fn catalogue() -> Vec<Case> {
    let mut cases = Vec::new();
    let mut add = |name: String, class: Class, make: Box<dyn Fn(&mut Rng) -> Vec<u8>>| {
        cases.push(Case { name, class, make });
    };

    for (block, rows) in [BAD_ENTITIES, BAD_GROUPS, BAD_CALLS].into_iter().enumerate() {
        for (n, row) in rows.iter().enumerate() {
            let name = format!("{}-bad-row-{n:02}", BLOCKS[block]);
            add(name, Class::Form, Box::new(move |rng| {
                let mut draft = base(rng);
                insert_anywhere(rng, &mut draft, block, row);
                draft.text()
            }));
        }
    }
    for bytes in [65, 66, 128] {
        add(format!("entities-data-{bytes}"), Class::Form, Box::new(move |rng| {
            let mut draft = base(rng);
            let row = format!("@ {} 0 0 0 0 0 0 {}", rng.pick(&["item", "prog"]), zeros(bytes));
            insert_anywhere(rng, &mut draft, ENTITIES, &row);
            draft.text()
        }));
    }
    for bytes in [256, 257] {
        add(format!("calls-put-{bytes}"), Class::Form, Box::new(move |rng| {
            let mut draft = base(rng);
            insert_anywhere(rng, &mut draft, CALLS, &format!("put 0 - - - {}", zeros(bytes)));
            draft.text()
        }));
    }
    for (name, tail) in [("entities", ENTITIES), ("calls", CALLS)] {
        add(format!("{name}-odd-digits"), Class::Form, Box::new(move |rng| {
            let mut draft = base(rng);
            let row = if tail == ENTITIES {
                format!("@ prog 0 0 0 0 0 0 {}0", zeros(rng.between(1, 63)))
            } else {
                format!("put 0 - - - {}0", zeros(rng.between(1, 254)))
            };
            insert_anywhere(rng, &mut draft, tail, &row);
            draft.text()
        }));
    }
    for (name, ninth) in [("good", "0"), ("bad", "x")] {
        add(format!("groups-ninth-{name}"), Class::Form, Box::new(move |rng| {
            let mut draft = base(rng);
            while draft.sheets[GROUPS].rows.len() < 8 {
                draft.push(GROUPS, "0");
            }
            draft.push(GROUPS, ninth);
            if rng.chance(50) {
                draft.push(GROUPS, "1");
            }
            draft.text()
        }));
    }

    for (block, lines) in BAD_NAMES.into_iter().enumerate() {
        for (n, line) in lines.iter().enumerate() {
            let name = format!("{}-bad-names-{n:02}", BLOCKS[block]);
            add(name, Class::Form, Box::new(move |rng| {
                let mut lines = base(rng).lines();
                let at = lines.names[block];
                lines.lines[at] = line.as_bytes().to_vec();
                lines.text()
            }));
        }
    }
    for block in [ENTITIES, GROUPS, CALLS] {
        for on_names in [true, false] {
            let place = if on_names { "names" } else { "row" };
            let pick_line = move |rng: &mut Rng, lines: &Lines| {
                if on_names { lines.names[block] } else { rng.pick(&lines.rows[block]) }
            };
            for &(trick, change) in LINE_TRICKS {
                let name = format!("{}-{place}-{trick}", BLOCKS[block]);
                add(name, Class::Form, Box::new(move |rng| {
                    let mut lines = base(rng).lines();
                    let at = pick_line(rng, &lines);
                    change(rng, &mut lines.lines[at]);
                    lines.text()
                }));
            }
            for &(trick, change) in SPACE_TRICKS {
                if block == GROUPS {
                    continue;
                }
                let name = format!("{}-{place}-{trick}", BLOCKS[block]);
                add(name, Class::Form, Box::new(move |rng| {
                    let mut lines = base(rng).lines();
                    let at = pick_line(rng, &lines);
                    let line = &mut lines.lines[at];
                    let spaces: Vec<usize> = (0..line.len()).filter(|&n| line[n] == b' ').collect();
                    let space = rng.pick(&spaces);
                    change(rng, line, space);
                    lines.text()
                }));
            }
        }
    }

    for &(name, class, make) in WHOLE {
        add(name.to_string(), class, Box::new(make));
    }
    cases
}

/// A text from a change to the lines of a small round.
fn with_lines(rng: &mut Rng, change: impl Fn(&mut Rng, &mut Lines)) -> Vec<u8> {
    let mut lines = base(rng).lines();
    change(rng, &mut lines);
    lines.text()
}

fn with_draft(rng: &mut Rng, change: impl Fn(&mut Rng, &mut Draft)) -> Vec<u8> {
    let mut draft = base(rng);
    change(rng, &mut draft);
    draft.text()
}

fn with_edits(rng: &mut Rng, edits: &[fn(&mut Rng, &mut Draft)]) -> Vec<u8> {
    with_draft(rng, |rng, draft| edits.iter().for_each(|edit| edit(rng, draft)))
}

/// The first `count` lines of a small round.
fn stopped(rng: &mut Rng, count: impl Fn(&Lines) -> usize) -> Vec<u8> {
    with_lines(rng, |_, lines| {
        let count = count(lines);
        lines.lines.truncate(count);
    })
}

fn unended(mut text: Vec<u8>) -> Vec<u8> {
    text.pop();
    text
}

fn and(mut text: Vec<u8>, more: &[u8]) -> Vec<u8> {
    text.extend(more);
    text
}

fn empty_line_at(rng: &mut Rng, at: impl Fn(&mut Rng, &Lines) -> usize) -> Vec<u8> {
    with_lines(rng, |rng, lines| {
        let at = at(rng, lines);
        lines.lines.insert(at, Vec::new());
    })
}

/// Moves whole blocks: the text of the blocks in the given order.
fn blocks_in_order(rng: &mut Rng, order: &[usize]) -> Vec<u8> {
    let draft = base(rng);
    let texts: Vec<String> = order
        .iter()
        .map(|&block| {
            let sheet = &draft.sheets[block];
            let rows = sheet.rows.iter().map(|row| row.join(" ") + "\n");
            sheet.names.join(" ") + "\n" + &rows.collect::<String>()
        })
        .collect();
    texts.join("\n").into_bytes()
}

/// A draft grown by puts until its text has exactly `length` bytes.
fn grown(rng: &mut Rng, draft: &mut Draft, length: usize) {
    loop {
        let missing = length - draft.text().len();
        let digits = if missing > 600 { 2 * rng.between(200, 255) } else { 0 };
        if digits > 0 {
            let bytes = rng.bytes(digits / 2);
            draft.push(CALLS, &format!("put {} - - - {}", rng.below(32), hex::digits(&bytes)));
            continue;
        }
        // The last two rows have 13 or 14 bytes besides their digits.
        let first = 14 + 2 * (missing / 8);
        let bytes = rng.bytes(missing / 8);
        draft.push(CALLS, &format!("put 10 - - - {}", hex::digits(&bytes)));
        let left = missing - first;
        let (caller, fixed) = if left % 2 == 0 { ("31", 14) } else { ("7", 13) };
        let bytes = rng.bytes((left - fixed) / 2);
        draft.push(CALLS, &format!("put {caller} - - - {}", hex::digits(&bytes)));
        assert_eq!(draft.text().len(), length);
        return;
    }
}

fn grown_text(rng: &mut Rng, length: usize, change: impl Fn(&mut Rng, &mut Draft)) -> Vec<u8> {
    let mut draft = base(rng);
    change(rng, &mut draft);
    grown(rng, &mut draft, length);
    draft.text()
}

fn bad_call(rng: &mut Rng, draft: &mut Draft) {
    insert_anywhere(rng, draft, CALLS, "show 256 - - - -");
}

/// Two rows for one slot.
fn twice(rng: &mut Rng, draft: &mut Draft) {
    push_entities(rng, draft, &["@ prog 0 0 0 0 0 0 -", "@ item 0 0 0 0 0 0 -"]);
}

/// A group {0,1} and an entity that breaks it.
fn breaking(rng: &mut Rng, draft: &mut Draft) {
    draft.push(GROUPS, "3");
    push_entities(rng, draft, &["@ prog 1 0 0 2 0 0 -"]);
}

/// A group of tags 62 and 63 and the given entity, at random places.
fn breaks_by(rng: &mut Rng, entity: &str) -> Vec<u8> {
    with_draft(rng, |rng, draft| {
        let group = rng.pick(&["c000000000000000", "c000000000000001", "e000000000000000"]);
        insert_anywhere(rng, draft, GROUPS, group);
        insert_anywhere(rng, draft, ENTITIES, entity);
    })
}

const ONE: &str = "4000000000000000";
const TWO: &str = "8000000000000000";

fn breaks_with(rng: &mut Rng, kind: &str, sets: [&str; 6]) -> Vec<u8> {
    breaks_by(rng, &format!("@ {kind} {} -", sets.join(" ")))
}

/// A draft with rows for slots that no other row names, all tags 0.
fn all_slots(rng: &mut Rng, draft: &mut Draft) {
    for slot in unused_slots(rng, draft) {
        draft.push(ENTITIES, &format!("{slot} item 0 0 0 0 0 0 -"));
    }
}

type Make = fn(&mut Rng) -> Vec<u8>;

const WHOLE: &[(&str, Class, Make)] = &[
    // Texts that stop early.
    ("empty-input", Class::Form, |_| vec![]),
    ("lone-line-end", Class::Form, |_| b"\n".to_vec()),
    ("two-line-ends", Class::Form, |_| b"\n\n".to_vec()),
    ("lone-space", Class::Form, |_| b" \n".to_vec()),
    ("one-byte", Class::Form, |rng| vec![rng.pick(&[0, 9, 13, 32, 48, 115, 255])]),
    ("stop-entity-names", Class::Form, |rng| stopped(rng, |l| l.names[0] + 1)),
    ("stop-entity-names-unended", Class::Form, |rng| unended(stopped(rng, |l| l.names[0] + 1))),
    ("stop-entity-names-empty", Class::Form, |rng| and(stopped(rng, |l| l.names[0] + 1), b"\n")),
    ("stop-entities", Class::Form, |rng| stopped(rng, |l| l.names[1] - 1)),
    ("stop-entities-unended", Class::Form, |rng| unended(stopped(rng, |l| l.names[1] - 1))),
    ("stop-entities-empty", Class::Form, |rng| stopped(rng, |l| l.names[1])),
    ("stop-entities-two-empty", Class::Form, |rng| and(stopped(rng, |l| l.names[1]), b"\n")),
    ("stop-entities-three-empty", Class::Form, |rng| and(stopped(rng, |l| l.names[1]), b"\n\n")),
    ("stop-group-names", Class::Form, |rng| stopped(rng, |l| l.names[1] + 1)),
    ("stop-group-names-unended", Class::Form, |rng| unended(stopped(rng, |l| l.names[1] + 1))),
    ("stop-groups", Class::Form, |rng| stopped(rng, |l| l.names[2] - 1)),
    ("stop-groups-unended", Class::Form, |rng| unended(stopped(rng, |l| l.names[2] - 1))),
    ("stop-groups-empty", Class::Form, |rng| stopped(rng, |l| l.names[2])),
    ("stop-groups-two-empty", Class::Form, |rng| and(stopped(rng, |l| l.names[2]), b"\n")),
    ("stop-groups-three-empty", Class::Form, |rng| and(stopped(rng, |l| l.names[2]), b"\n\n")),
    ("call-names-unended", Class::Form, |rng| unended(stopped(rng, |l| l.names[2] + 1))),
    ("unended", Class::Form, |rng| unended(base(rng).text())),
    ("unended-space", Class::Form, |rng| and(base(rng).text(), b" ")),
    ("unended-nul", Class::Form, |rng| and(base(rng).text(), b"\0")),
    ("unended-row", Class::Form, |rng| and(base(rng).text(), b"show 0 - - - -")),
    // Empty lines.
    ("empty-line-first", Class::Form, |rng| empty_line_at(rng, |_, _| 0)),
    ("empty-line-after-entity-names", Class::Form, |rng| empty_line_at(rng, |_, l| l.names[0] + 1)),
    ("empty-line-in-entities", Class::Form, |rng| empty_line_at(rng, |_, l| l.rows[0][1])),
    ("two-empty-lines-before-groups", Class::Form, |rng| empty_line_at(rng, |_, l| l.names[1])),
    ("empty-line-in-groups", Class::Form, |rng| empty_line_at(rng, |rng, l| rng.pick(&l.rows[1]))),
    ("two-empty-lines-before-calls", Class::Form, |rng| empty_line_at(rng, |_, l| l.names[2])),
    ("empty-line-after-call-names", Class::Form, |rng| empty_line_at(rng, |_, l| l.names[2] + 1)),
    ("empty-line-in-calls", Class::Form, |rng| empty_line_at(rng, |_, l| l.rows[2][1])),
    ("empty-line-last", Class::Form, |rng| empty_line_at(rng, |_, l| l.lines.len())),
    ("two-empty-lines-last", Class::Form, |rng| and(base(rng).text(), b"\n\n")),
    ("no-empty-line-before-groups", Class::Form, |rng| with_lines(rng, |_, l| {
        l.lines.remove(l.names[1] - 1);
    })),
    ("no-empty-line-before-calls", Class::Form, |rng| with_lines(rng, |_, l| {
        l.lines.remove(l.names[2] - 1);
    })),
    ("space-for-empty-line", Class::Form, |rng| with_lines(rng, |_, l| l.lines[l.names[1] - 1].push(b' '))),
    ("cr-for-empty-line", Class::Form, |rng| with_lines(rng, |_, l| l.lines[l.names[2] - 1].push(b'\r'))),
    // Blocks left out, doubled or in another order.
    ("no-entities-block", Class::Form, |rng| blocks_in_order(rng, &[GROUPS, CALLS])),
    ("no-groups-block", Class::Form, |rng| blocks_in_order(rng, &[ENTITIES, CALLS])),
    ("no-calls-block", Class::Form, |rng| blocks_in_order(rng, &[ENTITIES, GROUPS])),
    ("only-calls-block", Class::Form, |rng| blocks_in_order(rng, &[CALLS])),
    ("groups-first", Class::Form, |rng| blocks_in_order(rng, &[GROUPS, ENTITIES, CALLS])),
    ("groups-last", Class::Form, |rng| blocks_in_order(rng, &[ENTITIES, CALLS, GROUPS])),
    ("entities-twice", Class::Form, |rng| blocks_in_order(rng, &[ENTITIES, ENTITIES, GROUPS, CALLS])),
    ("groups-twice", Class::Form, |rng| blocks_in_order(rng, &[ENTITIES, GROUPS, GROUPS, CALLS])),
    ("calls-twice", Class::Form, |rng| blocks_in_order(rng, &[ENTITIES, GROUPS, CALLS, CALLS])),
    // Other line ends and bytes.
    ("cr-lf", Class::Form, |rng| with_lines(rng, |_, l| l.lines.iter_mut().for_each(|line| line.push(13)))),
    ("cr-only", Class::Form, |rng| {
        base(rng).text().into_iter().map(|byte| if byte == 10 { 13 } else { byte }).collect()
    }),
    ("lf-cr", Class::Form, |rng| with_lines(rng, |_, l| l.lines.iter_mut().skip(1).for_each(|line| line.insert(0, 13)))),
    ("byte-order-mark", Class::Form, |rng| [b"\xef\xbb\xbf".to_vec(), base(rng).text()].concat()),
    ("all-nul", Class::Form, |rng| vec![0; rng.between(1, 40)]),
    ("random-bytes", Class::Form, |rng| {
        let length = rng.between(1, 200);
        rng.bytes(length)
    }),
    // Several bad lines: the first counts.
    ("two-bad-rows", Class::Form, |rng| with_draft(rng, |rng, d| {
        insert_anywhere(rng, d, ENTITIES, "@ item 0 0 0 1 0 0 -");
        bad_call(rng, d);
    })),
    ("bad-row-and-unended", Class::Form, |rng| unended(with_draft(rng, bad_call))),
    ("bad-group-and-ninth", Class::Form, |rng| with_draft(rng, |rng, d| {
        while d.sheets[GROUPS].rows.len() < 9 {
            d.push(GROUPS, "0");
        }
        insert_anywhere(rng, d, GROUPS, "x");
    })),
    // Lengths.
    ("length-65535", Class::Inside, |rng| grown_text(rng, MOST_TEXT, |_, _| {})),
    ("length-65535-bad-row", Class::Form, |rng| grown_text(rng, MOST_TEXT, bad_call)),
    ("length-65535-unended", Class::Form, |rng| unended(grown_text(rng, MOST_TEXT + 1, |_, _| {}))),
    ("length-65536", Class::Long, |rng| grown_text(rng, MOST_TEXT + 1, |_, _| {})),
    ("length-65536-all-wrong", Class::Long, |rng| grown_text(rng, MOST_TEXT + 1, |rng, d| {
        breaking(rng, d);
        twice(rng, d);
        bad_call(rng, d);
    })),
    ("length-65537-unended", Class::Long, |rng| unended(grown_text(rng, MOST_TEXT + 3, |_, _| {}))),
    ("length-line-ends", Class::Long, |rng| vec![10; rng.between(MOST_TEXT + 1, 66_500)]),
    ("length-much", Class::Long, |rng| grown_text(rng, 69_000, |_, _| {})),
    // A slot named twice.
    ("twice-apart", Class::Twice, |rng| with_draft(rng, |rng, d| {
        let row = d.sheets[ENTITIES].rows[0].clone();
        push_entities(rng, d, &["@ prog 0 0 0 0 0 0 -"]);
        d.sheets[ENTITIES].rows.push(row);
    })),
    ("twice-next", Class::Twice, |rng| with_draft(rng, twice)),
    ("twice-same-row", Class::Twice, |rng| with_draft(rng, |rng, d| {
        let at = rng.below(d.sheets[ENTITIES].rows.len());
        let row = d.sheets[ENTITIES].rows[at].clone();
        d.sheets[ENTITIES].rows.insert(at, row);
    })),
    ("thrice", Class::Twice, |rng| with_draft(rng, |rng, d| {
        push_entities(rng, d, &["@ prog 0 0 0 0 0 0 -", "@ item 0 0 0 0 0 0 -", "@ prog 0 0 0 0 0 0 00"]);
    })),
    ("twice-two-slots", Class::Twice, |rng| with_draft(rng, |rng, d| {
        push_entities(rng, d, &[
            "@ prog 0 0 0 0 0 0 -",
            "% prog 0 0 0 0 0 0 -",
            "% item 0 0 0 0 0 0 -",
            "@ item 0 0 0 0 0 0 -",
        ]);
    })),
    ("twice-slot-31", Class::Twice, |_| {
        format!("{}\n31 item 0 0 0 0 0 0 -\n0 item 0 0 0 0 0 0 -\n31 item 0 0 0 0 0 0 -\n\n{}\n\n{}\n",
            NAMES[0], NAMES[1], NAMES[2]).into_bytes()
    }),
    ("twice-after-breaking", Class::Twice, |rng| with_edits(rng, &[breaking, twice])),
    ("twice-before-breaking", Class::Twice, |rng| with_edits(rng, &[twice, breaking])),
    ("twice-and-breaking-in-one", Class::Twice, |rng| with_draft(rng, |rng, d| {
        d.push(GROUPS, "3");
        push_entities(rng, d, &["@ prog 1 2 0 0 0 0 -", "@ prog 2 1 0 0 0 0 -"]);
    })),
    // 15 before 16 and 17.
    ("form-and-twice", Class::Form, |rng| with_edits(rng, &[twice, bad_call])),
    ("form-and-breaking", Class::Form, |rng| with_edits(rng, &[breaking, bad_call])),
    ("form-twice-and-breaking", Class::Form, |rng| with_edits(rng, &[breaking, twice, bad_call])),
    ("form-row-before-twice", Class::Form, |rng| with_draft(rng, |rng, d| {
        insert_anywhere(rng, d, ENTITIES, "@ prog 0 0 0 0 0 0 0");
        twice(rng, d);
        breaking(rng, d);
    })),
    ("unended-and-twice", Class::Form, |rng| unended(with_draft(rng, twice))),
    ("unended-and-breaking", Class::Form, |rng| unended(with_draft(rng, breaking))),
    ("missing-block-and-twice", Class::Form, |rng| {
        let mut draft = base(rng);
        twice(rng, &mut draft);
        let mut lines = draft.lines();
        lines.lines.truncate(lines.names[2]);
        lines.text()
    }),
    // An entity that breaks a group.
    ("breaks-s-and-i", Class::Breaks, |rng| breaks_with(rng, "prog", [ONE, TWO, "0", "0", "0", "0"])),
    ("breaks-s-alone", Class::Breaks, |rng| breaks_with(rng, "item", ["c000000000000000", "0", "0", "0", "0", "0"])),
    ("breaks-i-alone", Class::Breaks, |rng| breaks_with(rng, "item", ["0", "c000000000000000", "0", "0", "0", "0"])),
    ("breaks-item-s-and-i", Class::Breaks, |rng| breaks_with(rng, "item", [ONE, TWO, "0", "0", "0", "0"])),
    ("breaks-s-and-sa", Class::Breaks, |rng| breaks_with(rng, "prog", [ONE, "0", TWO, "0", "0", "0"])),
    ("breaks-s-and-sd", Class::Breaks, |rng| breaks_with(rng, "prog", [ONE, "0", "0", TWO, "0", "0"])),
    ("breaks-i-and-ia", Class::Breaks, |rng| breaks_with(rng, "prog", ["0", ONE, "0", "0", TWO, "0"])),
    ("breaks-i-and-id", Class::Breaks, |rng| breaks_with(rng, "prog", ["0", ONE, "0", "0", "0", TWO])),
    ("breaks-sa-alone", Class::Breaks, |rng| breaks_with(rng, "prog", ["0", "0", "c000000000000000", "0", "0", "0"])),
    ("breaks-sd-alone", Class::Breaks, |rng| breaks_with(rng, "prog", ["0", "0", "0", "c000000000000000", "0", "0"])),
    ("breaks-ia-alone", Class::Breaks, |rng| breaks_with(rng, "prog", ["0", "0", "0", "0", "c000000000000000", "0"])),
    ("breaks-id-alone", Class::Breaks, |rng| breaks_with(rng, "prog", ["0", "0", "0", "0", "0", "c000000000000000"])),
    ("breaks-sa-and-id", Class::Breaks, |rng| breaks_with(rng, "prog", ["0", "0", ONE, "0", "0", TWO])),
    ("breaks-sd-and-ia", Class::Breaks, |rng| breaks_with(rng, "prog", ["0", "0", "0", ONE, TWO, "0"])),
    ("breaks-eighth-group", Class::Breaks, |rng| with_draft(rng, |rng, d| {
        while d.sheets[GROUPS].rows.len() < 7 {
            d.push(GROUPS, "0");
        }
        d.push(GROUPS, "c000000000000000");
        insert_anywhere(rng, d, ENTITIES, "@ prog 4000000000000000 0 0 0 8000000000000000 0 -");
    })),
    ("breaks-full-group", Class::Breaks, |rng| with_draft(rng, |rng, d| {
        d.push(GROUPS, "ffffffffffffffff");
        insert_anywhere(rng, d, ENTITIES, "@ prog 100000000 0 0 0 0 80000000 -");
    })),
    ("breaks-in-text-order", Class::Breaks, |_| {
        let rows = "20 prog 1 2 0 0 0 0 -\n3 prog 3 0 0 0 0 0 -\n";
        format!("{}\n9 prog 1 1 1 1 1 1 -\n{rows}\n{}\n1\n2\n3\n\n{}\n", NAMES[0], NAMES[1], NAMES[2])
            .into_bytes()
    }),
    ("breaks-several", Class::Breaks, |rng| with_draft(rng, |rng, d| {
        d.push(GROUPS, "5");
        d.push(GROUPS, "a");
        push_entities(rng, d, &["@ prog 2 0 8 0 0 0 -", "% item 1 4 0 0 0 0 -"]);
    })),
    // Just inside the form.
    ("only-names", Class::Inside, |_| {
        format!("{}\n\n{}\n\n{}\n", NAMES[0], NAMES[1], NAMES[2]).into_bytes()
    }),
    ("no-calls", Class::Inside, |rng| stopped(rng, |l| l.names[2] + 1)),
    ("no-entities", Class::Inside, |_| {
        let calls = "put 0 - - - -\nshow 31 - - - -\nadd 0 - 0 0 -\nsend 0 0 - - -\nhand 255 255 255 255 -\n";
        format!("{}\n\n{}\n3\n\n{}\n{calls}", NAMES[0], NAMES[1], NAMES[2]).into_bytes()
    }),
    ("eight-groups", Class::Inside, |rng| with_draft(rng, |rng, d| {
        while d.sheets[GROUPS].rows.len() < 8 {
            let group = rng.pick(&["0", "1", "0000000000000000", "8000000000000000"]);
            d.push(GROUPS, group);
        }
    })),
    ("all-slots", Class::Inside, |rng| with_draft(rng, |rng, d| {
        all_slots(rng, d);
        for slot in 0..32 {
            let call = rng.pick(&["show @ - - - -", "create @ 0 2 - -", "release @ @ - - -"]);
            d.push(CALLS, &call.replace('@', &slot.to_string()));
        }
    })),
    ("one-tag-in-every-set", Class::Inside, |rng| with_draft(rng, |rng, d| {
        d.push(GROUPS, "c");
        let row = "@ prog 0000000000000004 4 04 004 4 4 -";
        insert_anywhere(rng, d, ENTITIES, row);
    })),
    ("item-with-long-zero-rights", Class::Inside, |rng| with_draft(rng, |rng, d| {
        let row = "@ item 0 0 0000000000000000 000 00 0000000000000000 00";
        insert_anywhere(rng, d, ENTITIES, row);
    })),
    ("content-64", Class::Inside, |rng| with_draft(rng, |rng, d| {
        let slot = unused_slots(rng, d).remove(0);
        let bytes = rng.bytes(64);
        d.push(ENTITIES, &format!("{slot} prog 0 0 0 0 0 0 {}", hex::digits(&bytes)));
        for call in ["show @ - - - -", "send @ @ - - -", "fetch @ @ - - -", "put @ - - - -", "show @ - - - -"] {
            d.push(CALLS, &call.replace('@', &slot));
        }
    })),
    ("put-lengths", Class::Inside, |rng| with_draft(rng, |rng, d| {
        let slot = unused_slots(rng, d).remove(0);
        d.push(ENTITIES, &format!("{slot} prog 0 0 0 0 0 0 -"));
        for length in [0, 1, 63, 64, 65, 128, 255] {
            let bytes = rng.bytes(length);
            d.push(CALLS, &format!("put {slot} - - - {}", hex::digits_or_dash(&bytes)));
            d.push(CALLS, &format!("show {slot} - - - -"));
        }
    })),
    ("numbers-to-255", Class::Inside, |rng| with_draft(rng, |rng, d| {
        let slot = unused_slots(rng, d).remove(0);
        d.sheets[GROUPS].rows.clear();
        d.push(ENTITIES, &format!("{slot} prog 0 0 ffffffffffffffff 1 1 1 -"));
        for call in [
            "send @ 32 - - -", "send @ 255 - - -", "fetch @ 100 - - -", "release @ 32 - - -",
            "create @ 255 1 - -", "hand @ @ 4 0 -", "hand @ @ 255 64 -", "add @ - 2 63 -",
            "add @ - 0 64 -", "add @ - 0 255 -", "add @ - 0 63 -", "drop @ - 255 0 -",
            "create @ @ 0 - -", "create @ @ 3 - -", "show 255 - - - -", "put 32 - - - -",
        ] {
            d.push(CALLS, &call.replace('@', &slot));
        }
    })),
    // Random changes.
    ("random-byte-changed", Class::Random, |rng| {
        let mut text = base(rng).text();
        let at = rng.below(text.len());
        text[at] = if rng.chance(50) { rng.byte() } else { rng.pick(b"\n 0-af") };
        text
    }),
    ("random-byte-removed", Class::Random, |rng| {
        let mut text = base(rng).text();
        text.remove(rng.below(text.len()));
        text
    }),
    ("random-byte-added", Class::Random, |rng| {
        let mut text = base(rng).text();
        let byte = if rng.chance(50) { rng.byte() } else { rng.pick(b"\n 0-af") };
        text.insert(rng.below(text.len() + 1), byte);
        text
    }),
    ("random-line-removed", Class::Random, |rng| with_lines(rng, |rng, l| {
        l.lines.remove(rng.below(l.lines.len()));
    })),
    ("random-line-doubled", Class::Random, |rng| with_lines(rng, |rng, l| {
        let at = rng.below(l.lines.len());
        l.lines.insert(at, l.lines[at].clone());
    })),
    ("random-lines-swapped", Class::Random, |rng| with_lines(rng, |rng, l| {
        let (a, b) = (rng.below(l.lines.len()), rng.below(l.lines.len()));
        l.lines.swap(a, b);
    })),
    ("random-cut", Class::Random, |rng| {
        let mut text = base(rng).text();
        text.truncate(rng.below(text.len()));
        text
    }),
];
