//! Texts whose groups have numbers: such as break the form or a group, and such as just keep to both.

use super::damage::{insert_anywhere, small_draft, Case, Class, LINE_TRICKS, SPACE_TRICKS};
use super::draft::{Draft, Lines, CALLS, ENTITIES, GROUPS, NAMES};
use super::rng::Rng;
use super::world::Numbers;
use crate::hub::MOST_GROUPS;

/// Rows of groups that are bad: the numbers, then the sets.
const BAD_ROWS: &[&str] = &[
    "3 0",
    "3 65",
    "3 66",
    "3 100",
    "3 128",
    "3 255",
    "3 256",
    "3 257",
    "3 4294967297",
    "3 18446744073709551617",
    "3 00",
    "3 01",
    "3 001",
    "3 064",
    "3 000000000000000001",
    "3 1.",
    "3 1.0",
    "3 +1",
    "3 -1",
    "3 -",
    "3 ",
    "3 a",
    "3 1a",
    "3 f",
    "3 0x1",
    "3 1,",
    "3 \u{661}",
    "3 most",
    "0 0",
    "0 65",
    "ffffffffffffffff 0",
    "ffffffffffffffff 65",
    " 1",
    " ",
    "- 1",
    "A 1",
    "g 1",
    "0x3 1",
    "00000000000000003 1",
    "- -",
];

/// Lines of names that are bad in the block they stand in.
const BAD_NAMES: &[(usize, &str)] = &[
    (GROUPS, ""),
    (GROUPS, "most"),
    (GROUPS, "most most"),
    (GROUPS, "tags tags"),
    (GROUPS, "tags most most"),
    (GROUPS, "most tags most"),
    (GROUPS, "tags most tags"),
    (GROUPS, "tags tags most"),
    (GROUPS, "most tags tags"),
    (GROUPS, "tags most data"),
    (GROUPS, "id tags most"),
    (GROUPS, "tags most -"),
    (GROUPS, "tags -"),
    (GROUPS, "tags 1"),
    (GROUPS, "tags data"),
    (GROUPS, "tags more"),
    (GROUPS, "tags mos"),
    (GROUPS, "tags mostly"),
    (GROUPS, "tags Most"),
    (GROUPS, "TAGS MOST"),
    (GROUPS, "tag most"),
    (GROUPS, "most tag"),
    (GROUPS, "tags,most"),
    (GROUPS, "tagsmost"),
    (ENTITIES, "most"),
    (ENTITIES, "tags most"),
    (ENTITIES, "slot kind sec int sa sd ia id most"),
    (ENTITIES, "slot kind sec int sa sd ia id data most"),
    (ENTITIES, "most slot kind sec int sa sd ia id data"),
    (CALLS, "most"),
    (CALLS, "tags most"),
    (CALLS, "call caller other set most data"),
    (CALLS, "call caller other set tag data most"),
    (CALLS, "most call caller other set tag data"),
];

/// The numbers that entities are put at the bound of.
const BOUNDS: [usize; 8] = [1, 2, 3, 4, 32, 62, 63, 64];

fn base(rng: &mut Rng) -> Draft {
    small_draft(rng, Numbers::Near)
}

fn lines_with(rng: &mut Rng, change: impl Fn(&mut Rng, &mut Lines)) -> Vec<u8> {
    let mut lines = base(rng).lines();
    change(rng, &mut lines);
    lines.text()
}

/// A draft with so many groups, of which the added ones bind nobody.
fn with_groups(rng: &mut Rng, count: usize) -> Draft {
    let mut draft = base(rng);
    while draft.sheets[GROUPS].rows.len() < count {
        let row = rng.pick(&["0 1", "0 64", "1 1", "3 2", "7 3", "7 63", "ffffffffffffffff 64"]);
        draft.push(GROUPS, row);
    }
    draft
}

/// So many different tags in random order.
pub fn some_tags(rng: &mut Rng, count: usize) -> Vec<u8> {
    let mut tags: Vec<u8> = (0..64).collect();
    rng.shuffle(&mut tags);
    tags.truncate(count);
    tags
}

pub fn word(tags: &[u8]) -> u64 {
    tags.iter().map(|tag| 1u64 << tag).sum()
}

/// Each of the tags in one or two of so many sets; the others are empty.
pub fn spread(rng: &mut Rng, tags: &[u8], sets: usize) -> [u64; 6] {
    let mut words = [0; 6];
    for tag in tags {
        words[rng.below(sets)] |= 1 << tag;
        if rng.chance(30) {
            words[rng.below(sets)] |= 1 << tag;
        }
    }
    words
}

/// The row of an entity that has these tags.
fn holder(rng: &mut Rng, tags: &[u8]) -> String {
    let (kind, sets) = rng.pick(&[("item", 2), ("prog", 2), ("prog", 6), ("prog", 6)]);
    let words = spread(rng, tags, sets).map(|word| format!("{word:x}"));
    format!("@ {kind} {} -", words.join(" "))
}

/// A group with a number, and entities that have exactly so many of its tags.
fn kept(rng: &mut Rng, most: usize) -> Draft {
    let mut draft = base(rng);
    draft.sheets[ENTITIES].rows.clear();
    draft.sheets[GROUPS].rows.clear();
    let count = rng.between(most, 64);
    let mut group = some_tags(rng, 64);
    let others = group.split_off(count);
    for _ in 0..rng.between(1, 4) {
        rng.shuffle(&mut group);
        let more = rng.between(0, others.len());
        let row = holder(rng, &[&group[..most], &others[..more]].concat());
        insert_anywhere(rng, &mut draft, ENTITIES, &row);
    }
    draft.push(GROUPS, &format!("{:x} {most}", word(&group)));
    draft
}

/// The same, and another group with this number, of which an entity has one tag more.
fn broken(rng: &mut Rng, most: usize) -> Draft {
    let mut draft = kept(rng, most);
    let count = rng.between(most + 1, 64);
    let group = some_tags(rng, count);
    insert_anywhere(rng, &mut draft, GROUPS, &format!("{:x} {most}", word(&group)));
    let row = holder(rng, &group[..most + 1]);
    insert_anywhere(rng, &mut draft, ENTITIES, &row);
    draft
}

/// A slot that is named twice, by entities without tags.
fn twice(rng: &mut Rng, draft: &mut Draft) {
    insert_anywhere(rng, draft, ENTITIES, "@ prog 0 0 0 0 0 0 -");
    let row = rng.pick(&draft.sheets[ENTITIES].rows);
    draft.sheets[ENTITIES].rows.push(row);
}

type Make = Box<dyn Fn(&mut Rng) -> Vec<u8>>;

/// All cases, in a fixed order.
pub fn catalogue() -> Vec<Case> {
    let mut cases = Vec::new();
    let mut add = |name: String, class: Class, make: Make| {
        cases.push(Case { name: format!("numbers-{name}"), class, make });
    };

    for (n, row) in BAD_ROWS.iter().enumerate() {
        add(format!("bad-row-{n:02}"), Class::Form, Box::new(move |rng| {
            let mut draft = base(rng);
            insert_anywhere(rng, &mut draft, GROUPS, row);
            draft.text()
        }));
    }
    for (n, &(block, names)) in BAD_NAMES.iter().enumerate() {
        add(format!("bad-names-{n:02}"), Class::Form, Box::new(move |rng| {
            lines_with(rng, |_, lines| lines.lines[lines.names[block]] = names.as_bytes().to_vec())
        }));
    }
    for on_names in [true, false] {
        let place = if on_names { "names" } else { "row" };
        let pick_line = move |rng: &mut Rng, lines: &Lines| {
            if on_names { lines.names[GROUPS] } else { rng.pick(&lines.rows[GROUPS]) }
        };
        for &(trick, change) in LINE_TRICKS {
            add(format!("{place}-{trick}"), Class::Form, Box::new(move |rng| {
                lines_with(rng, |rng, lines| {
                    let at = pick_line(rng, lines);
                    change(rng, &mut lines.lines[at]);
                })
            }));
        }
        for &(trick, change) in SPACE_TRICKS {
            add(format!("{place}-{trick}"), Class::Form, Box::new(move |rng| {
                lines_with(rng, |rng, lines| {
                    let at = pick_line(rng, lines);
                    let line = &mut lines.lines[at];
                    let space = line.iter().position(|byte| *byte == b' ').expect("a space");
                    change(rng, line, space);
                })
            }));
        }
    }
    for name in ["tags", "most"] {
        add(format!("names-{name}-alone"), Class::Form, Box::new(move |rng| {
            lines_with(rng, |_, lines| lines.lines[lines.names[GROUPS]] = name.as_bytes().to_vec())
        }));
    }
    for (name, ninth) in [("good", "0 1"), ("bad", "0 0")] {
        add(format!("ninth-{name}"), Class::Form, Box::new(move |rng| {
            let mut draft = with_groups(rng, MOST_GROUPS);
            draft.push(GROUPS, ninth);
            draft.text()
        }));
    }

    for most in BOUNDS {
        add(format!("kept-{most}"), Class::Inside, Box::new(move |rng| kept(rng, most).text()));
    }
    for most in BOUNDS {
        if most == 64 {
            continue;
        }
        add(format!("broken-{most}"), Class::Breaks, Box::new(move |rng| broken(rng, most).text()));
        add(format!("broken-{most}-and-form"), Class::Form, Box::new(move |rng| {
            let mut draft = broken(rng, most);
            let row = rng.pick(&["1 0", "1 65"]);
            insert_anywhere(rng, &mut draft, GROUPS, row);
            draft.text()
        }));
        add(format!("broken-{most}-and-twice"), Class::Twice, Box::new(move |rng| {
            let mut draft = broken(rng, most);
            twice(rng, &mut draft);
            draft.text()
        }));
    }
    add("eight".to_string(), Class::Inside, Box::new(|rng| with_groups(rng, MOST_GROUPS).text()));
    for names in ["tags most", "most tags"] {
        let name = format!("only-names-{}", names.replace(' ', "-"));
        add(name, Class::Inside, Box::new(move |_| {
            format!("{}\n\n{names}\n\n{}\n", NAMES[ENTITIES], NAMES[CALLS]).into_bytes()
        }));
    }
    cases
}
