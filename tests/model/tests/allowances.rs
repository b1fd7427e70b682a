//! Groups with an allowance: both sides of each number, in texts, tables, hands, previews and checks.

use std::collections::BTreeMap;

use hub::call::{Call, Name};
use hub::generate::draft::round;
use hub::generate::rng::Rng;
use hub::generate::scenes::script;
use hub::generate::world::Numbers;
use hub::hub::{check, Checked, Entity, Group, Hub, Kind};
use hub::hubcalls::output;
use hub::raw::Table;
use hub::refusal::receiver_with_right;
use hub::script::{run, State};
use hub::tags::{from_word, Tags};
use hub::text::load;
use hub::tworuns::random_pair;

const E: &str = "slot kind sec int sa sd ia id data\n";
const C: &str = "call caller other set tag data\n";
/// One tag in each of the six sets, 0 to 5.
const SIX: &str = "7 prog 1 2 4 8 10 20 -\n";

fn says(text: &str, answer: &str) {
    assert_eq!(output(text.as_bytes()), format!("{answer}\n"), "{text:?}");
}

/// A text with the groups in lines 4 and on, or 5 and on with an entity.
fn text(entities: &str, groups: &str) -> String {
    format!("{E}{entities}\n{groups}\n{C}")
}

fn tags(from: u8, to: u8) -> Tags {
    (from..to).collect()
}

fn groups(groups: &[(Tags, u8)]) -> Vec<Group> {
    groups.iter().map(|(tags, most)| Group { tags: tags.clone(), most: *most }).collect()
}

/// A program in slot 0 that may hand every right, one in slot 1 with some tags, and groups that
/// slot 0 breaks.
fn hub(held: Tags, all: &[(Tags, u8)]) -> Hub {
    let mut hub = Hub::empty();
    let mut giver = Entity::new(Kind::Program, Tags::new(), Tags::new());
    giver.rights = [(); 4].map(|_| tags(0, 64));
    let mut receiver = Entity::new(Kind::Program, Tags::new(), Tags::new());
    for tag in held {
        match tag % 6 {
            0 => receiver.secrecy.insert(tag),
            1 => receiver.integrity.insert(tag),
            set => receiver.rights[set as usize - 2].insert(tag),
        };
    }
    hub.slots[0] = Some(giver);
    hub.slots[1] = Some(receiver);
    hub.groups = groups(all);
    hub
}

#[test]
fn a_hand_goes_up_to_the_number_and_not_beyond() {
    for most in 1..=64 {
        let beyond = (most < 64).then_some(most);
        for (had, tag, number) in [(most - 1, Some(most - 1), 0), (most, beyond, 11), (most, Some(most - 1), 0)] {
            let Some(tag) = tag else { continue };
            let hub = hub(tags(0, had), &[(tags(0, 64), most)]);
            for right in 0..4 {
                let hand = Call::hand(0, 1, right, tag);
                let (next, answer) = hub.call(&hand);
                assert_eq!(answer.number, number, "{most} {had} {tag}");
                assert_eq!(hub.preview(&hand), answer);
                assert_eq!(next.groups, hub.groups);
            }
        }
    }
}

#[test]
fn each_group_goes_by_its_own_number() {
    let all = [(tags(0, 8), 3), (tags(8, 16), 1), (tags(16, 24), 8), (tags(24, 64), 2)];
    let told = |held: Tags| check(&groups(&all), &held);
    let breaks = |counted| Checked { keeps: false, counted };
    let keeps = Checked { keeps: true, counted: 4 };
    assert_eq!(told([0, 1, 2, 8, 16, 17, 18, 24, 63].into()), keeps);
    assert_eq!(told(tags(16, 24)), keeps);
    assert_eq!(told([0, 1, 2, 3].into()), breaks(1));
    assert_eq!(told([0, 1, 2, 8, 9].into()), breaks(2));
    assert_eq!(told([8, 16, 17, 24, 25, 63].into()), breaks(4));
    assert_eq!(told(tags(0, 64)), breaks(1));
    let mut turned = groups(&all);
    turned.reverse();
    assert_eq!(check(&turned, &tags(0, 64)), breaks(1));
    assert_eq!(check(&turned, &tags(0, 24)), breaks(3));
}

#[test]
fn a_number_above_the_tags_of_the_group_binds_nobody() {
    for most in [4, 5, 63, 64] {
        let all = groups(&[(tags(60, 64), most), (Tags::new(), most)]);
        assert_eq!(check(&all, &tags(0, 64)), Checked { keeps: true, counted: 2 });
    }
    says(&text(SIX, "tags most\n3f 6\n3f 64\n0 1\n"), "record data");
}

#[test]
fn an_entity_keeps_up_to_the_number_over_all_six_sets() {
    for most in 1..=64 {
        let row = format!("tags most\n0 1\n3f {most}\n");
        says(&text(SIX, &row), if most < 6 { "refused 17 line 2" } else { "record data" });
    }
    let item = "3 item 7 38 0 0 0 0 -\n";
    says(&text(item, "tags most\n3f 6\n"), "record data");
    says(&text(item, "most tags\n5 3f\n"), "refused 17 line 2");
    says(&text(&format!("0 item 0 0 0 0 0 0 -\n{SIX}{item}"), "tags most\n3f 5\n"), "refused 17 line 3");
}

#[test]
fn the_names_in_either_order_and_without_the_second() {
    says(&text(SIX, "tags most\n3f 6\n30 2\n"), "record data");
    says(&text(SIX, "most tags\n6 3f\n2 30\n"), "record data");
    says(&text(SIX, "most tags\n2 3f\n"), "refused 17 line 2");
    says(&text(SIX, "most tags\n3f 6\n"), "refused 15 line 5");
    says(&text(SIX, "tags\n3f\n"), "refused 17 line 2");
    says(&text(SIX, "tags\n1\n"), "record data");
    let one = load(text(SIX, "tags\n1\n0\n").as_bytes()).unwrap().0;
    assert_eq!(one.groups, groups(&[(tags(0, 1), 1), (Tags::new(), 1)]));
    for names in ["tags most", "most tags"] {
        says(&text("", &format!("{names}\n")), "record data");
    }
}

#[test]
fn other_names_are_bad() {
    for names in [
        "most", "most most", "tags tags", "tags most most", "tags most tags", "tags tags most", "tags most data",
        "tags most -", "tags number", "tags Most", "tag most", "tags  most", "tags most ", " tags most", "tags,most",
    ] {
        says(&text("", &format!("{names}\n")), "refused 15 line 3");
        says(&text(SIX, &format!("{names}\n3f 6\n")), "refused 15 line 4");
    }
    let entities = E.replace("data", "data most");
    says(&format!("{entities}\ntags\n\n{C}"), "refused 15 line 1");
    says(&format!("{}\ntags\n\n{C}", E.replace("data", "most")), "refused 15 line 1");
    let calls = C.replace("data", "data most");
    says(&format!("{E}\ntags most\n\n{calls}"), "refused 15 line 5");
    says(&format!("{E}\ntags most\n\n{}", C.replace("tag", "most")), "refused 15 line 5");
}

#[test]
fn other_numbers_are_bad() {
    for most in 1..=64 {
        says(&text("", &format!("tags most\nff {most}\n")), "record data");
    }
    for number in [
        "0", "65", "66", "99", "100", "128", "255", "256", "257", "320", "65537", "18446744073709551617", "00", "01",
        "064", "1.", "1.0", "+1", "-1", "-", "", "a", "f", "1a", "0x1", "1,", "one", "most",
    ] {
        says(&text("", &format!("tags most\nff 2\nff {number}\n")), "refused 15 line 5");
        says(&text("", &format!("most tags\n2 ff\n{number} ff\n")), "refused 15 line 5");
        says(&text(SIX, &format!("tags most\n3f 1\n1 {number}\n")), "refused 15 line 6");
    }
}

#[test]
fn a_row_has_a_field_for_each_name() {
    for row in ["ff", "ff 2 2", "ff  2", "ff 2 ", " ff 2", "ff\t2", "2", "ff 2 ff", " "] {
        says(&text("", &format!("tags most\n1 1\n{row}\n")), "refused 15 line 5");
    }
    for row in ["ff 2", "2 ff", "ff ", " ff"] {
        says(&text("", &format!("tags\n1\n{row}\n")), "refused 15 line 5");
    }
}

#[test]
fn a_ninth_row_is_bad() {
    let eight = format!("tags most\n{}", "3f 64\n".repeat(8));
    says(&text(SIX, &eight), "record data");
    for row in ["3f 64", "0 1", "0 0", "x 1", "0"] {
        says(&text(SIX, &format!("{eight}{row}\n")), "refused 15 line 13");
    }
}

const HOLDERS: &str = "\
slot 0 2 0000000000000000 0000000000000000 00000000000000ff 0000000000000000 0000000000000000 0000000000000000 1
slot 1 2 0000000000000001 0000000000000002 0000000000000000 0000000000000000 0000000000000000 0000000000000000 0
slot 2 1 0000000000000000 0000000000000000 0000000000000000 0000000000000000 0000000000000000 0000000000000000 0
bytes 0 61
";

fn state(lines: &str) -> State {
    let mut state = State::start();
    for line in lines.lines() {
        state.line(line).expect("a command");
    }
    state
}

fn groups_line(count: usize) -> String {
    format!("groups {count}{}\n", " 000000000000000f".repeat(8))
}

fn most_line(most: [u8; 8]) -> String {
    format!("most{}\n", most.map(|number| format!(" {number}")).concat())
}

/// A call of each kind, an audit, a check and a preview.
const ASKED: [&str; 12] = [
    "put 0 62", "show 0 4 ee", "send 0 1", "fetch 0 2", "add 0 0 1", "drop 9 0 1", "create 0 3 1", "release 0 2",
    "hand 0 1 0 2", "audit 0 - 0 00", "check 0000000000000001", "preview hand 0 1 0 2",
];

#[test]
fn a_number_outside_1_to_64_lacks_the_form_where_the_group_counts() {
    for count in 0..=8 {
        for place in 0..8 {
            for number in [0, 1, 2, 63, 64, 65, 66, 128, 255] {
                let mut most = [64; 8];
                most[place] = number;
                let lines = format!("{HOLDERS}{}{}", groups_line(count), most_line(most));
                let lacks = place < count && !(1..=64).contains(&number);
                for asked in ASKED {
                    let mut state = state(&lines);
                    let before = state.table.clone();
                    let answer = state.line(asked).unwrap();
                    assert_eq!(answer.starts_with("99 "), lacks, "{asked}: {count} {most:?}");
                    assert_eq!((state.table.groups, state.table.most), (before.groups, most));
                    assert!(!lacks || state.table == before);
                }
            }
        }
    }
}

#[test]
fn an_empty_table_has_ones_and_so_has_a_loaded_one_beyond_its_groups() {
    assert_eq!(Table::empty().most, [1; 8]);
    let written = format!("{}{}", groups_line(8), most_line([9, 8, 7, 6, 5, 4, 3, 2]));
    let hex = |text: &str| hub::hex::digits_or_dash(text.as_bytes());
    for refused in ["", "\n", &text("", "tags most\n3 0\n"), &text(SIX, "tags most\n3f 5\n")] {
        let mut state = state(&written);
        state.line(&format!("load {}", hex(refused))).unwrap();
        assert_eq!(state.table, Table::empty());
    }
    let mut state = state(&written);
    state.line(&format!("load {}", hex(&text(SIX, "most tags\n6 3f\n64 0\n2 30\n")))).unwrap();
    assert_eq!((state.table.group_count, state.table.most), (3, [6, 64, 2, 1, 1, 1, 1, 1]));
    state.line(&format!("load {}", hex(&text("", "tags\n3f\n")))).unwrap();
    assert_eq!((state.table.group_count, state.table.most), (1, [1; 8]));
    state.line("most 1 2 3 4 5 6 7 8").unwrap();
    state.line("table").unwrap();
    assert_eq!(state.table, Table::empty());
}

#[test]
fn groups_and_most_write_no_more_than_their_own() {
    let mut state = state("most 3 4 0 255 64 65 7 8");
    let written = state.table.most;
    assert_eq!(written, [3, 4, 0, 255, 64, 65, 7, 8]);
    state.line(groups_line(2).trim_end()).unwrap();
    assert_eq!((state.table.group_count, state.table.most), (2, written));
    state.line("most 1 1 1 1 1 1 1 1").unwrap();
    assert_eq!((state.table.group_count, state.table.groups), (2, [15; 8]));
    assert_eq!(state.line("dump").unwrap().len(), 2 * 3_952 + 1);
    assert!(state.line("dump").unwrap().ends_with(&format!("{}{}\n", "0f00000000000000".repeat(8), "01".repeat(8))));
    for line in ["most", "most 1", "most 1 1 1 1 1 1 1", "most 1 1 1 1 1 1 1 1 1", "most 256 1 1 1 1 1 1 1",
        "most 1 1 1 1 1 1 1 -1", "preview most 1 1 1 1 1 1 1 1"] {
        assert_eq!(run(&format!("dump\n{line}\n")), Err(2), "{line:?}");
    }
}

#[test]
fn what_is_no_number_of_a_text_is_none_of_a_table() {
    for number in 0..=255u8 {
        let loads = load(text("", &format!("tags most\n0 {number}\n")).as_bytes()).is_ok();
        let mut table = Table::empty();
        table.group_count = 1;
        table.most[0] = number;
        assert_eq!(loads, !table.lacks_form(), "{number}");
        assert_eq!(loads, (1..=64).contains(&number), "{number}");
    }
}

type Counts = BTreeMap<(&'static str, u8, &'static str), usize>;

/// Counts the groups whose number is the number of tags that somebody has or would have, or one less.
fn count_sides(counts: &mut Counts, what: &'static str, all: &[Group], held: &Tags) {
    for Group { tags, most } in all {
        let excess = tags.intersection(held).count() as isize - *most as isize;
        let side = match excess {
            0 => "at it",
            1 => "one more",
            _ => continue,
        };
        *counts.entry((what, *most, side)).or_default() += 1;
    }
}

fn count_hand(counts: &mut Counts, what: &'static str, hub: &Hub, call: &Call) {
    let number = hub.preview(call).number;
    let other = call.other.and_then(|slot| hub.entity(slot));
    if let (Name::Hand, 0 | 11, Some(other)) = (call.name, number, other) {
        let receiver = receiver_with_right(other, call);
        assert_eq!(number == 0, receiver.keeps_to(&hub.groups));
        count_sides(counts, what, &hub.groups, &receiver.tags());
    }
}

fn hand(words: &str) -> Option<Call> {
    let fields: Vec<u8> = words.strip_prefix("hand ")?.split(' ').map(|word| word.parse().expect("a byte")).collect();
    Some(Call::hand(fields[0], fields[1], fields[2], fields[3]))
}

#[test]
fn generated_input_is_often_on_either_side_of_a_number() {
    let mut counts = Counts::new();
    for seed in 0..800 {
        let (mut hub, calls) = load(&round(&mut Rng::new(seed), Numbers::Near)).unwrap();
        for entity in hub.slots.iter().flatten() {
            count_sides(&mut counts, "load", &hub.groups, &entity.tags());
        }
        for call in calls {
            count_hand(&mut counts, "hand of a text", &hub, &call);
            hub = hub.call(&call).0;
        }
    }
    for seed in 0..250 {
        let mut state = State::start();
        for line in script(seed, 4, Numbers::Near).lines() {
            if !state.table.lacks_form() {
                let hub = state.table.to_hub();
                if let Some(held) = line.strip_prefix("check ") {
                    let held = from_word(u64::from_str_radix(held, 16).expect("a word"));
                    count_sides(&mut counts, "check", &hub.groups, &held);
                }
                if let Some(call) = hand(line) {
                    count_hand(&mut counts, "hand", &hub, &call);
                }
                if let Some(call) = line.strip_prefix("preview ").and_then(hand) {
                    count_hand(&mut counts, "preview", &hub, &call);
                }
            }
            state.line(line).expect("a command");
        }
    }
    for what in ["load", "hand of a text", "hand", "preview", "check"] {
        for most in [1, 2, 3, 63, 64] {
            for side in ["at it", "one more"] {
                let never = side == "one more" && (most == 64 || what == "load");
                let count = counts.get(&(what, most, side)).copied().unwrap_or(0);
                assert!(if never { count == 0 } else { count > 4 }, "{what} {most} {side}: {counts:?}");
            }
        }
    }
}

#[test]
fn random_pairs_have_hands_on_either_side_of_a_number() {
    let mut counts = Counts::new();
    for index in 0..600 {
        let pair = random_pair(&mut Rng::for_case(13, index));
        let mut hub = pair.a.start;
        for event in pair.a.events {
            count_hand(&mut counts, if event.is_preview() { "preview" } else { "hand" }, &hub, event.call());
            hub = event.on(&hub).0;
        }
    }
    for what in ["preview", "hand"] {
        for most in [1, 2, 3] {
            for side in ["at it", "one more"] {
                let count = counts.get(&(what, most, side));
                assert!(count > Some(&4), "{what} {most} {side}: {counts:?}");
            }
        }
    }
}

#[test]
fn generated_scripts_have_bad_numbers_within_the_count_and_beyond() {
    let mut counts: BTreeMap<(bool, &str), usize> = BTreeMap::new();
    for seed in 0..120 {
        let mut state = State::start();
        for line in script(seed, 4, Numbers::Near).lines() {
            let answered = !state.line(line).expect("a command").is_empty();
            let Table { group_count, most, .. } = &state.table;
            for (place, number) in most.iter().enumerate() {
                let what = match number {
                    0 => "0",
                    1..=64 => continue,
                    65 => "65",
                    _ => "higher",
                };
                *counts.entry((place < *group_count as usize, what)).or_default() += usize::from(answered);
            }
        }
    }
    for within in [false, true] {
        for what in ["0", "65", "higher"] {
            assert!(counts.get(&(within, what)) > Some(&50), "{within} {what}: {counts:?}");
        }
    }
}
