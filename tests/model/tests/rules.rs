//! Rules and readings that the paper's examples do not show.

use std::collections::BTreeMap;

use hub::call::{Call, Name};
use hub::generate::damage::{self, Class};
use hub::generate::draft::round;
use hub::generate::numbers;
use hub::generate::rng::Rng;
use hub::generate::scenes::script;
use hub::generate::world::{call, world, Numbers};
use hub::hub::{Entity, Hub, Kind, ADD_S, SLOTS};
use hub::hubcalls::output;
use hub::raw::{RawKind, Table};
use hub::tags::{from_word, to_word, Tags};
use hub::text::load;
use hub::tworuns::{check, random_pair, scripts, Event, Pair, Run};

const E: &str = "slot kind sec int sa sd ia id data\n";
const G: &str = "tags\n";
const C: &str = "call caller other set tag data\n";

fn says(text: &str, answer: &str) {
    assert_eq!(output(text.as_bytes()), format!("{answer}\n"), "{text:?}");
}

fn program(secrecy: &[u8]) -> Entity {
    Entity::new(Kind::Program, secrecy.iter().copied().collect(), Tags::new())
}

fn item(secrecy: &[u8]) -> Entity {
    Entity { kind: Kind::Item, ..program(secrecy) }
}

fn hub_of(entities: &[Entity]) -> Hub {
    let mut hub = Hub::empty();
    for (slot, entity) in entities.iter().enumerate() {
        hub.slots[slot] = Some(entity.clone());
    }
    hub
}

fn need(hub: &Hub, call: Call) -> u64 {
    need_of(&hub.call(&call).1.record)
}

fn need_of(record: &[u8]) -> u64 {
    u64::from_le_bytes(record[8..].try_into().unwrap())
}

/// The nine calls, by a caller and on another slot.
fn nine(caller: u8, other: u8) -> [Call; 9] {
    [
        Call::put(caller, vec![1, 2]),
        Call::show(caller, vec![9; 64]),
        Call::send(caller, other),
        Call::fetch(caller, other),
        Call::add(caller, 0, 2),
        Call::drop(caller, 1, 3),
        Call::create(caller, other, 1),
        Call::release(caller, other),
        Call::hand(caller, other, 0, 2),
    ]
}

#[test]
fn words_and_sets_agree() {
    for word in [0, 1, 1 << 63, u64::MAX, 0x8000_0001_0000_0100] {
        assert_eq!(to_word(&from_word(word)), word);
    }
}

#[test]
fn texts_that_stop_early() {
    says("", "refused 15 line 1");
    says("\n", "refused 15 line 1");
    says(E, "refused 15 line 2");
    says(&E[..E.len() - 1], "refused 15 line 1");
    says(&format!("{E}\n"), "refused 15 line 3");
    says(&format!("{E}\n\n"), "refused 15 line 3");
    says(&format!("{E}\n\n\n"), "refused 15 line 3");
    says(&format!("{E}\n{G}"), "refused 15 line 4");
    says(&format!("{E}\n{G}\n"), "refused 15 line 5");
    says(&format!("{E}\n{G}\n\n"), "refused 15 line 5");
    says(&format!("{E}\n{G}\n{C}"), "record data");
    says(&format!("{E}\n{G}\n{}", &C[..C.len() - 1]), "refused 15 line 5");
}

#[test]
fn a_block_left_out_is_seen_where_its_names_should_be() {
    says(&format!("{G}\n{C}"), "refused 15 line 1");
    says(&format!("{E}\n{C}"), "refused 15 line 3");
}

#[test]
fn empty_lines() {
    let row = "0 prog 0 0 0 0 0 0 -\n";
    says(&format!("\n{E}\n{G}\n{C}"), "refused 15 line 1");
    says(&format!("{E}\n{row}\n{G}\n{C}"), "refused 15 line 3");
    says(&format!("{E}{row}\n\n{G}\n{C}"), "refused 15 line 4");
    says(&format!("{E}\n{G}1\n\n2\n\n{C}"), "refused 15 line 6");
    says(&format!("{E}\n{G}\n{C}\n"), "refused 15 line 6");
    says(&format!("{E}\n{G}\n{C}\nshow 0 - - - -\n"), "refused 15 line 6");
}

#[test]
fn numbers_of_the_text() {
    let entity = |row: &str| format!("{E}{row}\n\n{G}\n{C}");
    says(&entity("31 prog 0 0 0 0 0 0 -"), "record data");
    says(&entity("32 prog 0 0 0 0 0 0 -"), "refused 15 line 2");
    says(&entity("00 prog 0 0 0 0 0 0 -"), "refused 15 line 2");
    says(&entity("0 prog 0000000000000000 0 0 0 0 0 -"), "record data");
    says(&entity("0 prog 00000000000000000 0 0 0 0 0 -"), "refused 15 line 2");
    says(&entity("0 item 0 0 0 0 0 8 -"), "refused 15 line 2");
    says(&entity(&format!("0 item 0 0 0 0 0 0 {}", "0f".repeat(64))), "record data");
    says(&entity(&format!("0 item 0 0 0 0 0 0 {}", "0f".repeat(65))), "refused 15 line 2");
    let call = |row: &str| format!("{E}\n{G}\n{C}{row}\n");
    says(&call("show 255 - - - -"), "record data\n02ffff0100ffff000000000000000000 -");
    says(&call("show 256 - - - -"), "refused 15 line 6");
    says(&call("show 0 - - - 00"), "refused 15 line 6");
    says(&call(&format!("put 0 - - - {}", "00".repeat(255))), "record data\n0100ff0100ffff000000000000000000 -");
    says(&call(&format!("put 0 - - - {}", "00".repeat(256))), "refused 15 line 6");
}

#[test]
fn one_number_over_the_whole_text_before_the_next() {
    let breaking = "0 prog 3 0 0 0 0 0 -\n";
    let twice = "1 prog 0 0 0 0 0 0 -\n1 prog 0 0 0 0 0 0 -\n";
    let tail = format!("\n{G}3\n\n{C}");
    says(&format!("{E}{breaking}{tail}"), "refused 17 line 2");
    says(&format!("{E}{breaking}{twice}{tail}"), "refused 16 line 4");
    says(&format!("{E}{breaking}{twice}{tail}\n"), "refused 15 line 10");
    let padding = "put 0 - - - 00\n".repeat(4400);
    says(&format!("{E}{breaking}{twice}{tail}{padding}x"), "refused 14 line 0");
}

#[test]
fn lengths_of_a_text() {
    let cases = damage::catalogue();
    for (name, length) in [("length-65535", 65_535), ("length-65536", 65_536)] {
        let case = cases.iter().find(|case| case.name == name).unwrap();
        let text = (case.make)(&mut Rng::new(5));
        assert_eq!(text.len(), length);
        assert_eq!(load(&text).is_ok(), length == 65_535);
    }
}

#[test]
fn columns_permute_in_each_block_by_itself() {
    let text = "data id ia sd sa int sec kind slot\n0a 0 0 0 0 0 2 prog 3\n\ntags\n\ndata tag set other caller call\n- - - - 3 show\n";
    says(text, "record data\n0203ff0001ffff000200000000000000 0a");
}

#[test]
fn the_need() {
    let mut adder = program(&[1]);
    adder.rights[ADD_S].insert(5);
    let hub = hub_of(&[adder, program(&[2]), item(&[3])]);
    assert_eq!(need(&hub, Call::add(0, 0, 5)), 0b100010, "S after an add");
    assert_eq!(need(&hub, Call::add(0, 0, 6)), 0b10, "a refused add");
    assert_eq!(need(&hub, Call::send(0, 1)), 0b110);
    assert_eq!(need(&hub, Call::create(0, 2, 1)), 0b1010, "refused by 4");
    assert_eq!(need(&hub, Call::create(0, 2, 9)), 0b1010, "refused by 2");
    assert_eq!(need(&hub, Call::create(0, 7, 1)), 0b10);
    assert_eq!(need(&hub, Call::send(2, 0)), 0b1000, "an item");
    assert_eq!(need(&hub, Call::send(3, 0)), 0, "a free slot");
    assert_eq!(need(&hub, Call::release(0, 0)), 0b10);
    assert_eq!(need(&hub, Call::fetch(0, 40)), 0b10);
}

#[test]
fn the_need_of_an_item_named_as_caller_is_its_s_alone() {
    let mut probe = item(&[1, 5]);
    probe.integrity.insert(7);
    probe.content = vec![1, 2, 3];
    let mut plain = item(&[]);
    plain.integrity.insert(8);
    let mut grower = program(&[1, 2, 5]);
    grower.rights = [(); 4].map(|_| Tags::from([2, 3]));
    let mut hub = hub_of(&[probe, plain, item(&[63]), grower, program(&[])]);
    hub.slots[31] = Some(item(&[0]));
    let callers = [(0, 0b10_0010), (1, 0), (2, 1 << 63), (31, 1), (9, 0), (30, 0), (32, 0), (64, 0), (255, 0)];
    for (caller, wanted) in callers {
        for other in [0, 1, 2, 3, 4, 9, 31, 32, 255] {
            for call in nine(caller, other) {
                let (next, answer) = hub.call(&call);
                assert_eq!((answer.number, need_of(&answer.record)), (1, wanted), "{call:?}");
                assert_eq!(answer.record[..3], [call.name as u8, caller, call.other.unwrap_or(255)]);
                assert_eq!((answer.record[4], answer.part, answer.buffer), (0, vec![], call.buffer));
                assert_eq!(next, hub);
            }
        }
    }
}

#[test]
fn an_item_keeps_its_need_where_another_refusal_would_follow() {
    let hub = hub_of(&[item(&[4])]);
    for call in [
        Call::add(0, 0, 64),
        Call::add(0, 2, 4),
        Call::create(0, 40, 1),
        Call::create(0, 0, 9),
        Call::hand(0, 0, 4, 200),
        Call::put(0, vec![0; 65]),
        Call::show(0, vec![]),
    ] {
        let answer = hub.call(&call).1;
        assert_eq!((answer.number, need_of(&answer.record)), (1, 0b1_0000), "{call:?}");
    }
}

#[test]
fn the_need_goes_by_what_stands_in_the_slot_at_the_call() {
    let put = |hub: &Hub| {
        let record = hub.call(&Call::put(7, vec![])).1.record;
        (record[3], need_of(&record))
    };
    let mut hub = hub_of(&[program(&[1]), program(&[2])]);
    assert_eq!(put(&hub), (1, 0), "a free slot");
    hub = hub.call(&Call::create(0, 7, 1)).0;
    assert_eq!(put(&hub), (1, 0b10), "an item");
    hub = hub.call(&Call::release(0, 7)).0;
    assert_eq!(put(&hub), (1, 0), "free again");
    hub = hub.call(&Call::create(1, 7, 1)).0;
    assert_eq!(put(&hub), (1, 0b100), "another item");
    hub = hub.call(&Call::release(1, 7)).0;
    hub = hub.call(&Call::create(1, 7, 2)).0;
    assert_eq!(put(&hub), (0, 0b100), "a program");
}

#[test]
fn release_frees_and_create_takes_labels_only() {
    let mut caller = program(&[4]);
    caller.rights[ADD_S].insert(9);
    caller.content = vec![1, 2, 3];
    let hub = hub_of(&[caller, item(&[4]), item(&[])]);
    let (made, answer) = hub.call(&Call::create(0, 31, 2));
    assert_eq!(answer.number, 0);
    assert_eq!(made.entity(31), Some(&program(&[4])));
    assert_eq!(hub.call(&Call::release(0, 1)).0.entity(1), None);
    assert_eq!(hub.call(&Call::release(0, 2)).1.number, 8);
    assert_eq!(hub.call(&Call::release(0, 0)).0.entity(0), None);
    assert_eq!(made.call(&Call::release(0, 31)).1.number, 8, "another program");
}

#[test]
fn long_puts() {
    let hub = hub_of(&[program(&[])]);
    for length in [65, 256, 300] {
        let (next, answer) = hub.call(&Call::put(0, vec![1; length]));
        assert_eq!((answer.number, answer.record[4]), (5, 0));
        assert_eq!(next, hub);
    }
}

#[test]
fn audits() {
    let hub = hub_of(&[program(&[0]), item(&[0])]);
    let record = |need: u8| [[7; 8], [need, 0, 0, 0, 0, 0, 0, 0]].concat();
    let list = [record(1), record(2), record(0), record(3)].concat();
    let shown = hub.audit(0, &list, &[9; 33]);
    let part = [record(1), record(0)].concat();
    assert_eq!((shown.number, &shown.part), (0, &part));
    assert_eq!(shown.buffer, [part, vec![9]].concat());
    assert_eq!(hub.audit(0, &list, &[9; 31]).number, 13);
    assert_eq!(hub.audit(0, &list[1..], &[]).number, 12);
    assert_eq!(hub.audit(1, &list[1..], &[]).number, 1);
    assert_eq!(hub.audit(0, &[], &[]).number, 0);
}

#[test]
fn tables_that_lack_the_form() {
    let mut good = Table::empty();
    good.entities[3].kind = RawKind::Program;
    good.entities[4].kind = RawKind::Item;
    good.entities[3].length = 64;
    good.content[3 * 64 + 63] = 1;
    good.group_count = 8;
    assert!(!good.lacks_form());
    let changes: [fn(&mut Table); 10] = [
        |t| t.entities[3].length = 65,
        |t| t.entities[3].length = 63,
        |t| t.content[4 * 64] = 1,
        |t| t.entities[4].rights[3] = 1,
        |t| t.entities[0].secrecy = 1,
        |t| t.entities[31].integrity = 1 << 63,
        |t| t.entities[5].rights[0] = 1,
        |t| t.entities[5].length = 1,
        |t| t.content[2047] = 1,
        |t| t.group_count = 9,
    ];
    for (n, change) in changes.into_iter().enumerate() {
        let mut table = good.clone();
        change(&mut table);
        assert!(table.lacks_form(), "change {n}");
        let (next, answer) = table.call(&Call::show(200, vec![5; 3]));
        assert_eq!((answer.number, answer.buffer), (99, vec![5; 3]));
        assert_eq!(answer.record, [2, 200, 255, 99, 0, 255, 255, 0, 0, 0, 0, 0, 0, 0, 0, 0]);
        assert_eq!(next, table);
        assert_eq!(table.audit(200, &[1], &[]).number, 99);
    }
    let mut beyond = good.clone();
    beyond.group_count = 1;
    beyond.groups[7] = u64::MAX;
    assert!(!beyond.lacks_form());
    assert_eq!(beyond.call(&Call::show(3, vec![0; 64])).0, beyond);
}

#[test]
fn under_99_the_need_is_empty_for_an_item_too() {
    let mut table = Table::of_hub(&hub_of(&[item(&[1]), program(&[1])]));
    table.group_count = 9;
    for caller in [0, 1, 5, 40] {
        for call in nine(caller, 1) {
            let record = table.call(&call).1.record;
            assert_eq!((record[3], need_of(&record)), (99, 0), "{call:?}");
        }
    }
}

#[test]
fn raw_tables_and_hubs_agree() {
    for seed in 0..200 {
        let mut rng = Rng::new(seed);
        let hub = world(&mut rng, 12, Numbers::Near).hub;
        assert_eq!(Table::of_hub(&hub).to_hub(), hub);
    }
    assert_eq!(Table::empty().bytes().len(), 32 * 57 + 2048 + 80);
    assert_eq!(Table::of_hub(&Hub::empty()), Table::empty());
}

#[test]
fn accepted_tables_stay_accepted_and_refused_calls_change_nothing() {
    for seed in 0..600 {
        let mut rng = Rng::new(seed);
        let numbers = if seed < 300 { Numbers::Ones } else { Numbers::Near };
        let world = world(&mut rng, 10, numbers);
        let mut hub = world.hub;
        assert!(hub.accepted());
        for _ in 0..60 {
            let call = call(&mut rng, &hub, &world.pool, 64);
            let (next, answer) = hub.call(&call);
            assert!(next.accepted());
            if answer.number != 0 {
                assert_eq!(next, hub);
                assert_eq!(answer.buffer, call.buffer);
                assert!(answer.part.is_empty());
            }
            hub = next;
        }
    }
}

#[test]
fn cases_meet_what_they_are_meant_for() {
    for seed in 0..3 {
        for case in damage::catalogue().into_iter().chain(numbers::catalogue()) {
            let loaded = load(&(case.make)(&mut Rng::new(seed)));
            let number = loaded.err().map_or(0, |refused| refused.number);
            let meant: &[u8] = match case.class {
                Class::Long => &[14],
                Class::Form => &[15],
                Class::Twice => &[16],
                Class::Breaks => &[17],
                Class::Inside => &[0, 17],
                Class::Random => &[0, 15, 16, 17],
            };
            assert!(meant.contains(&number), "{} gave {number}", case.name);
        }
        assert!(load(&round(&mut Rng::new(seed), Numbers::Ones)).is_ok());
        assert!(load(&round(&mut Rng::new(seed), Numbers::Near)).is_ok());
    }
}

#[test]
fn input_is_fixed_by_the_seed() {
    for numbers in [Numbers::Ones, Numbers::Near] {
        assert_eq!(round(&mut Rng::new(7), numbers), round(&mut Rng::new(7), numbers));
        assert_eq!(script(7, 3, numbers), script(7, 3, numbers));
    }
}

#[test]
fn scripts_run_and_stay_short() {
    for seed in 0..200 {
        let numbers = if seed < 100 { Numbers::Ones } else { Numbers::Near };
        let script = script(seed, 4, numbers);
        assert!(hub::script::run(&script).is_ok());
        assert!(script.len() < 60_000);
        assert!(script.ends_with("dump\n"));
    }
}

const PROGRAM: &str = "slot 3 2 0000000000000000 0000000000000000 0000000000000000 \
    0000000000000000 0000000000000000 0000000000000000 0\n";

/// The bytes that slot 3 is shown of `run` at the end of a script.
fn shown_of_run(script: &str) -> usize {
    let answers = hub::script::run(&format!("{script}audit 3 run 400 00\n")).expect("commands");
    let part = answers.lines().last().and_then(|line| line.split(' ').nth(2)).expect("a part");
    part.trim_matches('-').len() / 2
}

#[test]
fn run_is_the_records_since_the_last_table() {
    let calls = "put 3 01\nsend 4 5\nshow 3 0 00\n";
    assert_eq!(shown_of_run(PROGRAM), 0);
    assert_eq!(shown_of_run(&format!("{calls}{PROGRAM}")), 48);
    assert_eq!(shown_of_run(&format!("{PROGRAM}{calls}load -\n{PROGRAM}")), 48);
    assert_eq!(shown_of_run(&format!("{PROGRAM}{calls}audit 3 - 0 00\ndump\n")), 48);
    assert_eq!(shown_of_run(&format!("{PROGRAM}{calls}table\n{PROGRAM}{calls}send 3 3\n")), 64);
}

#[test]
fn a_dump_is_the_table() {
    let dump = hub::script::run(&format!("{PROGRAM}put 3 0a0b\ndump\n")).expect("commands");
    let dump = hub::hex::bytes(dump.lines().last().expect("a line").as_bytes()).expect("digits");
    assert_eq!(dump.len(), 3_952);
    assert_eq!(dump[3 * 57], 2);
    assert_eq!(dump[3 * 57 + 49..4 * 57], 2u64.to_le_bytes());
    assert_eq!(dump[32 * 57 + 3 * 64..][..3], [10, 11, 0]);
}

#[test]
fn two_runs() {
    for index in 0..300 {
        let pair = random_pair(&mut Rng::for_case(11, index));
        assert_eq!(check(&pair), Ok(()), "index {index}");
    }
}

/// Two lists of events for tag 5, both from this table: a program and an item that bear it in
/// slots 0 and 1, a program and an item without it in 2 and 3, a program and an item that bear
/// more in 4 and 5.
fn pair(a: &[Event], b: &[Event]) -> Pair {
    let mut start =
        hub_of(&[program(&[5]), item(&[5]), program(&[]), item(&[9]), program(&[5, 9]), item(&[5, 9])]);
    for slot in [0, 2, 4] {
        start.slots[slot].as_mut().unwrap().rights[ADD_S].insert(2);
    }
    let run = |events: &[Event]| Run { start: start.clone(), events: events.to_vec() };
    Pair { tag: 5, a: run(a), b: run(b) }
}

fn made(calls: &[Call]) -> Vec<Event> {
    calls.iter().cloned().map(Event::Call).collect()
}

fn previewed(calls: &[Call]) -> Vec<Event> {
    calls.iter().cloned().map(Event::Preview).collect()
}

/// The claim on two lists of calls, without previews.
fn claim(a: &[Call], b: &[Call]) -> Result<(), &'static str> {
    check(&pair(&made(a), &made(b)))
}

const DIFFER: Result<(), &str> = Err("premise: the lists differ in more");

#[test]
fn calls_of_items_that_bear_the_tag_may_differ() {
    let common = [Call::put(2, vec![7]), Call::fetch(2, 0), Call::show(3, vec![1; 9])];
    for bearer in [1, 5] {
        for other in [0, 1, 2, 3, 4, 5, 20, 31, 32, 255] {
            let calls = nine(bearer, other);
            assert_eq!(claim(&calls, &[]), Ok(()));
            assert_eq!(claim(&common, &[&calls[..4], &common, &calls].concat()), Ok(()));
            for call in calls {
                assert_eq!(claim(&[], &[call]), Ok(()));
            }
        }
    }
}

#[test]
fn no_other_calls_may_differ() {
    for caller in [2, 3, 20, 31, 32, 255] {
        for other in [0, 1, 2, 5, 20, 32] {
            for call in nine(caller, other) {
                assert_eq!(claim(&[call.clone()], &[]), DIFFER, "{call:?}");
            }
        }
    }
    for bearer in [0, 4] {
        let calls = nine(bearer, bearer);
        let (content, others) = calls.split_at(4);
        assert_eq!(claim(content, &[]), Ok(()));
        for call in others {
            assert_eq!(claim(&[], &[call.clone()]), DIFFER, "{call:?}");
        }
    }
}

#[test]
fn whether_a_call_may_differ_goes_by_the_table_that_it_gets() {
    let call = Call::send(20, 3);
    let create = |caller| Call::create(caller, 20, 1);
    assert_eq!(claim(&[create(0), call.clone()], &[create(0)]), Ok(()));
    assert_eq!(claim(&[call.clone(), create(0)], &[create(0)]), DIFFER, "not there yet");
    assert_eq!(claim(&[create(2), call.clone()], &[create(2)]), DIFFER, "without the tag");
    let gone = [create(0), Call::release(0, 20)];
    assert_eq!(claim(&[&gone[..], &[call]].concat(), &gone), DIFFER, "gone");
}

#[test]
fn previews_by_who_bears_the_tag_may_differ() {
    let common = made(&[Call::put(2, vec![7]), Call::fetch(2, 0)]);
    for bearer in [0, 1, 4, 5] {
        for other in [0, 1, 2, 3, 4, 5, 20, 31, 32, 255] {
            let previews = previewed(&nine(bearer, other));
            let more = [&previews[..4], &common, &previews].concat();
            assert_eq!(check(&pair(&common, &more)), Ok(()));
            assert_eq!(check(&pair(&previews, &more[..5])), DIFFER, "a call of 2");
            for preview in &previews {
                assert_eq!(check(&pair(&[], &[preview.clone()])), Ok(()));
                assert_eq!(check(&pair(&previews[..1], &[preview.clone()])), Ok(()));
            }
        }
    }
}

#[test]
fn no_other_previews_may_differ() {
    for caller in [2, 3, 20, 31, 32, 255] {
        for other in [0, 1, 2, 5, 20, 32] {
            for call in nine(caller, other) {
                let (call, preview) = (made(&[call.clone()]), previewed(&[call]));
                assert_eq!(check(&pair(&preview, &[])), DIFFER, "{call:?}");
                assert_eq!(check(&pair(&preview, &call)), DIFFER, "the call itself: {call:?}");
                let both = [&preview[..], &call].concat();
                assert_eq!(check(&pair(&both, &both)), Ok(()));
                let turned = [&call[..], &preview].concat();
                assert_eq!(check(&pair(&both, &turned)), DIFFER, "another order: {call:?}");
            }
        }
    }
}

#[test]
fn whether_a_preview_may_differ_goes_by_the_table_that_it_gets() {
    let preview = Event::Preview(Call::send(20, 3));
    let create = Call::create(0, 20, 1);
    let (created, only_asked) = (made(&[create.clone()]), previewed(&[create]));
    let then_preview = |events: &[Event]| [events, &[preview.clone()]].concat();
    assert_eq!(check(&pair(&created, &then_preview(&created))), Ok(()));
    assert_eq!(check(&pair(&only_asked, &then_preview(&only_asked))), DIFFER);
}

#[test]
fn answers_to_previews_are_watched_in_one_order_with_those_to_calls() {
    let hidden = Event::Preview(Call::hand(0, 2, 0, 2));
    let [first, second] = [Event::Preview(Call::send(2, 0)), Event::Call(Call::put(2, vec![1]))];
    let third = Event::Preview(Call::show(40, vec![2]));
    let a = [first.clone(), hidden.clone(), hidden.clone(), second.clone(), third.clone()];
    let b = [hidden, first, second, third];
    let (script, _, watch) = scripts(&pair(&a, &b));
    assert_eq!(watch, "tag 5\na 0 3 4\nb 1 2 3\n");
    let answered = "preview send 2 0\npreview hand 0 2 0 2\npreview hand 0 2 0 2\nput 2 01\n\
        preview show 40 1 02\ndump\n";
    assert!(script.contains(answered), "{script}");
}

#[test]
fn random_pairs_name_every_kind_of_caller() {
    const OTHERS_TAGS: &str = "on a slot with more tags";
    let mut counts: BTreeMap<(bool, &str, &str), usize> = BTreeMap::new();
    for index in 0..600 {
        let pair = random_pair(&mut Rng::for_case(12, index));
        for run in [pair.a, pair.b] {
            let mut hub = run.start;
            for event in run.events {
                let call = event.call();
                let own = hub.secrecy(call.caller);
                let hidden = own.contains(&pair.tag);
                let who = match hub.entity(call.caller) {
                    None if call.caller as usize >= SLOTS => "above 31",
                    None => "free",
                    Some(Entity { kind: Kind::Program, .. }) if hidden => "program with the tag",
                    Some(Entity { kind: Kind::Program, .. }) => "program without it",
                    Some(_) if hidden => "item with the tag",
                    Some(_) => "item without it",
                };
                let mut count =
                    |what| *counts.entry((event.is_preview(), who, what)).or_default() += 1;
                count(call.name.word());
                if call.other.is_some_and(|other| !hub.secrecy(other).is_subset(&own)) {
                    count(OTHERS_TAGS);
                }
                hub = event.on(&hub).0;
            }
        }
    }
    let any_call = ["above 31", "free", "item with the tag", "item without it"];
    let previewed_too = ["program with the tag", "program without it"];
    let made = any_call.map(|who| (false, who));
    let previewed = any_call.into_iter().chain(previewed_too).map(|who| (true, who));
    for (is_preview, who) in made.into_iter().chain(previewed) {
        for what in Name::ALL.map(Name::word).into_iter().chain([OTHERS_TAGS]) {
            let count = counts.get(&(is_preview, who, what));
            assert!(count > Some(&10), "{what} by {who}, previewed {is_preview}: {counts:?}");
        }
    }
}
