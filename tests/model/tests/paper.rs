//! The paper's own examples.

use hub::call::Call;
use hub::hub::{Entity, Group, Hub, Kind, DROP_S};
use hub::record::Record;
use hub::tags::Tags;

const ROUND: &str = "\
slot kind sec int sa sd ia id data
0 prog 1 0 0 0 0 0 a1b2
1 prog 0 0 1 0 0 0 -
2 item 0 0 0 0 0 0 07

tags
3

call caller other set tag data
fetch 1 0 - - -
add 1 - 0 0 -
fetch 1 0 - - -
show 1 - - - -
send 1 2 - - -
drop 1 - 0 0 -
";

const PRINTED: &str = "\
record data
0401000700ffff000100000000000000 -
0501ff00000000000100000000000000 -
0401000002ffff000100000000000000 -
0201ff0002ffff000100000000000000 a1b2
0301020700ffff000100000000000000 -
0601ff0a000000000100000000000000 -
";

#[test]
fn the_watering_round_prints_what_the_paper_prints() {
    assert_eq!(hub::hubcalls::output(ROUND.as_bytes()), PRINTED);
}

fn program(secrecy: &[u8], integrity: &[u8]) -> Entity {
    Entity::new(Kind::Program, tags(secrecy), tags(integrity))
}

fn tags(tags: &[u8]) -> Tags {
    tags.iter().copied().collect()
}

fn hub_of(entities: &[Entity]) -> Hub {
    let mut hub = Hub::empty();
    for (slot, entity) in entities.iter().enumerate() {
        hub.slots[slot] = Some(entity.clone());
    }
    hub
}

/// The number that a call returns.
fn number(hub: &Hub, call: Call) -> u8 {
    hub.call(&call).1.number
}

#[test]
fn p1_to_p4_flow() {
    let low_high = hub_of(&[program(&[0], &[]), program(&[0, 1], &[])]);
    assert_eq!(number(&low_high, Call::send(0, 1)), 0, "P1");
    assert_eq!(number(&low_high, Call::send(1, 0)), 7, "P2");
    let plain_trusted = hub_of(&[program(&[], &[]), program(&[], &[2])]);
    assert_eq!(number(&plain_trusted, Call::send(0, 1)), 7, "P3");
    assert_eq!(number(&plain_trusted, Call::send(1, 0)), 0, "P4");
}

#[test]
fn p5_send_to_itself() {
    let mut hub = hub_of(&[program(&[0], &[])]);
    hub.slots[0].as_mut().unwrap().content = vec![9; 64];
    let (next, answer) = hub.call(&Call::send(0, 0));
    assert_eq!((answer.number, answer.record[4]), (0, 64), "P5");
    assert_eq!(next, hub);
}

#[test]
fn p6_to_p8_labels() {
    let mut hub = hub_of(&[program(&[], &[])]);
    hub.slots[0].as_mut().unwrap().rights[hub::hub::ADD_S].insert(63);
    let (next, answer) = hub.call(&Call::add(0, 0, 63));
    assert_eq!(answer.number, 0, "P6");
    assert!(next.entity(0).unwrap().secrecy.contains(&63));
    assert_eq!(number(&hub, Call::add(0, 0, 64)), 2, "P7");
    assert_eq!(number(&hub, Call::drop(0, 0, 5)), 10, "P8");
}

#[test]
fn p9_and_p10_put() {
    let hub = hub_of(&[program(&[], &[])]);
    assert_eq!(number(&hub, Call::put(0, vec![1; 64])), 0, "P9");
    assert_eq!(number(&hub, Call::put(0, vec![1; 65])), 5, "P10");
}

#[test]
fn p11_and_p12_hand() {
    let mut caller = program(&[], &[]);
    caller.rights[DROP_S] = tags(&[1]);
    let mut hub = hub_of(&[caller, program(&[0], &[])]);
    hub.groups = vec![Group { tags: tags(&[0, 1]), most: 1 }];
    assert_eq!(number(&hub, Call::hand(0, 1, 1, 1)), 11, "P11");
    hub.groups[0].most = 2;
    assert_eq!(number(&hub, Call::hand(0, 1, 1, 1)), 0, "P11 with an allowance of 2");
    hub.slots[0].as_mut().unwrap().rights[DROP_S] = tags(&[0]);
    for most in [1, 2] {
        hub.groups[0].most = most;
        assert_eq!(number(&hub, Call::hand(0, 1, 1, 0)), 0, "P12");
    }
}

#[test]
fn p13_and_p14_show() {
    let mut hub = hub_of(&[program(&[], &[])]);
    hub.slots[0].as_mut().unwrap().content = vec![1, 2, 3];
    let refused = hub.call(&Call::show(0, vec![7; 2])).1;
    assert_eq!((refused.number, refused.part, refused.buffer), (6, vec![], vec![7; 2]), "P13");
    let shown = hub.call(&Call::show(0, vec![7; 3])).1;
    assert_eq!((shown.number, shown.part, shown.buffer), (0, vec![1, 2, 3], vec![1, 2, 3]), "P14");
}

#[test]
fn the_failed_calls_of_a_probe_are_not_in_every_growers_audit() {
    let probe = Entity { kind: Kind::Item, ..program(&[0], &[]) };
    let growers = [program(&[0], &[]), program(&[1], &[]), program(&[], &[]), program(&[0, 1], &[])];
    let mut hub = hub_of(&growers);
    hub.slots[9] = Some(probe);
    let calls = [Call::put(9, vec![21]), Call::send(9, 1), Call::put(8, vec![21]), Call::fetch(40, 9)];
    let (end, answers) = hub.run(&calls);
    assert_eq!(end, hub);
    let numbers: Vec<u8> = answers.iter().map(|answer| answer.number).collect();
    assert_eq!(numbers, [1, 1, 1, 1]);
    let records: Vec<Record> = answers.iter().map(|answer| answer.record).collect();
    let list = records.concat();
    let shown = |auditor| end.audit(auditor, &list, &[0; 64]).part;
    assert_eq!(shown(0), list, "the probe's grower");
    assert_eq!(shown(1), records[2..].concat(), "a free slot's and a too high one's");
    assert_eq!(shown(2), records[2..].concat());
    assert_eq!(shown(3), list);
}
