//! Checks of the conflict groups: what they tell, by hand, and nothing that stays.

use std::collections::BTreeMap;

use hub::call::Call;
use hub::generate::rng::Rng;
use hub::generate::scenes::script;
use hub::generate::world::{world, Numbers};
use hub::hub::check;
use hub::script::{run, State};

/// The groups {}, {0}, {0, 1}, {1, 2, 63} and {0, 1}, and three beyond the count, of all tags.
const GROUPS: &str = "\
groups 5 0000000000000000 0000000000000001 0000000000000003 8000000000000006 0000000000000003 \
ffffffffffffffff ffffffffffffffff ffffffffffffffff
";

/// What is held, and what a check tells.
const CHECKS: [(&str, &str); 12] = [
    ("0000000000000000", "0 keeps5"),
    ("0000000000000001", "0 keeps5"),
    ("8000000000000000", "0 keeps5"),
    ("0000000000000005", "0 keeps5"),
    ("8000000000000001", "0 keeps5"),
    ("7ffffffffffffff9", "0 keeps5"),
    ("0000000000000003", "0 breaks3"),
    ("8000000000000003", "0 breaks3"),
    ("ffffffffffffffff", "0 breaks3"),
    ("0000000000000006", "0 breaks4"),
    ("8000000000000004", "0 breaks4"),
    ("fffffffffffffffe", "0 breaks4"),
];

/// What a check tells beside the digest, where neither the table nor the list of records changes.
fn told(state: &mut State, held: &str) -> String {
    let before = (state.table.clone(), state.records.clone());
    let answer = state.line(&format!("check {held}")).expect("a command");
    assert_eq!((&state.table, &state.records), (&before.0, &before.1), "{held}");
    answer.trim_end().rsplit_once(' ').expect("a digest").0.to_string()
}

fn state(lines: &str) -> State {
    let mut state = State::start();
    for line in lines.lines() {
        state.line(line).expect("a command");
    }
    state
}

#[test]
fn the_first_broken_group_or_the_number_of_groups() {
    for (held, words) in CHECKS {
        assert_eq!(told(&mut state(&format!("put 0 01\n{GROUPS}")), held), format!("{words} - -"), "{held}");
    }
}

#[test]
fn without_groups_all_is_kept_and_none_is_counted() {
    let groups = GROUPS.replace("groups 5", "groups 0");
    for (held, _) in CHECKS {
        assert_eq!(told(&mut state(""), held), "0 keeps0 - -");
        assert_eq!(told(&mut state(&groups), held), "0 keeps0 - -");
    }
}

#[test]
fn on_a_table_that_lacks_the_form_none_is_counted_and_nothing_is_kept() {
    let counts = ["groups 9", "groups 255"].map(|count| GROUPS.replace("groups 5", count));
    for lacking in counts.iter().map(String::as_str).chain(["bytes 2047 01", "bytes 0 01"]) {
        for (held, _) in CHECKS {
            let state = &mut state(&format!("{GROUPS}put 0 01\n{lacking}"));
            assert_eq!(told(state, held), "99 breaks0 - -", "{held} {lacking}");
        }
    }
}

#[test]
fn a_hand_is_refused_by_11_where_the_check_of_the_union_breaks() {
    let mut counts: BTreeMap<(u8, usize), usize> = BTreeMap::new();
    for seed in 0..400 {
        let hub = world(&mut Rng::new(seed), 10, Numbers::Ones).hub;
        let programs: Vec<u8> = (0..32).filter(|slot| hub.program(*slot).is_some()).collect();
        let hands = programs.iter().flat_map(|caller| programs.iter().map(move |other| (*caller, *other)));
        for (caller, other) in hands {
            let (giver, receiver) = (hub.program(caller).unwrap(), hub.program(other).unwrap());
            for (right, tags) in giver.rights.iter().enumerate() {
                for tag in tags {
                    let mut union = receiver.tags();
                    union.insert(*tag);
                    let checked = check(&hub.groups, &union);
                    let number = hub.call(&Call::hand(caller, other, right as u8, *tag)).1.number;
                    assert_eq!(number, if checked.keeps { 0 } else { 11 }, "seed {seed}");
                    *counts.entry((number, checked.counted)).or_default() += 1;
                }
            }
        }
    }
    for place in 1..=4 {
        assert!(counts.get(&(11, place)) > Some(&20), "place {place}: {counts:?}");
    }
}

#[test]
fn generated_scripts_reach_checks_of_each_kind() {
    let mut counts: BTreeMap<String, usize> = BTreeMap::new();
    for seed in 0..120 {
        let mut state = State::start();
        for line in script(seed, 4, Numbers::Ones).lines() {
            match line.strip_prefix("check ") {
                Some(held) => *counts.entry(told(&mut state, held)).or_default() += 1,
                None => drop(state.line(line).expect("a command")),
            }
        }
    }
    for words in ["0 keeps0", "0 keeps1", "0 keeps8", "0 breaks1", "0 breaks2", "0 breaks3", "99 breaks0"] {
        let count = counts.get(&format!("{words} - -"));
        assert!(count > Some(&20), "{words}: {counts:?}");
    }
}

#[test]
fn a_check_is_of_one_set() {
    for line in ["check", "check ", "check -", "check 3 3", "checks 3", "Check 3", "preview check 3"] {
        assert_eq!(run(&format!("dump\n{line}\n")), Err(2), "{line:?}");
    }
}
