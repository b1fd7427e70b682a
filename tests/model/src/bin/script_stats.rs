//! script_stats DIRECTORY
//!
//! Counts what the scripts (*.script) of a directory reach: numbers by command, what stands in
//! the callers' slots, ways to lack the form, lengths of buffers, kinds of lists, previews that
//! their calls follow, and what checks tell.

use std::collections::BTreeMap;
use std::{env, fs};

use hub::generate::scenes::caller_words;
use hub::hex;
use hub::hub::{MOST_CONTENT, MOST_GROUPS, NUMBERS};
use hub::raw::{RawKind, Table};
use hub::record::LENGTH;
use hub::script::State;

type Counts = BTreeMap<String, usize>;

/// What stands before a call that is only previewed.
const PREVIEW: &str = "preview ";

fn main() {
    let directory = env::args().nth(1).expect("a directory");
    let mut counts = Counts::new();
    let (mut scripts, mut longest) = (0, 0);
    for entry in fs::read_dir(directory).expect("a directory") {
        let path = entry.expect("an entry").path();
        if path.extension().is_none_or(|extension| extension != "script") {
            continue;
        }
        let script = fs::read_to_string(path).expect("a script");
        scripts += 1;
        longest = longest.max(script.len());
        let mut state = State::start();
        for line in script.lines() {
            count_line(&mut counts, &mut state, line);
        }
        let lines: Vec<&str> = script.lines().collect();
        let is_of_the_next = |two: &&[&str]| two[0].strip_prefix(PREVIEW) == Some(two[1]);
        let followed = lines.windows(2).filter(is_of_the_next).count();
        *counts.entry("previews directly before their call".to_string()).or_default() += followed;
    }
    println!("{scripts} scripts, the longest of {longest} bytes");
    for (what, count) in counts {
        println!("{what}: {count}");
    }
}

fn count_line(counts: &mut Counts, state: &mut State, line: &str) {
    let mut count = |what: String| *counts.entry(what).or_default() += 1;
    let (table, run) = (state.table.clone(), state.records.clone());
    let answer = state.line(line).expect("a command");
    let (how, made) = line.strip_prefix(PREVIEW).map_or(("", line), |call| (", previewed", call));
    let words: Vec<&str> = made.split(' ').collect();
    let command = words[0];
    if answer.is_empty() {
        return;
    }
    if command != "load" {
        for way in lacks(&table) {
            let who = if ["audit", "check", "dump"].contains(&command) { command } else { "call" };
            count(format!("lacks the form, {way}: {who}{how}"));
        }
    }
    if command == "dump" {
        return count("dump".to_string());
    }
    let answer: Vec<&str> = answer.trim_end().split(' ').collect();
    let number: u8 = answer[0].parse().expect("a number");
    count(format!("number {number:02}"));
    count(format!("number {number:02} of {command}{how}"));
    if command == "check" {
        return count(format!("check: {}", answer[1]));
    }
    if !["audit", "load"].contains(&command) {
        let caller = caller_words(&table, words[1].parse().expect("a slot"));
        let number = if number == 99 { "99" } else { "00 to 11" };
        count(format!("number {number} for {caller}{how}"));
    }
    let length = |hex: &str| if hex == "-" { 0 } else { hex.len() / 2 };
    let (part, buffer) = (length(answer[2]), length(answer[3]));
    let fit = match number {
        0 if part == buffer && part == 0 => "exact, no bytes",
        0 if part == buffer => "exact",
        0 => "longer",
        6 | 13 => "too short",
        _ => "not used",
    };
    if command == "show" {
        count(format!("buffer of show{how}: {fit}"));
    }
    if command == "audit" {
        let made = if words[2] == "run" { "run" } else { "made by hand" };
        let list = match words[2] {
            "run" => run,
            "-" => vec![],
            digits => hex::bytes(digits.as_bytes()).expect("bytes"),
        };
        let caller: usize = words[1].parse().expect("a slot");
        count(format!("buffer of audit, {made}: {fit}"));
        if list.is_empty() {
            count(format!("list {made}: empty"));
        }
        if list.len() % LENGTH != 0 {
            count(format!("list {made}: no multiple of 16"));
        }
        if number == 0 && part == buffer && part < list.len() && part > 0 {
            count(format!("list {made}: longer than the buffer that just fits"));
        }
        if number == 13 || number == 0 {
            let secrecy = table.entities[caller].secrecy;
            let mut visible = 0;
            for record in list.chunks_exact(LENGTH) {
                let need = u64::from_le_bytes(record[8..].try_into().expect("eight bytes"));
                let (how, seen) = match need {
                    0 => ("none", true),
                    _ if need == secrecy => ("all of S", true),
                    _ if need & !secrecy == 0 => ("within S", true),
                    _ if need & secrecy == 0 => ("apart from S", false),
                    _ => ("beyond S", false),
                };
                visible += if seen { LENGTH } else { 0 };
                count(format!("need of a record {made}: {how}"));
            }
            match visible - buffer.min(visible) {
                1 => count(format!("buffer of audit, {made}: a byte short")),
                LENGTH => count(format!("buffer of audit, {made}: a record short")),
                _ => {}
            }
        }
    }
}

/// The ways in which a table lacks the form.
fn lacks(table: &Table) -> Vec<&'static str> {
    let mut ways = Vec::new();
    if table.group_count as usize > MOST_GROUPS {
        ways.push("more than 8 groups");
    }
    if table.most.iter().take(table.group_count as usize).any(|most| !NUMBERS.contains(most)) {
        ways.push("a number outside 1 to 64");
    }
    for (entity, area) in table.entities.iter().zip(table.content.chunks(MOST_CONTENT)) {
        let length = entity.length as usize;
        let free = entity.kind == RawKind::Free;
        let right = entity.rights != [0; 4];
        let checks = [
            (length > MOST_CONTENT, "a length over 64"),
            (area.iter().skip(length).any(|byte| *byte != 0), "bytes beyond a length"),
            (entity.kind == RawKind::Item && right, "an item with a right"),
            (free && entity.secrecy | entity.integrity != 0, "a free slot with a tag"),
            (free && right, "a free slot with a right"),
            (free && (length != 0 || area != [0; MOST_CONTENT]), "a free slot with content"),
        ];
        ways.extend(checks.iter().filter(|(lacks, _)| *lacks).map(|(_, way)| way));
    }
    ways
}
