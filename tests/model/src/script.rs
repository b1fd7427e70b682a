//! Scripts of raw tables, calls, previews, checks and audits; SCRIPT.md has the format.

use crate::call::Call;
use crate::effect::Answer;
use crate::hex;
use crate::raw::{RawEntity, RawKind, Table, CONTENT_AREA};
use crate::text::load;

/// Runs a script and gives its output, or the number of a line that is no command.
pub fn run(script: &str) -> Result<String, usize> {
    let mut state = State::start();
    let mut output = String::new();
    for (index, line) in script.lines().enumerate() {
        output.push_str(&state.line(line).ok_or(index + 1)?);
    }
    Ok(output)
}

/// What the lines of a script have made so far.
pub struct State {
    pub table: Table,
    /// The list that `run` stands for in an audit.
    pub records: Vec<u8>,
}

impl State {
    pub fn start() -> State {
        State { table: Table::empty(), records: Vec::new() }
    }

    /// Runs one line and gives what it prints; none if it is no command.
    pub fn line(&mut self, line: &str) -> Option<String> {
        let words: Vec<&str> = line.split_whitespace().collect();
        match words.as_slice() {
            ["table"] => *self = State::start(),
            [] => {}
            [first, ..] if first.starts_with('#') => {}
            words => return set_up(&mut self.table, words).or_else(|| self.act(words)),
        }
        Some(String::new())
    }

    /// Commands that answer with one line.
    fn act(&mut self, words: &[&str]) -> Option<String> {
        let State { table, records } = self;
        Some(match words {
            ["dump"] => hex::digits(&table.bytes()) + "\n",
            ["audit", caller, list, length, fill] => {
                let list = if *list == "run" { records.clone() } else { bytes(list)? };
                let audit = table.audit(byte(caller)?, &list, &buffer(length, fill)?);
                answer_line(audit.number, "-", &audit.part, &audit.buffer, table)
            }
            ["load", text] => {
                let (number, line) = match load(&bytes(text)?) {
                    Ok((hub, _)) => {
                        *table = Table::of_hub(&hub);
                        (0, 0)
                    }
                    Err(refused) => {
                        *table = Table::empty();
                        (refused.number, refused.line)
                    }
                };
                answer_line(number, &format!("line{line}"), &[], &[], table)
            }
            ["preview", words @ ..] => {
                let answer = table.preview(&call(words)?);
                called_line(&answer, table)
            }
            ["check", held] => {
                let (number, checked) = table.check(word(held)?);
                let verdict = if checked.keeps { "keeps" } else { "breaks" };
                answer_line(number, &format!("{verdict}{}", checked.counted), &[], &[], table)
            }
            _ => {
                let (next, answer) = table.call(&call(words)?);
                *table = next;
                records.extend(answer.record);
                called_line(&answer, table)
            }
        })
    }
}

/// Commands that write a part of the table and print nothing.
fn set_up(table: &mut Table, words: &[&str]) -> Option<String> {
    match words {
        ["slot", slot, kind, s, i, sa, sd, ia, id, length] => {
            let entity = RawEntity {
                kind: match *kind {
                    "0" => RawKind::Free,
                    "1" => RawKind::Item,
                    "2" => RawKind::Program,
                    _ => return None,
                },
                secrecy: word(s)?,
                integrity: word(i)?,
                rights: [word(sa)?, word(sd)?, word(ia)?, word(id)?],
                length: byte(length)?,
            };
            *table.entities.get_mut(slot.parse::<usize>().ok()?)? = entity;
        }
        ["bytes", offset, data] => {
            let offset: usize = offset.parse().ok()?;
            let data = bytes(data)?;
            if offset + data.len() > CONTENT_AREA {
                return None;
            }
            table.content[offset..offset + data.len()].copy_from_slice(&data);
        }
        ["groups", count, words @ ..] if words.len() == table.groups.len() => {
            table.group_count = byte(count)?;
            for (group, text) in table.groups.iter_mut().zip(words) {
                *group = word(text)?;
            }
        }
        ["most", numbers @ ..] if numbers.len() == table.most.len() => {
            for (most, text) in table.most.iter_mut().zip(numbers) {
                *most = byte(text)?;
            }
        }
        _ => return None,
    }
    Some(String::new())
}

/// The line for a call or a preview, and the table after it.
fn called_line(answer: &Answer, table: &Table) -> String {
    let record = hex::digits(&answer.record);
    answer_line(answer.number, &record, &answer.part, &answer.buffer, table)
}

fn answer_line(number: u8, record: &str, part: &[u8], buffer: &[u8], table: &Table) -> String {
    let part = hex::digits_or_dash(part);
    let buffer = hex::digits_or_dash(buffer);
    format!("{number} {record} {part} {buffer} {:016x}\n", table.digest())
}

fn call(words: &[&str]) -> Option<Call> {
    Some(match words {
        ["put", caller, data] => Call::put(byte(caller)?, bytes(data)?),
        ["show", caller, length, fill] => Call::show(byte(caller)?, buffer(length, fill)?),
        ["send", caller, other] => Call::send(byte(caller)?, byte(other)?),
        ["fetch", caller, other] => Call::fetch(byte(caller)?, byte(other)?),
        ["add", caller, set, tag] => Call::add(byte(caller)?, byte(set)?, byte(tag)?),
        ["drop", caller, set, tag] => Call::drop(byte(caller)?, byte(set)?, byte(tag)?),
        ["create", caller, other, set] => Call::create(byte(caller)?, byte(other)?, byte(set)?),
        ["release", caller, other] => Call::release(byte(caller)?, byte(other)?),
        ["hand", caller, other, set, tag] => {
            Call::hand(byte(caller)?, byte(other)?, byte(set)?, byte(tag)?)
        }
        _ => return None,
    })
}

fn byte(text: &str) -> Option<u8> {
    text.parse().ok()
}

fn word(text: &str) -> Option<u64> {
    u64::from_str_radix(text, 16).ok()
}

fn bytes(text: &str) -> Option<Vec<u8>> {
    if text == "-" {
        Some(Vec::new())
    } else {
        hex::bytes(text.as_bytes())
    }
}

fn buffer(length: &str, fill: &str) -> Option<Vec<u8>> {
    let fill = u8::from_str_radix(fill, 16).ok()?;
    Some(vec![fill; length.parse().ok()?])
}
