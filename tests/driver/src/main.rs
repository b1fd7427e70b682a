//! Reads a script, runs its commands on the library that C and Rust link, and writes their answers. The format is that
//! of tests/model/SCRIPT.md. It shares no code with the model, which builds without the library.

use hub::{digits, Reply, Slot, Table, CONTENT, SLOTS};
use std::fmt::Write as _;
use std::io::{self, Read, Write};
use std::process::exit;

fn main() -> io::Result<()> {
    let mut script = String::new();
    io::stdin().read_to_string(&mut script)?;
    let mut state = State { table: Table::empty(), records: Vec::new(), output: String::new() };
    let bad = script.lines().position(|line| state.command(line).is_none());
    io::stdout().write_all(state.output.as_bytes())?;
    if let Some(index) = bad {
        eprintln!("line {} is no command", index + 1);
        exit(2);
    }
    Ok(())
}

struct State {
    table: Table,
    /// The list that `run` stands for in an audit.
    records: Vec<u8>,
    output: String,
}

impl State {
    /// Runs one line; none if it is no command.
    fn command(&mut self, line: &str) -> Option<()> {
        if line.is_empty() || line.starts_with('#') {
            return Some(());
        }
        let words: Vec<&str> = line.split(' ').collect();
        match words[..] {
            ["table"] => {
                self.table = Table::empty();
                self.records.clear();
            }
            ["slot", at, kind, ref sets @ .., len] => {
                let entity = Slot {
                    kind: number(kind, 2)? as u8,
                    secrecy: set(sets.first()?)?,
                    integrity: set(sets.get(1)?)?,
                    rights: all_sets(sets.get(2..)?)?,
                    len: number(len, 255)?,
                };
                self.table.slots[number(at, SLOTS - 1)?] = entity;
            }
            ["bytes", at, data] => {
                let data = bytes(data)?;
                let at = number(at, SLOTS * CONTENT)?;
                self.table.content.get_mut(at..at + data.len())?.copy_from_slice(&data);
            }
            ["groups", count, ref sets @ ..] => {
                self.table.groups = all_sets(sets)?;
                self.table.count = number(count, 255)?;
            }
            ["most", ref numbers @ ..] => {
                let most: Option<Vec<u8>> = numbers.iter().map(|word| byte(word)).collect();
                self.table.most = most?.try_into().ok()?;
            }
            ["dump"] => {
                let line = digits(&table_bytes(&self.table));
                self.output += &line;
                self.output.push('\n');
            }
            ["load", text] => {
                let loaded = hub::load(&bytes(text)?);
                self.table = loaded.table;
                self.answer(loaded.number, &format!("line{}", loaded.line), &[], &[]);
            }
            ["audit", caller, list, room, fill] => {
                let list = if list == "run" { self.records.clone() } else { bytes(list)? };
                let mut buffer = lent(room, fill)?;
                let audited = self.table.audit(byte(caller)?, &list, &mut buffer);
                self.answer(audited.number, "-", &buffer[..audited.len], &buffer);
            }
            // the very function of the call, whose table and record are not kept
            ["preview", ref words @ ..] => {
                let called = call(self.table, words)?;
                self.answer_call(&called);
            }
            ["check", held] => {
                let checked = self.table.check(set(held)?);
                let verdict = if checked.keeps { "keeps" } else { "breaks" };
                self.answer(checked.number, &format!("{verdict}{}", checked.counted), &[], &[]);
            }
            _ => {
                let called = call(self.table, &words)?;
                self.table = called.reply.table;
                self.records.extend(called.reply.record);
                self.answer_call(&called);
            }
        }
        Some(())
    }

    fn answer_call(&mut self, called: &Called) {
        let Called { reply, buffer, shown } = called;
        self.answer(reply.number, &digits(&reply.record), &buffer[..*shown], buffer);
    }

    fn answer(&mut self, number: u8, record: &str, part: &[u8], buffer: &[u8]) {
        let digest = digest(&table_bytes(&self.table));
        let (part, buffer) = (or_dash(part), or_dash(buffer));
        writeln!(self.output, "{number} {record} {part} {buffer} {digest:016x}").unwrap();
    }
}

/// What a call handed back, the buffer that a show was lent, and how many bytes it was filled with.
struct Called {
    reply: Reply,
    buffer: Vec<u8>,
    shown: usize,
}

fn call(table: Table, words: &[&str]) -> Option<Called> {
    let mut buffer = Vec::new();
    let reply = match *words {
        ["put", caller, data] => table.put(byte(caller)?, &bytes(data)?),
        ["show", caller, room, fill] => {
            buffer = lent(room, fill)?;
            table.show(byte(caller)?, &mut buffer)
        }
        ["send", caller, other] => table.send(byte(caller)?, byte(other)?),
        ["fetch", caller, other] => table.fetch(byte(caller)?, byte(other)?),
        ["add", caller, set, tag] => table.add(byte(caller)?, byte(set)?, byte(tag)?),
        ["drop", caller, set, tag] => table.drop(byte(caller)?, byte(set)?, byte(tag)?),
        ["create", caller, other, set] => table.create(byte(caller)?, byte(other)?, byte(set)?),
        ["release", caller, other] => table.release(byte(caller)?, byte(other)?),
        ["hand", caller, other, set, tag] => {
            table.hand(byte(caller)?, byte(other)?, byte(set)?, byte(tag)?)
        }
        _ => return None,
    };
    let shown = if words[0] == "show" { reply.record[4] as usize } else { 0 };
    Some(Called { reply, buffer, shown })
}

// ---- fields

/// A decimal number up to a limit.
fn number(word: &str, most: usize) -> Option<usize> {
    let plain = word.bytes().all(|b| b.is_ascii_digit());
    word.parse().ok().filter(|n| plain && *n <= most)
}

fn byte(word: &str) -> Option<u8> {
    Some(number(word, 255)? as u8)
}

/// Two lower-case digits a byte; `-` for no bytes.
fn bytes(word: &str) -> Option<Vec<u8>> {
    if word == "-" {
        return Some(Vec::new());
    }
    if word.is_empty() || word.len() % 2 != 0 || !is_hex(word) {
        return None;
    }
    (0..word.len()).step_by(2).map(|at| u8::from_str_radix(&word[at..at + 2], 16).ok()).collect()
}

fn is_hex(word: &str) -> bool {
    word.bytes().all(|b| b.is_ascii_digit() || (b'a'..=b'f').contains(&b))
}

fn set(word: &str) -> Option<u64> {
    u64::from_str_radix(word, 16).ok().filter(|_| word.len() == 16 && is_hex(word))
}

fn all_sets<const N: usize>(words: &[&str]) -> Option<[u64; N]> {
    let sets: Option<Vec<u64>> = words.iter().map(|word| set(word)).collect();
    sets?.try_into().ok()
}

/// A buffer of so many bytes, each the same.
fn lent(room: &str, fill: &str) -> Option<Vec<u8>> {
    let fill = bytes(fill).filter(|bytes| bytes.len() == 1)?;
    Some(vec![fill[0]; number(room, 1 << 20)?])
}

// ---- answers

fn or_dash(bytes: &[u8]) -> String {
    if bytes.is_empty() {
        "-".to_string()
    } else {
        digits(bytes)
    }
}

/// The table as the bytes that a digest is taken over.
fn table_bytes(table: &Table) -> Vec<u8> {
    let mut bytes = Vec::new();
    for slot in &table.slots {
        bytes.push(slot.kind);
        for number in [slot.secrecy, slot.integrity].into_iter().chain(slot.rights) {
            bytes.extend(number.to_le_bytes());
        }
        bytes.extend((slot.len as u64).to_le_bytes());
    }
    bytes.extend(table.content);
    bytes.extend((table.count as u64).to_le_bytes());
    for group in table.groups {
        bytes.extend(group.to_le_bytes());
    }
    bytes.extend(table.most);
    bytes
}

/// FNV-1a, 64 bits.
fn digest(bytes: &[u8]) -> u64 {
    bytes.iter().fold(0xcbf2_9ce4_8422_2325, |sum, byte| {
        (sum ^ u64::from(*byte)).wrapping_mul(0x0000_0100_0000_01b3)
    })
}
