//! The text loader: refusals 14 to 17.

use std::collections::BTreeMap;

use crate::call::{Call, Name};
use crate::hex;
use crate::hub::{Entity, Group, Hub, Kind, MOST_CONTENT, MOST_GROUPS, NUMBERS, SLOTS};
use crate::tags::{from_word, Tags};

/// The most bytes a text may have.
pub const MOST_TEXT: usize = 65_535;
/// The most bytes that a put of a text may have.
pub const MOST_PUT: usize = 255;
/// The length of the buffer lent to every show of a text.
pub const SHOW_BUFFER: usize = 64;

const LINE_END: u8 = 10;
const SPACE: u8 = b' ';

/// A refused text: the number and a line.
#[derive(Clone, Copy, PartialEq, Eq, Debug)]
pub struct Refused {
    pub number: u8,
    pub line: usize,
}

/// The number of a bad line.
type BadLine = usize;

/// Loads a text: its table and its calls.
pub fn load(text: &[u8]) -> Result<(Hub, Vec<Call>), Refused> {
    if text.len() > MOST_TEXT {
        return Err(Refused { number: 14, line: 0 });
    }
    let mut form = Form::default();
    let bad_line = read_form(text, &mut form).err();
    if let Some(line) = bad_line {
        return Err(Refused { number: 15, line });
    }
    if let Some(line) = slot_named_twice(&form) {
        return Err(Refused { number: 16, line });
    }
    if let Some(line) = breaking_entity(&form) {
        return Err(Refused { number: 17, line });
    }
    let mut hub = Hub::empty();
    for row in form.entities {
        hub.slots[row.slot as usize] = Some(row.entity);
    }
    hub.groups = form.groups;
    Ok((hub, form.calls))
}

/// The first line whose slot an earlier line names.
fn slot_named_twice(form: &Form) -> Option<usize> {
    let rows = &form.entities;
    (0..rows.len())
        .find(|&n| rows[..n].iter().any(|earlier| earlier.slot == rows[n].slot))
        .map(|n| rows[n].line)
}

/// The line of the first entity that breaks a group.
fn breaking_entity(form: &Form) -> Option<usize> {
    let breaks = |row: &&EntityRow| !row.entity.keeps_to(&form.groups);
    form.entities.iter().find(breaks).map(|row| row.line)
}

/// An entity line.
struct EntityRow {
    line: usize,
    slot: u8,
    entity: Entity,
}

/// What a text of the right form says.
#[derive(Default)]
struct Form {
    entities: Vec<EntityRow>,
    groups: Vec<Group>,
    calls: Vec<Call>,
}

#[derive(Clone, Copy, PartialEq, Eq)]
enum Block {
    Entities,
    Groups,
    Calls,
}

impl Block {
    /// The block's column names. The groups may have a second one.
    fn names(self) -> &'static [&'static [&'static str]] {
        match self {
            Block::Entities => &[&["slot", "kind", "sec", "int", "sa", "sd", "ia", "id", "data"]],
            Block::Groups => &[&["tags"], &["tags", "most"]],
            Block::Calls => &[&["call", "caller", "other", "set", "tag", "data"]],
        }
    }

    /// The block after an empty line; the calls are the last.
    fn next(self) -> Option<Block> {
        match self {
            Block::Entities => Some(Block::Groups),
            Block::Groups => Some(Block::Calls),
            Block::Calls => None,
        }
    }
}

/// Reads the lines in order up to the first bad one, whose number is the error.
fn read_form(text: &[u8], form: &mut Form) -> Result<(), BadLine> {
    let mut lines: Vec<&[u8]> = text.split(|byte| *byte == LINE_END).collect();
    let unended = lines.pop().unwrap_or_default();

    let mut block = Block::Entities;
    let mut columns: Option<Vec<&'static str>> = None;
    let mut line = 0;
    for content in lines {
        line += 1;
        match &columns {
            None => columns = Some(read_any_names(content, block.names()).ok_or(line)?),
            Some(_) if content.is_empty() => {
                block = block.next().ok_or(line)?;
                columns = None;
            }
            Some(columns) => {
                let row = read_row(content, columns).ok_or(line)?;
                match block {
                    Block::Entities => form.entities.push(entity_row(&row, line).ok_or(line)?),
                    Block::Groups if form.groups.len() == MOST_GROUPS => return Err(line),
                    Block::Groups => form.groups.push(group_row(&row).ok_or(line)?),
                    Block::Calls => form.calls.push(call_row(&row).ok_or(line)?),
                }
            }
        }
    }

    let missing_block = block != Block::Calls || columns.is_none();
    if !unended.is_empty() || missing_block {
        return Err(line + 1);
    }
    Ok(())
}

fn fields(line: &[u8]) -> Vec<&[u8]> {
    line.split(|byte| *byte == SPACE).collect()
}

/// The columns in the order of a line of names, by the names that it has.
fn read_any_names(line: &[u8], choices: &[&[&'static str]]) -> Option<Vec<&'static str>> {
    choices.iter().find_map(|names| read_names(line, names))
}

/// The columns in the order of a line of names: any order, each name once.
fn read_names(line: &[u8], names: &[&'static str]) -> Option<Vec<&'static str>> {
    let fields = fields(line);
    let each_once = names.iter().all(|name| count(&fields, name) == 1);
    if fields.len() != names.len() || !each_once {
        return None;
    }
    fields.iter().map(|field| names.iter().copied().find(|name| name.as_bytes() == *field)).collect()
}

fn count(fields: &[&[u8]], name: &str) -> usize {
    fields.iter().filter(|field| **field == name.as_bytes()).count()
}

type Row<'a> = BTreeMap<&'static str, &'a [u8]>;

/// A line of values, one for each column.
fn read_row<'a>(line: &'a [u8], columns: &[&'static str]) -> Option<Row<'a>> {
    let fields = fields(line);
    if fields.len() != columns.len() {
        return None;
    }
    Some(columns.iter().copied().zip(fields).collect())
}

fn entity_row(row: &Row, line: usize) -> Option<EntityRow> {
    let slot = decimal(row["slot"], SLOTS as u64 - 1)?;
    let kind = match row["kind"] {
        b"item" => Kind::Item,
        b"prog" => Kind::Program,
        _ => return None,
    };
    let secrecy = set(row["sec"])?;
    let integrity = set(row["int"])?;
    let rights = [set(row["sa"])?, set(row["sd"])?, set(row["ia"])?, set(row["id"])?];
    let content = data(row["data"], MOST_CONTENT)?;
    if kind == Kind::Item && rights.iter().any(|right| !right.is_empty()) {
        return None;
    }
    let entity = Entity { kind, secrecy, integrity, rights, content };
    Some(EntityRow { line, slot, entity })
}

/// A group, whose number is 1 where the block has no column for it.
fn group_row(row: &Row) -> Option<Group> {
    let tags = set(row["tags"])?;
    let most = match row.get("most") {
        Some(field) => decimal(field, 255)?,
        None => 1,
    };
    NUMBERS.contains(&most).then_some(Group { tags, most })
}

fn call_row(row: &Row) -> Option<Call> {
    let name = Name::ALL.into_iter().find(|name| name.word().as_bytes() == row["call"])?;
    let caller = decimal(row["caller"], 255)?;
    let other = call_field(row["other"], name.uses_other())?;
    let set = call_field(row["set"], name.uses_set())?;
    let tag = call_field(row["tag"], name.uses_tag())?;
    let most = if name == Name::Put { MOST_PUT } else { 0 };
    let bytes = data(row["data"], most)?;
    let buffer = if name == Name::Show { vec![0; SHOW_BUFFER] } else { Vec::new() };
    Some(Call { name, caller, other, set, tag, bytes, buffer })
}

/// A number where the call uses the field, else `-`.
fn call_field(field: &[u8], used: bool) -> Option<Option<u8>> {
    if used {
        decimal(field, 255).map(Some)
    } else if field == b"-" {
        Some(None)
    } else {
        None
    }
}

/// A decimal number from 0 to `most` without leading zeros.
fn decimal(field: &[u8], most: u64) -> Option<u8> {
    let text = std::str::from_utf8(field).ok()?;
    let only_digits = text.bytes().all(|byte| byte.is_ascii_digit());
    let leading_zero = text.len() > 1 && text.starts_with('0');
    if !only_digits || leading_zero {
        return None;
    }
    let value: u64 = text.parse().ok()?;
    if value <= most { u8::try_from(value).ok() } else { None }
}

/// A set: 1 to 16 lower-case hexadecimal digits, leading zeros allowed.
fn set(field: &[u8]) -> Option<Tags> {
    if field.is_empty() || field.len() > 16 {
        return None;
    }
    let mut word: u64 = 0;
    for byte in field {
        word = word * 16 + u64::from(hex::digit(*byte)?);
    }
    Some(from_word(word))
}

/// Data: `-` for empty, or two lower-case hexadecimal digits a byte.
fn data(field: &[u8], most: usize) -> Option<Vec<u8>> {
    if field == b"-" {
        return Some(Vec::new());
    }
    let bytes = hex::bytes(field)?;
    if bytes.is_empty() || bytes.len() > most { None } else { Some(bytes) }
}
