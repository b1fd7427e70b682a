//! Texts as blocks of fields, and whole rounds.

use super::rng::Rng;
use super::world::{call, world, Numbers, World};
use crate::call::Call;
use crate::hex;
use crate::hub::{Entity, Hub, Kind};
use crate::tags::to_word;
use crate::text::SHOW_BUFFER;

pub const ENTITIES: usize = 0;
pub const GROUPS: usize = 1;
pub const CALLS: usize = 2;

/// The names of the three blocks in the paper's order.
pub const NAMES: [&str; 3] =
    ["slot kind sec int sa sd ia id data", "tags", "call caller other set tag data"];

/// The names of the groups where they have numbers.
pub const WITH_NUMBERS: &str = "tags most";

/// A block: its names in the order of the text, and rows in the same order.
#[derive(Clone)]
pub struct Sheet {
    pub names: Vec<String>,
    pub rows: Vec<Vec<String>>,
}

impl Sheet {
    fn new(rng: &mut Rng, names: &str) -> Sheet {
        let mut names: Vec<String> = names.split(' ').map(String::from).collect();
        if rng.chance(80) {
            rng.shuffle(&mut names);
        }
        Sheet { names, rows: Vec::new() }
    }

    /// A row given in the paper's order, put into the order of the text.
    pub fn ordered(&self, block: usize, row: &str) -> Vec<String> {
        let fields: Vec<&str> = row.split(' ').collect();
        let names = if block == GROUPS { WITH_NUMBERS } else { NAMES[block] };
        let paper: Vec<&str> = names.split(' ').collect();
        self.names
            .iter()
            .map(|name| fields[paper.iter().position(|n| n == name).expect("a name of the paper")])
            .map(String::from)
            .collect()
    }
}

#[derive(Clone)]
pub struct Draft {
    pub sheets: [Sheet; 3],
}

impl Draft {
    pub fn new(rng: &mut Rng, numbers: Numbers) -> Draft {
        let mut names = NAMES;
        if numbers == Numbers::Near {
            names[GROUPS] = WITH_NUMBERS;
        }
        Draft { sheets: names.map(|names| Sheet::new(rng, names)) }
    }

    /// Adds a row given in the paper's order.
    pub fn push(&mut self, block: usize, row: &str) {
        let row = self.sheets[block].ordered(block, row);
        self.sheets[block].rows.push(row);
    }

    pub fn insert(&mut self, block: usize, at: usize, row: &str) {
        let row = self.sheets[block].ordered(block, row);
        self.sheets[block].rows.insert(at, row);
    }

    /// The lines without their ends.
    pub fn lines(&self) -> Lines {
        let mut lines = Lines { lines: vec![], names: [0; 3], rows: [(); 3].map(|_| vec![]) };
        for (block, sheet) in self.sheets.iter().enumerate() {
            if block > 0 {
                lines.lines.push(Vec::new());
            }
            lines.names[block] = lines.lines.len();
            lines.lines.push(sheet.names.join(" ").into_bytes());
            for row in &sheet.rows {
                lines.rows[block].push(lines.lines.len());
                lines.lines.push(row.join(" ").into_bytes());
            }
        }
        lines
    }

    pub fn text(&self) -> Vec<u8> {
        self.lines().text()
    }
}

/// A text's lines, with the indexes of each block's names and rows.
#[derive(Clone)]
pub struct Lines {
    pub lines: Vec<Vec<u8>>,
    pub names: [usize; 3],
    pub rows: [Vec<usize>; 3],
}

impl Lines {
    /// Every line ended by byte 10.
    pub fn text(&self) -> Vec<u8> {
        self.lines.iter().flat_map(|line| line.iter().copied().chain([10])).collect()
    }
}

/// A set with a random number of leading zeros.
pub fn set_field(rng: &mut Rng, word: u64) -> String {
    let width = if rng.chance(70) { 1 } else { rng.between(1, 16) };
    format!("{word:0width$x}")
}

pub fn entity_fields(rng: &mut Rng, slot: usize, entity: &Entity) -> String {
    let kind = if entity.kind == Kind::Item { "item" } else { "prog" };
    let sets: Vec<String> = [&entity.secrecy, &entity.integrity]
        .into_iter()
        .chain(&entity.rights)
        .map(|tags| set_field(rng, to_word(tags)))
        .collect();
    format!("{slot} {kind} {} {}", sets.join(" "), hex::digits_or_dash(&entity.content))
}

pub fn call_fields(call: &Call) -> String {
    let field = |value: Option<u8>| value.map_or("-".to_string(), |n| n.to_string());
    format!(
        "{} {} {} {} {} {}",
        call.name.word(),
        call.caller,
        field(call.other),
        field(call.set),
        field(call.tag),
        hex::digits_or_dash(&call.bytes)
    )
}

/// The draft of a hub's entities, in random order, and of its groups.
fn hub_draft(rng: &mut Rng, hub: &Hub, numbers: Numbers) -> Draft {
    let mut draft = Draft::new(rng, numbers);
    let mut rows: Vec<String> = hub
        .slots
        .iter()
        .enumerate()
        .filter_map(|(slot, entity)| Some(entity_fields(rng, slot, entity.as_ref()?)))
        .collect();
    rng.shuffle(&mut rows);
    for row in rows {
        draft.push(ENTITIES, &row);
    }
    for group in &hub.groups {
        let tags = set_field(rng, to_word(&group.tags));
        draft.push(GROUPS, &format!("{tags} {}", group.most));
    }
    draft
}

/// The draft of a text that is accepted, with calls that suit its table.
pub fn round_draft(rng: &mut Rng, numbers: Numbers, entities: usize, calls: usize) -> Draft {
    let World { mut hub, pool } = world(rng, entities, numbers);
    let mut draft = hub_draft(rng, &hub, numbers);
    for _ in 0..calls {
        let call = call(rng, &hub, &pool, SHOW_BUFFER);
        draft.push(CALLS, &call_fields(&call));
        hub = hub.call(&call).0;
    }
    draft
}

/// The text of a rich round.
pub fn round(rng: &mut Rng, numbers: Numbers) -> Vec<u8> {
    let few = rng.between(0, 3);
    let some = rng.between(4, 14);
    let many = rng.between(15, 60);
    let entities = rng.pick(&[few, some, some, some, some, some, some, many]);
    let calls = match rng.below(20) {
        0 => rng.between(0, 3),
        1 => rng.between(120, 200),
        _ => rng.between(20, 50),
    };
    round_draft(rng, numbers, entities, calls).text()
}
