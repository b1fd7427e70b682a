//! Tables as bytes and numbers, which may lack the form; refusal 99.

use crate::audit::Audit;
use crate::call::Call;
use crate::effect::Answer;
use crate::hub::{check, Checked, Entity, Group, Hub, Kind, MOST_CONTENT, MOST_GROUPS, NUMBERS, SLOTS};
use crate::record::record;
use crate::tags::{from_word, to_word, Tags};

pub const CONTENT_AREA: usize = SLOTS * MOST_CONTENT;

#[derive(Clone, Copy, PartialEq, Eq, Debug, Default)]
pub enum RawKind {
    #[default]
    Free = 0,
    Item = 1,
    Program = 2,
}

#[derive(Clone, Copy, PartialEq, Eq, Debug, Default)]
pub struct RawEntity {
    pub kind: RawKind,
    pub secrecy: u64,
    pub integrity: u64,
    /// In hand's order.
    pub rights: [u64; 4],
    pub length: u8,
}

#[derive(Clone, PartialEq, Eq, Debug)]
pub struct Table {
    pub entities: [RawEntity; SLOTS],
    pub content: [u8; CONTENT_AREA],
    pub group_count: u8,
    pub groups: [u64; MOST_GROUPS],
    /// The groups' numbers.
    pub most: [u8; MOST_GROUPS],
}

impl Table {
    /// The empty table without groups.
    pub fn empty() -> Table {
        Table {
            entities: [RawEntity::default(); SLOTS],
            content: [0; CONTENT_AREA],
            group_count: 0,
            groups: [0; MOST_GROUPS],
            most: [1; MOST_GROUPS],
        }
    }

    /// The 64 bytes of the content area that belong to a slot.
    fn area(&self, slot: usize) -> &[u8] {
        &self.content[slot * MOST_CONTENT..][..MOST_CONTENT]
    }

    /// Refusal 99: the table lacks the form. Groups beyond the count do not matter.
    pub fn lacks_form(&self) -> bool {
        let too_many_groups = self.group_count as usize > MOST_GROUPS;
        let bad_number = self.most.iter().take(self.group_count as usize).any(|most| !NUMBERS.contains(most));
        too_many_groups || bad_number || (0..SLOTS).any(|slot| self.slot_lacks_form(slot))
    }

    fn slot_lacks_form(&self, slot: usize) -> bool {
        let entity = &self.entities[slot];
        let length = entity.length as usize;
        let too_long = length > MOST_CONTENT;
        let bytes_beyond = self.area(slot).iter().skip(length).any(|byte| *byte != 0);
        let has_tag = entity.secrecy != 0 || entity.integrity != 0;
        let has_right = entity.rights.iter().any(|right| *right != 0);
        let has_content = length != 0;
        let wrong_for_kind = match entity.kind {
            RawKind::Free => has_tag || has_right || has_content,
            RawKind::Item => has_right,
            RawKind::Program => false,
        };
        too_long || bytes_beyond || wrong_for_kind
    }

    /// The hub that a table of the right form stands for.
    pub fn to_hub(&self) -> Hub {
        let slots = (0..SLOTS).map(|slot| self.entity(slot)).collect();
        let groups = self.groups.iter().zip(self.most).take(self.group_count as usize);
        Hub { slots, groups: groups.map(|(word, most)| Group { tags: from_word(*word), most }).collect() }
    }

    fn entity(&self, slot: usize) -> Option<Entity> {
        let raw = &self.entities[slot];
        let kind = match raw.kind {
            RawKind::Free => return None,
            RawKind::Item => Kind::Item,
            RawKind::Program => Kind::Program,
        };
        Some(Entity {
            kind,
            secrecy: from_word(raw.secrecy),
            integrity: from_word(raw.integrity),
            rights: raw.rights.map(from_word),
            content: self.area(slot)[..raw.length as usize].to_vec(),
        })
    }

    /// The table that stands for a hub; beyond the count group words are zero and numbers 1.
    pub fn of_hub(hub: &Hub) -> Table {
        let mut table = Table::empty();
        table.take_slots(hub);
        table.group_count = hub.groups.len() as u8;
        for (place, group) in hub.groups.iter().enumerate() {
            table.groups[place] = to_word(&group.tags);
            table.most[place] = group.most;
        }
        table
    }

    /// Writes a hub's slots into the table; the groups stay.
    fn take_slots(&mut self, hub: &Hub) {
        self.entities = [RawEntity::default(); SLOTS];
        self.content = [0; CONTENT_AREA];
        for (slot, entity) in hub.slots.iter().enumerate() {
            let Some(entity) = entity else { continue };
            self.entities[slot] = RawEntity {
                kind: if entity.kind == Kind::Item { RawKind::Item } else { RawKind::Program },
                secrecy: to_word(&entity.secrecy),
                integrity: to_word(&entity.integrity),
                rights: [0, 1, 2, 3].map(|right| to_word(&entity.rights[right])),
                length: entity.content.len() as u8,
            };
            let from = slot * MOST_CONTENT;
            self.content[from..from + entity.content.len()].copy_from_slice(&entity.content);
        }
    }

    /// Runs one call; 99 comes before all other refusals.
    pub fn call(&self, call: &Call) -> (Table, Answer) {
        if self.lacks_form() {
            let record = record(call, 99, 0, &Tags::new());
            let answer = Answer { number: 99, record, part: vec![], buffer: call.buffer.clone() };
            return (self.clone(), answer);
        }
        let (hub, answer) = self.to_hub().call(call);
        let mut next = self.clone();
        next.take_slots(&hub);
        (next, answer)
    }

    /// What a call would answer, 99 included.
    pub fn preview(&self, call: &Call) -> Answer {
        self.call(call).1
    }

    /// A check of the groups: its number and what it tells. Under 99 no group is looked at.
    pub fn check(&self, held: u64) -> (u8, Checked) {
        if self.lacks_form() {
            return (99, Checked { keeps: false, counted: 0 });
        }
        (0, check(&self.to_hub().groups, &from_word(held)))
    }

    /// Runs one audit; 99 comes before all other refusals.
    pub fn audit(&self, caller: u8, list: &[u8], buffer: &[u8]) -> Audit {
        if self.lacks_form() {
            return Audit::refused(99, buffer);
        }
        self.to_hub().audit(caller, list, buffer)
    }

    /// The bytes that the digest is taken over, as SCRIPT.md lays them out.
    pub fn bytes(&self) -> Vec<u8> {
        let mut bytes = Vec::new();
        for entity in &self.entities {
            bytes.push(entity.kind as u8);
            bytes.extend(entity.secrecy.to_le_bytes());
            bytes.extend(entity.integrity.to_le_bytes());
            bytes.extend(entity.rights.iter().flat_map(|right| right.to_le_bytes()));
            bytes.extend(u64::from(entity.length).to_le_bytes());
        }
        bytes.extend(self.content);
        bytes.extend(u64::from(self.group_count).to_le_bytes());
        bytes.extend(self.groups.iter().flat_map(|group| group.to_le_bytes()));
        bytes.extend(self.most);
        bytes
    }

    /// FNV-1a over `bytes`, 64 bits.
    pub fn digest(&self) -> u64 {
        self.bytes().iter().fold(0xcbf2_9ce4_8422_2325, |hash, byte| {
            (hash ^ u64::from(*byte)).wrapping_mul(0x0000_0100_0000_01b3)
        })
    }
}
