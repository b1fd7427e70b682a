//! The table: slots, entities, conflict groups.

use std::ops::RangeInclusive;

use crate::tags::{union, Tags};

/// Slots are 0 to 31.
pub const SLOTS: usize = 32;
/// A content has 0 to 64 bytes.
pub const MOST_CONTENT: usize = 64;
/// There are 0 to 8 conflict groups.
pub const MOST_GROUPS: usize = 8;
/// A group's number is 1 to 64.
pub const NUMBERS: RangeInclusive<u8> = 1..=64;

/// The four rights in hand's order, as indexes into `Entity::rights`.
pub const ADD_S: usize = 0;
pub const DROP_S: usize = 1;
pub const ADD_I: usize = 2;
pub const DROP_I: usize = 3;

#[derive(Clone, Copy, PartialEq, Eq, Debug)]
pub enum Kind {
    Item,
    Program,
}

#[derive(Clone, PartialEq, Eq, Debug)]
pub struct Entity {
    pub kind: Kind,
    pub secrecy: Tags,
    pub integrity: Tags,
    pub rights: [Tags; 4],
    pub content: Vec<u8>,
}

impl Entity {
    /// An entity with the given labels, empty content and no rights.
    pub fn new(kind: Kind, secrecy: Tags, integrity: Tags) -> Entity {
        Entity { kind, secrecy, integrity, rights: Default::default(), content: Vec::new() }
    }

    /// All tags that the entity wears or has a right over.
    pub fn tags(&self) -> Tags {
        union([&self.secrecy, &self.integrity].into_iter().chain(&self.rights))
    }

    /// The entity keeps to every one of the groups.
    pub fn keeps_to(&self, groups: &[Group]) -> bool {
        check(groups, &self.tags()).keeps
    }
}

/// A conflict group.
#[derive(Clone, PartialEq, Eq, Debug)]
pub struct Group {
    pub tags: Tags,
    /// The group's number: the most of its tags that an entity may have.
    pub most: u8,
}

/// What a check of the groups tells.
#[derive(Clone, Copy, PartialEq, Eq, Debug)]
pub struct Checked {
    /// No group is broken.
    pub keeps: bool,
    /// The place of the first broken group, from 1; the number of groups if there is none.
    pub counted: usize,
}

/// Checks the groups for the union of all that somebody holds.
pub fn check(groups: &[Group], held: &Tags) -> Checked {
    let broken = groups.iter().position(|group| breaks(held, group));
    Checked { keeps: broken.is_none(), counted: broken.map_or(groups.len(), |at| at + 1) }
}

/// A group is broken when more of its tags are held than its number.
fn breaks(held: &Tags, group: &Group) -> bool {
    held.intersection(&group.tags).count() > group.most as usize
}

/// Flow from A to B is allowed when S(A) is a subset of S(B) and I(B) is a
/// subset of I(A).
pub fn flow(a: &Entity, b: &Entity) -> bool {
    a.secrecy.is_subset(&b.secrecy) && b.integrity.is_subset(&a.integrity)
}

#[derive(Clone, PartialEq, Eq, Debug)]
pub struct Hub {
    pub slots: Vec<Option<Entity>>,
    pub groups: Vec<Group>,
}

impl Hub {
    /// The empty table without groups.
    pub fn empty() -> Hub {
        Hub { slots: vec![None; SLOTS], groups: Vec::new() }
    }

    /// The entity in a slot; none if the slot is free or above 31.
    pub fn entity(&self, slot: u8) -> Option<&Entity> {
        self.slots.get(slot as usize)?.as_ref()
    }

    /// The program in a slot; none if the slot is free, above 31 or an item's.
    pub fn program(&self, slot: u8) -> Option<&Entity> {
        self.entity(slot).filter(|entity| entity.kind == Kind::Program)
    }

    /// The S of a slot; empty if the slot is free or above 31.
    pub fn secrecy(&self, slot: u8) -> Tags {
        self.entity(slot).map(|entity| entity.secrecy.clone()).unwrap_or_default()
    }

    pub fn keeps_to_every_group(&self, entity: &Entity) -> bool {
        entity.keeps_to(&self.groups)
    }

    /// Every entity keeps to every group.
    pub fn accepted(&self) -> bool {
        self.slots.iter().flatten().all(|entity| self.keeps_to_every_group(entity))
    }
}
