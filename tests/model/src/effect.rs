//! What a call does and returns.

use crate::call::{Call, Name::*};
use crate::hub::{Entity, Hub, Kind};
use crate::record::{need, record, Record};
use crate::refusal::{number, receiver_with_right};

#[derive(Clone, PartialEq, Eq, Debug)]
pub struct Answer {
    /// 0 or the refusal.
    pub number: u8,
    pub record: Record,
    /// The filled front part of show's buffer.
    pub part: Vec<u8>,
    /// The whole lent buffer afterwards.
    pub buffer: Vec<u8>,
}

impl Hub {
    /// Runs one call: the next table and the answer.
    pub fn call(&self, call: &Call) -> (Hub, Answer) {
        let number = number(self, call);
        let allowed = number == 0;
        let next = if allowed { after(self, call) } else { self.clone() };
        let part = if allowed { shown(self, call) } else { Vec::new() };
        let moved = if allowed { moved(self, call) } else { 0 };
        let need = need(self, &next, call, number);
        let record = record(call, number, moved, &need);
        let buffer = fill_front(&call.buffer, &part);
        (next, Answer { number, record, part, buffer })
    }

    /// What a call would answer: it runs on a copy of the table, which nobody keeps.
    pub fn preview(&self, call: &Call) -> Answer {
        self.call(call).1
    }

    /// Runs a list of calls, each on the table that the one before handed back.
    pub fn run(&self, calls: &[Call]) -> (Hub, Vec<Answer>) {
        let mut hub = self.clone();
        let mut answers = Vec::new();
        for call in calls {
            let (next, answer) = hub.call(call);
            hub = next;
            answers.push(answer);
        }
        (hub, answers)
    }
}

/// The buffer with the part at its front and its rest unchanged.
pub fn fill_front(buffer: &[u8], part: &[u8]) -> Vec<u8> {
    let rest = buffer.iter().skip(part.len());
    part.iter().chain(rest).copied().collect()
}

/// What an allowed show copies.
fn shown(hub: &Hub, call: &Call) -> Vec<u8> {
    match call.name {
        Show => content(hub, call.caller),
        _ => Vec::new(),
    }
}

/// The length put, shown, sent or fetched by an allowed call, else 0.
fn moved(hub: &Hub, call: &Call) -> u8 {
    let length = match (call.name, call.other) {
        (Put, _) => call.bytes.len(),
        (Show | Send, _) => content(hub, call.caller).len(),
        (Fetch, Some(other)) => content(hub, other).len(),
        _ => 0,
    };
    length as u8
}

fn content(hub: &Hub, slot: u8) -> Vec<u8> {
    hub.entity(slot).map(|entity| entity.content.clone()).unwrap_or_default()
}

/// The table after an allowed call.
fn after(hub: &Hub, call: &Call) -> Hub {
    let mut next = hub.clone();
    let caller = hub.program(call.caller).expect("an allowed call has a caller").clone();
    let caller_slot = call.caller as usize;
    let other_slot = call.other.unwrap_or(call.caller) as usize;
    match call.name {
        Put => set_content(&mut next, caller_slot, &call.bytes),
        Show => {}
        Send => set_content(&mut next, other_slot, &caller.content),
        Fetch => set_content(&mut next, caller_slot, &content(hub, other_slot as u8)),
        Add | Drop => next.slots[caller_slot] = Some(relabelled(&caller, call)),
        Create => next.slots[other_slot] = Some(created(&caller, call)),
        Release => next.slots[other_slot] = None,
        Hand => {
            let receiver = hub.slots[other_slot].as_ref().expect("an allowed hand has a receiver");
            next.slots[other_slot] = Some(receiver_with_right(receiver, call));
        }
    }
    next
}

fn set_content(hub: &mut Hub, slot: usize, bytes: &[u8]) {
    if let Some(entity) = &mut hub.slots[slot] {
        entity.content = bytes.to_vec();
    }
}

/// The caller of an allowed add or drop, afterwards.
fn relabelled(caller: &Entity, call: &Call) -> Entity {
    let mut entity = caller.clone();
    let label = if call.set == Some(0) { &mut entity.secrecy } else { &mut entity.integrity };
    if let Some(tag) = call.tag {
        if call.name == Add {
            label.insert(tag);
        } else {
            label.remove(&tag);
        }
    }
    entity
}

/// The new entity takes the caller's S and I, empty content and no rights.
fn created(caller: &Entity, call: &Call) -> Entity {
    let kind = if call.set == Some(1) { Kind::Item } else { Kind::Program };
    Entity::new(kind, caller.secrecy.clone(), caller.integrity.clone())
}
