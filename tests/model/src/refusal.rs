//! When a call is turned down: refusals 1 to 11.

use crate::call::{Call, Name::*};
use crate::hub::{flow, Entity, Hub, Kind, ADD_I, ADD_S, DROP_I, DROP_S, MOST_CONTENT, SLOTS};
use crate::tags::LAST_TAG;

/// The order in which refusals are tried.
const ORDER: [u8; 11] = [1, 2, 3, 4, 5, 6, 7, 8, 9, 10, 11];

/// The number a call returns: the first refusal that applies, else 0.
pub fn number(hub: &Hub, call: &Call) -> u8 {
    ORDER.into_iter().find(|refusal| applies(*refusal, hub, call)).unwrap_or(0)
}

fn applies(refusal: u8, hub: &Hub, call: &Call) -> bool {
    let caller = hub.program(call.caller);
    let other = call.other.and_then(|slot| hub.entity(slot));
    let both = caller.zip(other);
    match refusal {
        1 => caller.is_none(),
        2 => other_too_high(call) || tag_too_high(call) || set_without_meaning(call),
        3 => matches!(call.name, Send | Fetch | Release | Hand) && other.is_none(),
        4 => call.name == Create && other.is_some(),
        5 => call.name == Put && call.bytes.len() > MOST_CONTENT,
        6 => call.name == Show && caller.is_some_and(|c| call.buffer.len() < c.content.len()),
        7 => match call.name {
            Send => both.is_some_and(|(caller, other)| !flow(caller, other)),
            Fetch => both.is_some_and(|(caller, other)| !flow(other, caller)),
            _ => false,
        },
        8 => call.name == Release && both.is_some_and(|(c, o)| !may_release(call, c, o)),
        9 => call.name == Hand && other.is_some_and(|other| other.kind == Kind::Item),
        10 => matches!(call.name, Add | Drop | Hand) && !caller.is_some_and(|c| has_right(c, call)),
        11 => call.name == Hand && other.is_some_and(|other| breaks_with_right(hub, other, call)),
        _ => false,
    }
}

fn other_too_high(call: &Call) -> bool {
    call.other.is_some_and(|slot| slot as usize >= SLOTS)
}

fn tag_too_high(call: &Call) -> bool {
    call.tag.is_some_and(|tag| tag > LAST_TAG)
}

fn set_without_meaning(call: &Call) -> bool {
    call.name.set_values().zip(call.set).is_some_and(|(values, set)| !values.contains(&set))
}

/// Of the caller itself, or of an item whose S and I equal the caller's.
fn may_release(call: &Call, caller: &Entity, other: &Entity) -> bool {
    let same_slot = call.other == Some(call.caller);
    let same_secrecy = other.secrecy == caller.secrecy;
    let same_integrity = other.integrity == caller.integrity;
    same_slot || (other.kind == Kind::Item && same_secrecy && same_integrity)
}

/// The right that add, drop or hand needs, as an index into `Entity::rights`.
pub fn needed_right(call: &Call) -> Option<usize> {
    match (call.name, call.set?) {
        (Add, 0) => Some(ADD_S),
        (Add, 1) => Some(ADD_I),
        (Drop, 0) => Some(DROP_S),
        (Drop, 1) => Some(DROP_I),
        (Hand, set @ 0..=3) => Some(set as usize),
        _ => None,
    }
}

fn has_right(caller: &Entity, call: &Call) -> bool {
    needed_right(call).zip(call.tag).is_some_and(|(right, tag)| caller.rights[right].contains(&tag))
}

/// The receiver of a hand with the new right.
pub fn receiver_with_right(other: &Entity, call: &Call) -> Entity {
    let mut receiver = other.clone();
    if let Some((right, tag)) = needed_right(call).zip(call.tag) {
        receiver.rights[right].insert(tag);
    }
    receiver
}

fn breaks_with_right(hub: &Hub, other: &Entity, call: &Call) -> bool {
    !hub.keeps_to_every_group(&receiver_with_right(other, call))
}
