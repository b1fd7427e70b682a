//! Random accepted hubs, and random calls that suit a hub.

use super::rng::Rng;
use crate::call::{Call, Name};
use crate::hub::{flow, Entity, Group, Hub, Kind, MOST_CONTENT, MOST_GROUPS, NUMBERS, SLOTS};
use crate::refusal::{needed_right, receiver_with_right};
use crate::tags::{Tags, LAST_TAG};

/// A hub and the few tags that most of its labels and rights are drawn from.
pub struct World {
    pub hub: Hub,
    pub pool: Vec<u8>,
}

/// The numbers of a hub's groups.
#[derive(Clone, Copy, PartialEq, Eq)]
pub enum Numbers {
    /// Each is 1.
    Ones,
    /// Mostly about as many as the tags of the group that entities have.
    Near,
}

/// An accepted hub with about `entities` entities.
pub fn world(rng: &mut Rng, entities: usize, numbers: Numbers) -> World {
    let pool = pool(rng);
    let mut hub = Hub::empty();
    hub.groups = groups(rng, &pool);
    let labels: Vec<(Tags, Tags)> = (0..rng.between(1, 3))
        .map(|_| (some_of(rng, &pool, 35), some_of(rng, &pool, 25)))
        .collect();
    let large = numbers == Numbers::Near && rng.chance(35);
    if numbers == Numbers::Near {
        for group in &mut hub.groups {
            let count = if large && rng.chance(70) {
                group.tags = nearly_all(rng);
                rng.between(63, 64)
            } else {
                group.tags.intersection(&entity(rng, &pool, &labels).tags()).count()
            };
            group.most = near(rng, count);
        }
    }
    for _ in 0..entities {
        let slot = rng.below(SLOTS);
        let mut entity = entity(rng, &pool, &labels);
        if large && entity.kind == Kind::Program && rng.chance(50) {
            for tag in nearly_all(rng) {
                entity.rights[rng.below(4)].insert(tag);
            }
        }
        for group in &hub.groups {
            keep_to(rng, &mut entity, group);
        }
        hub.slots[slot] = Some(entity);
    }
    World { hub, pool }
}

fn pool(rng: &mut Rng) -> Vec<u8> {
    let mut pool = Vec::new();
    while pool.len() < 2 {
        pool = (0..rng.between(2, 7))
            .map(|_| if rng.chance(25) { rng.pick(&[0, 1, 7, 8, 31, 32, 62, 63]) } else { rng.below(64) as u8 })
            .collect();
        pool.sort_unstable();
        pool.dedup();
    }
    pool
}

fn groups(rng: &mut Rng, pool: &[u8]) -> Vec<Group> {
    let count = rng.pick(&[0, 0, 1, 1, 2, 3, 4, 5, 8]);
    (0..count.min(MOST_GROUPS)).map(|_| Group { tags: group(rng, pool), most: 1 }).collect()
}

/// A number for a group of which somebody has `count` tags.
pub fn near(rng: &mut Rng, count: usize) -> u8 {
    let any = rng.between(1, 64);
    let number = rng.pick(&[count, count, count, count + 1, count.saturating_sub(1), 1, 2, 3, 63, 64, any]);
    (number as u8).clamp(*NUMBERS.start(), *NUMBERS.end())
}

/// All tags but a few.
fn nearly_all(rng: &mut Rng) -> Tags {
    let mut tags: Tags = (0..=LAST_TAG).collect();
    for _ in 0..rng.pick(&[0, 0, 1, 1, 1, 2]) {
        tags.remove(&(rng.below(64) as u8));
    }
    tags
}

fn group(rng: &mut Rng, pool: &[u8]) -> Tags {
    match rng.below(12) {
        0 => Tags::new(),
        1 => [rng.pick(pool)].into(),
        2 => some_of(rng, pool, 60),
        3 => (0..64).filter(|_| rng.chance(10)).collect(),
        4 if rng.chance(30) => (0..64).collect(),
        _ => [rng.pick(pool), rng.pick(pool), rng.below(64) as u8].into(),
    }
}

fn some_of(rng: &mut Rng, pool: &[u8], percent: usize) -> Tags {
    pool.iter().copied().filter(|_| rng.chance(percent)).collect()
}

fn entity(rng: &mut Rng, pool: &[u8], labels: &[(Tags, Tags)]) -> Entity {
    let kind = if rng.chance(62) { Kind::Program } else { Kind::Item };
    let (secrecy, integrity) = match rng.below(10) {
        0..=5 => rng.pick(labels),
        6..=7 => (Tags::new(), Tags::new()),
        _ => (some_of(rng, pool, 40), some_of(rng, pool, 30)),
    };
    let mut entity = Entity::new(kind, secrecy, integrity);
    if kind == Kind::Program {
        let percent = rng.pick(&[0, 15, 40, 70]);
        entity.rights = [0; 4].map(|_| some_of(rng, pool, percent));
    }
    let length = content_length(rng);
    entity.content = rng.bytes(length);
    entity
}

fn content_length(rng: &mut Rng) -> usize {
    let short = rng.between(2, 8);
    let any = rng.between(0, MOST_CONTENT);
    rng.pick(&[0, 1, short, short, short, short, any, 63, 64])
}

/// Takes tags off until the entity keeps to the group.
fn keep_to(rng: &mut Rng, entity: &mut Entity, group: &Group) {
    let mut common: Vec<u8> = entity.tags().intersection(&group.tags).copied().collect();
    rng.shuffle(&mut common);
    for tag in common.iter().skip(group.most as usize) {
        entity.secrecy.remove(tag);
        entity.integrity.remove(tag);
        entity.rights.iter_mut().for_each(|right| {
            right.remove(tag);
        });
    }
}

/// The slots whose entity passes a test.
fn slots_where(hub: &Hub, test: impl Fn(u8, &Entity) -> bool) -> Vec<u8> {
    (0..SLOTS as u8).filter(|slot| hub.entity(*slot).is_some_and(|e| test(*slot, e))).collect()
}

fn free_slots(hub: &Hub) -> Vec<u8> {
    (0..SLOTS as u8).filter(|slot| hub.entity(*slot).is_none()).collect()
}

fn any_of(rng: &mut Rng, slots: &[u8]) -> Option<u8> {
    (!slots.is_empty()).then(|| rng.pick(slots))
}

fn high_slot(rng: &mut Rng) -> u8 {
    let any = rng.between(32, 255) as u8;
    rng.pick(&[32, 33, 64, 254, 255, any])
}

/// A random caller, mostly a program.
pub fn caller(rng: &mut Rng, hub: &Hub) -> u8 {
    let programs = slots_where(hub, |_, entity| entity.kind == Kind::Program);
    let likely = if rng.chance(86) { any_of(rng, &programs) } else { None };
    likely.unwrap_or_else(|| failing_caller(rng, hub))
}

/// A random caller that is no program: an item, a free slot or one above 31.
pub fn failing_caller(rng: &mut Rng, hub: &Hub) -> u8 {
    let items = slots_where(hub, |_, entity| entity.kind == Kind::Item);
    let free = free_slots(hub);
    let low = match rng.below(4) {
        0..=1 => any_of(rng, &items),
        2 => any_of(rng, &free),
        _ => None,
    };
    low.unwrap_or_else(|| high_slot(rng))
}

/// A random call that suits the hub; `buffer` is the length lent to a show.
pub fn call(rng: &mut Rng, hub: &Hub, pool: &[u8], buffer: usize) -> Call {
    let name = rng.pick(&[
        Name::Put, Name::Show, Name::Send, Name::Send, Name::Fetch, Name::Fetch, Name::Add,
        Name::Drop, Name::Create, Name::Release, Name::Hand, Name::Hand,
    ]);
    let right_holders = slots_where(hub, |_, e| e.rights.iter().any(|right| !right.is_empty()));
    let caller = match any_of(rng, &right_holders) {
        Some(holder) if name.uses_tag() && rng.chance(60) => holder,
        _ => caller(rng, hub),
    };
    call_of(rng, hub, pool, buffer, name, caller)
}

/// A hand of a right that the caller has, by which the receiver would break a group.
fn breaking_hand(rng: &mut Rng, hub: &Hub, caller: u8) -> Option<Call> {
    let me = hub.program(caller)?;
    let mut hands = Vec::new();
    for receiver in slots_where(hub, |_, e| e.kind == Kind::Program) {
        for set in 0..4 {
            for tag in &me.rights[set] {
                let hand = Call::hand(caller, receiver, set as u8, *tag);
                if !hub.keeps_to_every_group(&receiver_with_right(hub.program(receiver)?, &hand)) {
                    hands.push(hand);
                }
            }
        }
    }
    (!hands.is_empty()).then(|| rng.pick(&hands))
}

/// A random call with the given name and caller.
pub fn call_of(rng: &mut Rng, hub: &Hub, pool: &[u8], buffer: usize, name: Name, caller: u8) -> Call {
    if name == Name::Hand && rng.chance(25) {
        if let Some(hand) = breaking_hand(rng, hub, caller) {
            return hand;
        }
    }
    let fill = rng.byte();
    let other = other(rng, hub, name, caller);
    let set = set(rng, name);
    match name {
        Name::Put => Call::put(caller, put_bytes(rng)),
        Name::Show => Call::show(caller, vec![fill; buffer]),
        Name::Send => Call::send(caller, other),
        Name::Fetch => Call::fetch(caller, other),
        Name::Create => Call::create(caller, other, set),
        Name::Release => Call::release(caller, other),
        Name::Add | Name::Drop | Name::Hand => {
            let call = match name {
                Name::Add => Call::add(caller, set, 0),
                Name::Drop => Call::drop(caller, set, 0),
                _ => Call::hand(caller, other, set, 0),
            };
            let tag = tag(rng, hub, pool, &call);
            Call { tag: Some(tag), ..call }
        }
    }
}

fn put_bytes(rng: &mut Rng) -> Vec<u8> {
    let any = rng.between(0, 255);
    let short = rng.between(1, 8);
    let length = rng.pick(&[0, 1, short, short, short, short, short, 63, 64, 65, 66, 255, any]);
    rng.bytes(length)
}

fn set(rng: &mut Rng, name: Name) -> u8 {
    match name.set_values() {
        Some(values) if rng.chance(92) => rng.between(*values.start() as usize, *values.end() as usize) as u8,
        _ => {
            let any = rng.byte();
            rng.pick(&[0, 1, 2, 3, 4, 5, 255, any])
        }
    }
}

fn tag(rng: &mut Rng, hub: &Hub, pool: &[u8], call: &Call) -> u8 {
    let held: Vec<u8> = needed_right(call)
        .and_then(|right| Some(hub.program(call.caller)?.rights[right].iter().copied().collect()))
        .unwrap_or_default();
    let high = rng.between(64, 255) as u8;
    match rng.below(20) {
        0..=12 if !held.is_empty() => rng.pick(&held),
        0..=17 => rng.pick(pool),
        18 => rng.below(64) as u8,
        _ => rng.pick(&[64, 65, 128, 255, high]),
    }
}

/// A random other, often one that suits the call; labels count only where the caller is a program.
fn other(rng: &mut Rng, hub: &Hub, name: Name, caller: u8) -> u8 {
    let me = hub.program(caller);
    let likely: Vec<u8> = match name {
        Name::Send => slots_where(hub, |slot, o| slot != caller && me.is_none_or(|c| flow(c, o))),
        Name::Fetch => slots_where(hub, |slot, o| slot != caller && me.is_none_or(|c| flow(o, c))),
        Name::Create => free_slots(hub),
        Name::Release => slots_where(hub, |_, o| {
            let same = |c: &Entity| c.secrecy == o.secrecy && c.integrity == o.integrity;
            o.kind == Kind::Item && me.is_none_or(same)
        }),
        _ => slots_where(hub, |_, o| o.kind == Kind::Program),
    };
    let taken = slots_where(hub, |_, _| true);
    let items = slots_where(hub, |_, o| o.kind == Kind::Item);
    let own = if name == Name::Release { 5 } else { 8 };
    let percent = rng.below(100);
    let chosen = if percent < 50 {
        any_of(rng, &likely)
    } else if percent < 50 + own {
        Some(caller)
    } else if percent < 76 {
        any_of(rng, &taken)
    } else if percent < 84 {
        any_of(rng, &items)
    } else if percent < 93 {
        Some(rng.below(SLOTS) as u8)
    } else {
        Some(high_slot(rng))
    };
    chosen.unwrap_or_else(|| rng.below(SLOTS) as u8)
}
