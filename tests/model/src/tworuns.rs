//! The claim about two runs, checked whole on one pair of runs, and pairs as scripts.

use crate::call::{Call, Name};
use crate::effect::Answer;
use crate::generate::rng::Rng;
use crate::generate::scenes::{call_line, preview_line, table_lines};
use crate::generate::world::{call, call_of, failing_caller, world, Numbers};
use crate::hub::{Hub, DROP_S, SLOTS};
use crate::raw::Table;

/// What a run is made of: calls, and previews of calls.
#[derive(Clone, PartialEq, Eq, Debug)]
pub enum Event {
    Call(Call),
    Preview(Call),
}

impl Event {
    /// The call that is made or previewed.
    pub fn call(&self) -> &Call {
        match self {
            Event::Call(call) | Event::Preview(call) => call,
        }
    }

    pub fn is_preview(&self) -> bool {
        matches!(self, Event::Preview(_))
    }

    /// The next table and the answer.
    pub fn on(&self, hub: &Hub) -> (Hub, Answer) {
        match self {
            Event::Call(call) => hub.call(call),
            Event::Preview(call) => (hub.clone(), hub.preview(call)),
        }
    }
}

/// A starting table and a list of calls and previews.
#[derive(Clone, Debug)]
pub struct Run {
    pub start: Hub,
    pub events: Vec<Event>,
}

/// Two runs and the tag that they are compared for.
#[derive(Clone, Debug)]
pub struct Pair {
    pub tag: u8,
    pub a: Run,
    pub b: Run,
}

/// What of a run the claim speaks of.
struct Trace {
    /// The events that are left when those that may differ are struck out.
    left: Vec<Event>,
    /// The events by callers without the tag, numbered from 0.
    watched: Vec<usize>,
    /// The answers to them.
    answers: Vec<Answer>,
    /// The records of all calls in their order; a preview has none in the list.
    records: Vec<u8>,
    end: Hub,
}

fn bears(hub: &Hub, slot: u8, tag: u8) -> bool {
    hub.secrecy(slot).contains(&tag)
}

/// The calls that may differ where a program bearing the tag makes them.
const CONTENT_CALLS: [Name; 4] = [Name::Put, Name::Show, Name::Send, Name::Fetch];

/// A put, show, send or fetch whose caller is a program bearing the tag, any call whose caller
/// is an item bearing it, or a preview of any call whose caller is either.
fn may_differ(hub: &Hub, event: &Event, tag: u8) -> bool {
    let call = event.call();
    let by_program = hub.program(call.caller).is_some();
    let any_call = event.is_preview() || !by_program;
    bears(hub, call.caller, tag) && (any_call || CONTENT_CALLS.contains(&call.name))
}

fn trace(run: &Run, tag: u8) -> Trace {
    let end = run.start.clone();
    let mut trace = Trace { left: vec![], watched: vec![], answers: vec![], records: vec![], end };
    for (index, event) in run.events.iter().enumerate() {
        let (next, answer) = event.on(&trace.end);
        if !may_differ(&trace.end, event, tag) {
            trace.left.push(event.clone());
        }
        if !event.is_preview() {
            trace.records.extend(answer.record);
        }
        if !bears(&trace.end, event.call().caller, tag) {
            trace.watched.push(index);
            trace.answers.push(answer);
        }
        trace.end = next;
    }
    trace
}

/// A run ends with the table and the records of its calls alone.
fn ends_as_its_calls(run: &Run, ran: &Trace) -> bool {
    let made = run.events.iter().filter(|event| !event.is_preview());
    let calls: Vec<Call> = made.map(|event| event.call().clone()).collect();
    let (end, answers) = run.start.run(&calls);
    let records: Vec<u8> = answers.iter().flat_map(|answer| answer.record).collect();
    end == ran.end && records == ran.records
}

/// The tables differ only in the contents of entities bearing the tag.
fn differ_only_under(a: &Hub, b: &Hub, tag: u8) -> bool {
    hidden(a, tag) == hidden(b, tag)
}

/// The table with the contents of entities bearing the tag taken out.
fn hidden(hub: &Hub, tag: u8) -> Hub {
    let mut hub = hub.clone();
    for entity in hub.slots.iter_mut().flatten() {
        if entity.secrecy.contains(&tag) {
            entity.content.clear();
        }
    }
    hub
}

/// Checks the claim. The error says which part fails.
pub fn check(pair: &Pair) -> Result<(), &'static str> {
    let Pair { tag, a, b } = pair;
    let tag = *tag;
    let (ran_a, ran_b) = (trace(a, tag), trace(b, tag));

    let can_drop = |hub: &Hub| hub.slots.iter().flatten().any(|e| e.rights[DROP_S].contains(&tag));
    if can_drop(&a.start) || can_drop(&b.start) {
        return Err("premise: a program can drop the tag");
    }
    if !a.start.accepted() || !b.start.accepted() {
        return Err("premise: a starting table is not accepted");
    }
    if !differ_only_under(&a.start, &b.start, tag) {
        return Err("premise: the starting tables differ in more");
    }
    if ran_a.left != ran_b.left {
        return Err("premise: the lists differ in more");
    }

    if !ends_as_its_calls(a, &ran_a) || !ends_as_its_calls(b, &ran_b) {
        return Err("the previews change a table or the records");
    }
    if !differ_only_under(&ran_a.end, &ran_b.end, tag) {
        return Err("the end tables differ in more");
    }
    if ran_a.answers != ran_b.answers {
        return Err("an answer to a caller without the tag differs");
    }
    for auditor in 0..=255 {
        for length in lengths(&ran_a, &ran_b, tag, auditor) {
            let lent = vec![LENT; length];
            let seen_a = ran_a.end.audit(auditor, &ran_a.records, &lent);
            let seen_b = ran_b.end.audit(auditor, &ran_b.records, &lent);
            if seen_a != seen_b {
                return Err("an audit by a caller without the tag differs");
            }
        }
    }
    Ok(())
}

/// What the buffers of the audits hold.
const LENT: u8 = 0xa5;

/// The buffers that an auditor gets in both runs; none for one that bears the tag.
fn lengths(ran_a: &Trace, ran_b: &Trace, tag: u8, auditor: u8) -> Vec<usize> {
    if bears(&ran_a.end, auditor, tag) || bears(&ran_b.end, auditor, tag) {
        return vec![];
    }
    let large = ran_a.records.len().max(ran_b.records.len());
    let exact = ran_a.end.audit(auditor, &ran_a.records, &vec![0; large]).part.len();
    vec![0, exact, exact.saturating_sub(1), large]
}

/// The script of each run, and the text that says which answers are compared: the tag, and
/// for each script its calls and previews by callers without the tag, numbered from 0.
pub fn scripts(pair: &Pair) -> (String, String, String) {
    let Pair { tag, a, b } = pair;
    let (ran_a, ran_b) = (trace(a, *tag), trace(b, *tag));
    let mut audits = String::new();
    for auditor in (0..=SLOTS as u8).chain([255]) {
        for length in lengths(&ran_a, &ran_b, *tag, auditor) {
            audits.push_str(&format!("audit {auditor} run {length} {LENT:02x}\n"));
        }
    }
    let script = |run: &Run| {
        let events: String = run.events.iter().map(event_line).collect();
        format!("{}{events}dump\n{audits}", table_lines(&Table::of_hub(&run.start)))
    };
    let watched = |ran: &Trace| ran.watched.iter().map(|index| format!(" {index}")).collect::<String>();
    let watch = format!("tag {tag}\na{}\nb{}\n", watched(&ran_a), watched(&ran_b));
    (script(a), script(b), watch)
}

fn event_line(event: &Event) -> String {
    match event {
        Event::Call(call) => call_line(call),
        Event::Preview(call) => preview_line(call),
    }
}

/// A random pair of runs that the claim speaks of.
pub fn random_pair(rng: &mut Rng) -> Pair {
    let entities = rng.between(3, 12);
    let mut world = world(rng, entities, Numbers::Near);
    let tag = rng.pick(&world.pool);
    hide_under(rng, &mut world.hub, tag);
    let mut other = world.hub.clone();
    for entity in other.slots.iter_mut().flatten() {
        if entity.secrecy.contains(&tag) && rng.chance(80) {
            let length = rng.pick(&[0, 1, 5, 63, 64]);
            entity.content = rng.bytes(length);
        }
    }
    let mut a = Run { start: world.hub.clone(), events: vec![] };
    let mut b = Run { start: other.clone(), events: vec![] };
    let (mut now_a, mut now_b) = (world.hub, other);
    for _ in 0..rng.between(0, 25) {
        struck_events(rng, &mut a, &mut now_a, &world.pool, tag);
        struck_events(rng, &mut b, &mut now_b, &world.pool, tag);
        let length = rng.pick(&[0, 1, 5, 63, 64, 70]);
        let usual = call(rng, &now_a, &world.pool, length);
        let both = match rng.below(10) {
            0..=1 => probe(rng, &now_a, tag).unwrap_or(usual),
            2 => failing_call(rng, &now_a, &world.pool, length),
            _ => usual,
        };
        let events = match rng.below(10) {
            0..=1 => vec![Event::Preview(both)],
            2..=3 => vec![Event::Preview(both.clone()), Event::Call(both)],
            _ => vec![Event::Call(both)],
        };
        for event in events {
            push(&mut a, &mut now_a, event.clone());
            push(&mut b, &mut now_b, event);
        }
    }
    struck_events(rng, &mut a, &mut now_a, &world.pool, tag);
    struck_events(rng, &mut b, &mut now_b, &world.pool, tag);
    Pair { tag, a, b }
}

/// Lets some entities bear the tag and takes the right to drop it from all.
fn hide_under(rng: &mut Rng, hub: &mut Hub, tag: u8) {
    for slot in 0..SLOTS {
        let Some(mut entity) = hub.slots[slot].clone() else { continue };
        entity.rights[DROP_S].remove(&tag);
        hub.slots[slot] = Some(entity.clone());
        if rng.chance(30) {
            entity.secrecy.insert(tag);
            if hub.keeps_to_every_group(&entity) {
                hub.slots[slot] = Some(entity);
            }
        }
    }
}

/// A fetch from an entity that bears the tag, by a program without it.
fn probe(rng: &mut Rng, now: &Hub, tag: u8) -> Option<Call> {
    let (hidden, open): (Vec<u8>, Vec<u8>) = (0..SLOTS as u8).partition(|slot| bears(now, *slot, tag));
    let callers: Vec<u8> = open.into_iter().filter(|slot| now.program(*slot).is_some()).collect();
    let both_there = !hidden.is_empty() && !callers.is_empty();
    both_there.then(|| Call::fetch(rng.pick(&callers), rng.pick(&hidden)))
}

/// A call by an item, a free slot or one above 31; `buffer` is the length lent to a show.
fn failing_call(rng: &mut Rng, now: &Hub, pool: &[u8], buffer: usize) -> Call {
    let caller = failing_caller(rng, now);
    let name = rng.pick(&Name::ALL);
    call_of(rng, now, pool, buffer, name, caller)
}

/// Some calls and previews of one run only, by programs and items that bear the tag at that
/// moment.
fn struck_events(rng: &mut Rng, run: &mut Run, now: &mut Hub, pool: &[u8], tag: u8) {
    for _ in 0..rng.pick(&[0, 0, 1, 2, 4]) {
        let bearers: Vec<u8> = (0..SLOTS as u8).filter(|slot| bears(now, *slot, tag)).collect();
        if bearers.is_empty() {
            return;
        }
        let caller = rng.pick(&bearers);
        let is_preview = rng.chance(40);
        let any_call = is_preview || now.program(caller).is_none();
        let name = if any_call { rng.pick(&Name::ALL) } else { rng.pick(&CONTENT_CALLS) };
        let length = rng.pick(&[0, 1, 64]);
        let call = call_of(rng, now, pool, length, name, caller);
        push(run, now, if is_preview { Event::Preview(call) } else { Event::Call(call) });
    }
}

fn push(run: &mut Run, now: &mut Hub, event: Event) {
    *now = event.on(now).0;
    run.events.push(event);
}
