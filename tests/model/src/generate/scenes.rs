//! Scripts of scenes: each gives a table and runs calls, previews, checks, audits or loads on it.

use super::damage::{self, Case, Class};
use super::draft::round_draft;
use super::numbers::{self, some_tags, spread, word};
use super::rng::Rng;
use super::world::{call, call_of, caller, near, world, Numbers};
use crate::call::{Call, Name};
use crate::hex;
use crate::hub::{Entity, Group, Hub, Kind, MOST_CONTENT, MOST_GROUPS, SLOTS};
use crate::raw::{RawEntity, RawKind, Table};
use crate::record::LENGTH;
use crate::refusal::receiver_with_right;
use crate::script::State;
use crate::tags::{from_word, to_word, Tags, LAST_TAG};

/// A script of `count` scenes with a dump at its end.
pub fn script(seed: u64, count: usize, numbers: Numbers) -> String {
    let cases = match numbers {
        Numbers::Ones => damage::catalogue(),
        Numbers::Near => numbers::catalogue(),
    };
    let previews = Rng::for_case(seed, u64::MAX);
    let checks = Rng::for_case(seed, u64::MAX - 1);
    let mut script = Script { lines: String::new(), state: State::start(), numbers, previews, checks };
    for index in 0..count {
        let rng = &mut Rng::for_case(seed, index as u64);
        let turn = seed as usize + index;
        let scenes = if numbers == Numbers::Near { 8 } else { 7 };
        match turn % scenes {
            0 => calls(rng, &mut script, false),
            1 => lacking_form(rng, &mut script, turn / scenes),
            2 => lists(rng, &mut script),
            3 => calls(rng, &mut script, true),
            4 => at_limits(rng, &mut script),
            5 => loads(rng, &mut script, &cases),
            6 => runs(rng, &mut script),
            _ => at_numbers(rng, &mut script),
        }
        if index + 1 == count || rng.chance(20) {
            script.push("dump\n");
        }
    }
    script.lines
}

/// A script that is being written, and what its lines have made so far.
struct Script {
    lines: String,
    state: State,
    /// The numbers of its groups.
    numbers: Numbers,
    /// Draws the previews and nothing else, so that the other lines do not depend on them.
    previews: Rng,
    /// The same for the checks.
    checks: Rng,
}

impl Script {
    fn push(&mut self, lines: &str) {
        for line in lines.lines() {
            self.state.line(line).expect("a command");
        }
        self.lines.push_str(lines);
    }

    /// A call, at times after a check, or after a preview of it or of another one that suits the
    /// hub.
    fn call(&mut self, hub: &Hub, pool: &[u8], call: &Call) {
        if self.checks.chance(25) {
            let held = held(&mut self.checks, hub, self.numbers, pool, call);
            self.push(&check_line(&held));
        }
        if self.previews.chance(20) {
            let other = unbound_call(&mut self.previews, hub, pool);
            self.push(&preview_line(&other));
        }
        if self.previews.chance(30) {
            self.push(&preview_line(call));
        }
        self.push(&call_line(call));
    }

    fn hub(&self) -> Hub {
        self.state.table.to_hub()
    }

    /// The bytes that a caller is shown of a list.
    fn visible(&self, caller: u8, list: &[u8]) -> usize {
        self.state.table.audit(caller, list, &vec![0; list.len()]).part.len()
    }

    /// An audit of `run`, or of a list made by hand.
    fn audit(&mut self, rng: &mut Rng, caller: u8, list: Option<&[u8]>, length: usize) {
        let list = list.map_or("run".to_string(), hex::digits_or_dash);
        self.push(&format!("audit {caller} {list} {length} {:02x}\n", rng.byte()));
    }
}

/// The commands that write a table.
pub fn table_lines(table: &Table) -> String {
    let mut lines = String::from("table\n");
    for (slot, entity) in table.entities.iter().enumerate() {
        if *entity != RawEntity::default() {
            lines.push_str(&slot_line(slot, entity));
        }
        let area = &table.content[slot * MOST_CONTENT..][..MOST_CONTENT];
        let first = area.iter().position(|byte| *byte != 0);
        let last = area.iter().rposition(|byte| *byte != 0);
        if let (Some(first), Some(last)) = (first, last) {
            let offset = slot * MOST_CONTENT + first;
            lines.push_str(&format!("bytes {offset} {}\n", hex::digits(&area[first..=last])));
        }
    }
    if table.group_count != 0 || table.groups != [0; MOST_GROUPS] {
        let words: Vec<String> = table.groups.iter().map(|word| format!("{word:016x}")).collect();
        lines.push_str(&format!("groups {} {}\n", table.group_count, words.join(" ")));
    }
    if table.most != [1; MOST_GROUPS] {
        lines.push_str(&most_line(&table.most));
    }
    lines
}

fn most_line(most: &[u8; MOST_GROUPS]) -> String {
    let words: Vec<String> = most.iter().map(u8::to_string).collect();
    format!("most {}\n", words.join(" "))
}

fn slot_line(slot: usize, entity: &RawEntity) -> String {
    let [sa, sd, ia, id] = entity.rights;
    format!(
        "slot {slot} {} {:016x} {:016x} {sa:016x} {sd:016x} {ia:016x} {id:016x} {}\n",
        entity.kind as u8, entity.secrecy, entity.integrity, entity.length
    )
}

/// The command for a call. A show's buffer holds one byte throughout.
pub fn call_line(call: &Call) -> String {
    let fields = [call.other, call.set, call.tag].into_iter().flatten();
    let mut line = format!("{} {}", call.name.word(), call.caller);
    for field in fields {
        line.push_str(&format!(" {field}"));
    }
    if call.name == Name::Put {
        line.push_str(&format!(" {}", hex::digits_or_dash(&call.bytes)));
    }
    if call.name == Name::Show {
        let fill = call.buffer.first().copied().unwrap_or(0);
        line.push_str(&format!(" {} {fill:02x}", call.buffer.len()));
    }
    line + "\n"
}

/// The command for a preview of a call.
pub fn preview_line(call: &Call) -> String {
    format!("preview {}", call_line(call))
}

fn check_line(held: &Tags) -> String {
    format!("check {:016x}\n", to_word(held))
}

/// What stands in a caller's slot, for counts of what input reaches.
pub fn caller_words(table: &Table, caller: u8) -> &'static str {
    match table.entities.get(caller as usize) {
        None => "a slot above 31",
        Some(RawEntity { kind: RawKind::Free, .. }) => "a free slot",
        Some(RawEntity { kind: RawKind::Program, .. }) => "a program",
        Some(RawEntity { secrecy: 0, .. }) => "an item without a tag in S",
        Some(_) => "an item with a tag in S",
    }
}

/// The table of a random accepted hub, at times with words and numbers beyond the group count, and
/// the tags that most of its labels are drawn from.
fn table(rng: &mut Rng, entities: usize, numbers: Numbers) -> (Table, Vec<u8>) {
    let world = world(rng, entities, numbers);
    let mut table = Table::of_hub(&world.hub);
    let count = table.group_count as usize;
    if rng.chance(40) {
        for word in table.groups.iter_mut().skip(count) {
            *word = if rng.chance(50) { u64::MAX } else { rng.next() };
        }
    }
    if numbers == Numbers::Near && rng.chance(40) {
        table.most[count..].fill_with(|| number_beyond(rng));
    }
    (table, world.pool)
}

/// A number for a group beyond the count, such as none within may have too.
fn number_beyond(rng: &mut Rng) -> u8 {
    let any = rng.byte();
    rng.pick(&[0, 0, 2, 64, 65, 255, any])
}

/// Numbers about those of the tags that the other of a call, with the new right in a hand, or some
/// entity has of each group.
fn numbers_about(rng: &mut Rng, hub: &Hub, call: &Call) -> [u8; MOST_GROUPS] {
    let other = call.other.and_then(|slot| hub.entity(slot));
    let entities: Vec<&Entity> = hub.slots.iter().flatten().collect();
    let held = match other {
        Some(other) => receiver_with_right(other, call).tags(),
        None if entities.is_empty() => Tags::new(),
        None => rng.pick(&entities).tags(),
    };
    let mut most = [0; MOST_GROUPS].map(|_| number_beyond(rng));
    for (number, group) in most.iter_mut().zip(&hub.groups) {
        *number = near(rng, group.tags.intersection(&held).count());
    }
    most
}

/// A call with inputs that a text cannot give: buffers and puts of any length.
fn unbound_call(rng: &mut Rng, hub: &Hub, pool: &[u8]) -> Call {
    let mut call = call(rng, hub, pool, 0);
    match call.name {
        Name::Show => {
            let length = hub.entity(call.caller).map_or(0, |entity| entity.content.len());
            let any = rng.between(0, 80);
            let exact = [length, length, length + 1, length.saturating_sub(1), 0, 64, 65, any];
            call.buffer = vec![rng.byte(); rng.pick(&exact)];
        }
        Name::Put if rng.chance(30) => {
            let length = rng.pick(&[64, 65, 255, 256, 257, 260, 300]);
            call.bytes = rng.bytes(length);
        }
        _ => {}
    }
    call
}

/// What to check before a call: all that its other or some entity holds, some tags of a group, or
/// any tags; at times with the tag of the call or another one.
fn held(rng: &mut Rng, hub: &Hub, numbers: Numbers, pool: &[u8], call: &Call) -> Tags {
    let other = call.other.and_then(|slot| hub.entity(slot));
    let entities: Vec<&Entity> = hub.slots.iter().flatten().collect();
    let mut held = match (rng.below(10), other) {
        (0..=4, Some(other)) => other.tags(),
        (0..=5, _) if !entities.is_empty() => rng.pick(&entities).tags(),
        (6..=7, _) if !hub.groups.is_empty() => {
            let group = rng.pick(&hub.groups);
            match numbers {
                Numbers::Ones => group.tags.into_iter().filter(|_| rng.chance(70)).collect(),
                Numbers::Near => about_as_many(rng, group),
            }
        }
        (8, _) => from_word(rng.next() & rng.next()),
        _ => from_word(rng.pick(&[0, 0, u64::MAX])),
    };
    if rng.chance(60) {
        let tag = call.tag.filter(|tag| *tag <= LAST_TAG);
        held.insert(tag.unwrap_or_else(|| rng.pick(pool)));
    }
    held
}

/// Tags of a group, about as many as its number.
fn about_as_many(rng: &mut Rng, group: Group) -> Tags {
    let mut tags: Vec<u8> = group.tags.into_iter().collect();
    rng.shuffle(&mut tags);
    tags.truncate(group.most as usize + rng.below(2));
    tags.into_iter().collect()
}

/// Makes such a call, at times after new numbers.
fn library_call(rng: &mut Rng, script: &mut Script, pool: &[u8]) {
    let call = unbound_call(rng, &script.hub(), pool);
    if script.numbers == Numbers::Near && rng.chance(15) {
        let most = numbers_about(rng, &script.hub(), &call);
        script.push(&most_line(&most));
    }
    script.call(&script.hub(), pool, &call);
}

/// Calls on a table, and audits of their records. `breaking` puts an entity
/// that breaks a group into the table.
fn calls(rng: &mut Rng, script: &mut Script, breaking: bool) {
    let entities = rng.between(3, 10);
    let (mut table, pool) = table(rng, entities, script.numbers);
    if breaking {
        if table.group_count == 0 {
            table.group_count = 1;
            table.most[0] = 1;
        }
        let most = table.most[0].min(LAST_TAG);
        table.most[0] = most;
        let mut tags = Tags::new();
        for tag in pool.iter().copied().chain(0..=LAST_TAG) {
            if tags.len() <= most as usize {
                tags.insert(tag);
            }
        }
        table.groups[0] |= to_word(&tags);
        let slot = rng.below(SLOTS);
        let mut entity = Entity::new(Kind::Program, [pool[0]].into(), [].into());
        let right = rng.below(4);
        entity.rights[right].extend(tags);
        let mut hub = table.to_hub();
        hub.slots[slot] = Some(entity);
        let groups = (table.group_count, table.groups, table.most);
        table = Table::of_hub(&hub);
        (table.group_count, table.groups, table.most) = groups;
    }
    script.push(&table_lines(&table));
    for _ in 0..rng.between(8, 20) {
        library_call(rng, script, &pool);
        if rng.chance(12) {
            let list = script.state.records.clone();
            audit_of(rng, script, &list);
        }
    }
    audits_of_run(rng, script);
}

/// An audit with a buffer around the length that the visible records need.
fn audit_of(rng: &mut Rng, script: &mut Script, list: &[u8]) {
    let caller = caller(rng, &script.hub());
    let exact = script.visible(caller, list);
    let lengths = [exact, exact, exact.saturating_sub(1), exact + 1, exact + 20, list.len(), 0];
    let length = rng.pick(&lengths);
    script.audit(rng, caller, Some(list), length);
}

/// Audits of `run` by several callers, with buffers that are exact, a byte or a
/// record short, or longer.
fn audits_of_run(rng: &mut Rng, script: &mut Script) {
    for _ in 0..3 {
        let caller = caller(rng, &script.hub());
        let exact = script.visible(caller, &script.state.records);
        let more = exact + rng.between(1, 40);
        for length in [exact, exact.saturating_sub(1), exact.saturating_sub(LENGTH), more] {
            if rng.chance(50) {
                script.audit(rng, caller, None, length);
            }
        }
    }
}

/// Lists made by hand: any bytes 0 to 7, needs around the S of some caller.
fn lists(rng: &mut Rng, script: &mut Script) {
    let entities = rng.between(2, 6);
    let (mut table, pool) = table(rng, entities, script.numbers);
    let auditor = rng.below(SLOTS);
    table.entities[auditor].kind = RawKind::Program;
    table.entities[auditor].secrecy |= 1 << 5 | 1 << 63;
    script.push(&table_lines(&table));
    every_need(rng, script, auditor as u8);
    for _ in 0..rng.between(6, 12) {
        let caller = caller(rng, &script.hub());
        let secrecy = to_word(&script.hub().secrecy(caller));
        let mut list = Vec::new();
        let many = rng.between(5, 30);
        for _ in 0..rng.pick(&[0, 1, 2, 3, 4, 4, 5, many]) {
            list.extend(rng.bytes(8));
            let any = rng.next();
            let tag = 1u64 << rng.pick(&pool);
            let bit = 1u64 << rng.below(64);
            let need = rng.pick(&[0, secrecy, secrecy & any, secrecy | bit, secrecy | tag, tag, any]);
            list.extend(need.to_le_bytes());
        }
        if rng.chance(20) {
            let extra = rng.pick(&[1, 7, 8, 15]);
            list.extend(rng.bytes(extra));
        }
        if rng.chance(5) {
            list.pop();
        }
        audit_of(rng, script, &list);
    }
}

/// A list with a need of every kind, into buffers around its visible part and around
/// its whole length.
fn every_need(rng: &mut Rng, script: &mut Script, auditor: u8) {
    let secrecy = to_word(&script.hub().secrecy(auditor));
    let lowest = secrecy & secrecy.wrapping_neg();
    let within = secrecy ^ lowest;
    let outside = !secrecy & (!secrecy).wrapping_neg();
    let beyond = [secrecy | outside, within | outside, outside, u64::MAX];
    let mut needs = [[0, secrecy, within, lowest], beyond].concat();
    rng.shuffle(&mut needs);
    let mut list = Vec::new();
    for need in needs {
        list.extend(rng.bytes(8));
        list.extend(need.to_le_bytes());
    }
    let exact = script.visible(auditor, &list);
    for length in [exact, exact - 1, exact - LENGTH, exact + 1, list.len() - 1, list.len(), list.len() + 3] {
        script.audit(rng, auditor, Some(&list), length);
    }
    script.audit(rng, auditor, Some(&list[..list.len() - 1]), list.len());
    script.audit(rng, auditor, Some(&[]), 0);
}

/// Slots by what they hold.
fn slots_of(table: &Table, kind: RawKind) -> Vec<usize> {
    (0..SLOTS).filter(|slot| table.entities[*slot].kind == kind).collect()
}

/// The ways in which a table lacks the form, and more turns for a number outside 1 to 64.
const DEFECTS: usize = 20;
const NUMBER_DEFECTS: usize = 4;

fn put_defect(rng: &mut Rng, table: &mut Table, defect: usize) {
    let free = rng.pick(&slots_of(table, RawKind::Free));
    let item = rng.pick(&slots_of(table, RawKind::Item));
    let program = rng.pick(&slots_of(table, RawKind::Program));
    let taken = rng.pick(&[item, program]);
    let tags = 1u64 << rng.below(64);
    let area = |slot: usize| slot * MOST_CONTENT;
    match defect {
        0 => table.entities[program].length = 65,
        1 => table.entities[item].length = rng.pick(&[65, 66, 128, 255]),
        2 => {
            table.entities[taken].length = 63;
            table.content[area(taken) + 63] = 1;
        }
        3 => {
            table.entities[taken].length = 0;
            table.content[area(taken)] = 128;
        }
        4 => {
            let length = rng.between(0, 62);
            table.entities[taken].length = length as u8;
            table.content[area(taken) + rng.between(length, 63)] = 7;
        }
        5..=8 => table.entities[item].rights[defect - 5] = tags,
        9 => table.entities[free].secrecy = tags,
        10 => table.entities[free].integrity = tags,
        11..=14 => table.entities[free].rights[defect - 11] = tags,
        15 => table.entities[free].length = rng.pick(&[1, 64, 65, 255]),
        16 => table.content[area(free) + rng.pick(&[0, 1, 63])] = 255,
        17 => table.group_count = 9,
        18 => table.group_count = rng.pick(&[10, 64, 255]),
        20.. => {
            let count = rng.between(1, MOST_GROUPS);
            table.group_count = count as u8;
            table.most[..count].fill_with(|| rng.between(1, 64) as u8);
            let any = rng.between(66, 255) as u8;
            table.most[rng.below(count)] = rng.pick(&[0, 0, 65, 255, any]);
        }
        _ => {
            table.entities[31] = RawEntity::default();
            table.content[area(31)..].fill(0);
            table.content[2047] = 1;
        }
    }
}

/// Calls and audits on tables that lack the form, four ways in each turn; then an
/// audit of the last records after an accepted load.
fn lacking_form(rng: &mut Rng, script: &mut Script, turn: usize) {
    let (mut table, pool) = table(rng, 4, script.numbers);
    let defects = DEFECTS + if script.numbers == Numbers::Near { NUMBER_DEFECTS } else { 0 };
    for (slot, kind) in [(5, RawKind::Item), (9, RawKind::Program)] {
        table.entities[slot] = RawEntity { kind, ..RawEntity::default() };
        table.content[slot * MOST_CONTENT..][..MOST_CONTENT].fill(0);
    }
    let hub = table.to_hub();
    for way in 0..4 {
        let mut lacking = table.clone();
        put_defect(rng, &mut lacking, (DEFECTS + 4 * turn + way) % defects);
        script.push(&table_lines(&lacking));
        for name in Name::ALL {
            if rng.chance(40) {
                let caller = caller(rng, &hub);
                let length = rng.pick(&[0, 1, 64]);
                let call = call_of(rng, &hub, &pool, length, name, caller);
                script.call(&hub, &pool, &call);
            }
        }
        for _ in 0..2 {
            let caller = caller(rng, &hub);
            let length = rng.pick(&[0, 16, 17, 32]);
            let list = rng.bytes(length);
            let made = rng.chance(60).then_some(list.as_slice());
            let buffer = rng.pick(&[0, 16, 40]);
            script.audit(rng, caller, made, buffer);
        }
        if rng.chance(25) {
            script.push("dump\n");
        }
    }
    let text = round_draft(rng, script.numbers, 3, 1).text();
    script.push(&format!("load {}\n", hex::digits(&text)));
    audits_of_run(rng, script);
}

/// Tables at the limits of the form, where 99 does not apply.
fn at_limits(rng: &mut Rng, script: &mut Script) {
    let mut table = Table::empty();
    let full = u64::MAX;
    for slot in [0, 30, 31] {
        table.entities[slot] = RawEntity {
            kind: RawKind::Program,
            secrecy: rng.pick(&[0, 1, 1 << 63]),
            integrity: rng.pick(&[0, 1, 1 << 63]),
            rights: [(); 4].map(|_| rng.pick(&[0, 1, 1 << 63, full])),
            length: rng.pick(&[0, 1, 63, 64]),
        };
    }
    table.entities[15].kind = RawKind::Item;
    table.entities[15].length = 64;
    for slot in [0, 15, 30, 31] {
        let length = table.entities[slot].length as usize;
        let bytes = rng.bytes(length);
        table.content[slot * MOST_CONTENT..][..length].copy_from_slice(&bytes);
    }
    table.group_count = rng.pick(&[0, 1, 7, 8]);
    table.groups = [(); MOST_GROUPS].map(|_| rng.pick(&[0, 1, 1 << 63, 1 | 1 << 63, full]));
    if script.numbers == Numbers::Near {
        table.most = [(); MOST_GROUPS].map(|_| rng.pick(&[1, 2, 3, 63, 64]));
        table.most[table.group_count as usize..].fill_with(|| number_beyond(rng));
    }
    script.push(&table_lines(&table));
    for slot in [0, 30, 31] {
        let length = table.entities[slot].length as usize;
        for buffer in [length.saturating_sub(1), length, length + 1] {
            let fill = rng.byte();
            let show = Call::show(slot as u8, vec![fill; buffer]);
            script.call(&script.hub(), &[0, 63], &show);
        }
    }
    for _ in 0..rng.between(10, 20) {
        library_call(rng, script, &[0, 63]);
    }
    audits_of_run(rng, script);
}

/// Hands to programs that have as many tags of a group as its number, or one less.
fn at_numbers(rng: &mut Rng, script: &mut Script) {
    let mut table = Table::empty();
    table.entities[0] = RawEntity { kind: RawKind::Program, rights: [u64::MAX; 4], ..RawEntity::default() };
    table.group_count = rng.pick(&[1, 1, 1, 2, 3, 8]);
    let mut groups = Vec::new();
    for place in 0..table.group_count as usize {
        let any = rng.between(1, 64);
        let most = rng.pick(&[1, 2, 3, 3, 62, 63, 63, 64, 64, any]);
        let count = rng.between(most, 64);
        let group = some_tags(rng, count);
        table.most[place] = most as u8;
        table.groups[place] = word(&group);
        groups.push((group, most));
    }
    for slot in 1..5 {
        let (mut group, most) = rng.pick(&groups);
        rng.shuffle(&mut group);
        group.truncate(most - rng.below(2));
        let [secrecy, integrity, rights @ ..] = spread(rng, &group, 6);
        table.entities[slot] = RawEntity { kind: RawKind::Program, secrecy, integrity, rights, length: 0 };
    }
    script.push(&table_lines(&table));
    for _ in 0..rng.between(10, 20) {
        let (group, _) = rng.pick(&groups);
        let tag = if rng.chance(90) { rng.pick(&group) } else { rng.below(64) as u8 };
        let hand = Call::hand(0, rng.between(1, 4) as u8, rng.below(4) as u8, tag);
        script.call(&script.hub(), &group, &hand);
    }
    audits_of_run(rng, script);
}

/// Loads of accepted and refused texts over a table that is not empty.
fn loads(rng: &mut Rng, script: &mut Script, cases: &[Case]) {
    for _ in 0..rng.between(3, 5) {
        let (table, pool) = table(rng, 3, script.numbers);
        script.push(&table_lines(&table));
        let class = rng.pick(&[Class::Form, Class::Twice, Class::Breaks, Class::Inside, Class::Inside]);
        let of_class: Vec<&Case> = cases.iter().filter(|case| case.class == class).collect();
        let text = (of_class[rng.below(of_class.len())].make)(rng);
        if text.len() > 3_000 {
            continue;
        }
        script.push(&format!("load {}\n", hex::digits_or_dash(&text)));
        library_call(rng, script, &pool);
    }
}

/// What makes the list of `run` empty and what does not.
fn runs(rng: &mut Rng, script: &mut Script) {
    let (mut table, pool) = table(rng, 6, script.numbers);
    table.entities[7].kind = RawKind::Program;
    script.push(&table_lines(&table));
    audits_of_run(rng, script);
    some_calls(rng, script, &pool);
    if rng.chance(15) {
        for _ in 0..120 {
            library_call(rng, script, &pool);
        }
    }
    let mut auditor = script.state.table.entities[7];
    auditor.kind = RawKind::Program;
    auditor.secrecy = rng.pick(&[0, u64::MAX, 1 << pool[0], auditor.secrecy | 1 << pool[1]]);
    script.push(&slot_line(7, &auditor));
    let exact = script.visible(7, &script.state.records);
    for length in [exact, exact.saturating_sub(1)] {
        script.audit(rng, 7, None, length);
    }
    some_calls(rng, script, &pool);
    let text = round_draft(rng, script.numbers, 5, 1).text();
    let refused = &text[..text.len() - 1];
    let text = if rng.chance(70) { &text } else { refused };
    script.push(&format!("load {}\n", hex::digits(text)));
    audits_of_run(rng, script);
    some_calls(rng, script, &pool);
    script.push("table\n");
    script.push(&slot_line(7, &auditor));
    script.audit(rng, 7, None, 0);
    script.audit(rng, 7, None, 9);
    some_calls(rng, script, &pool);
}

fn some_calls(rng: &mut Rng, script: &mut Script, pool: &[u8]) {
    for _ in 0..rng.between(2, 6) {
        library_call(rng, script, pool);
    }
    audits_of_run(rng, script);
}
