//! Random policies of the written form, of many shapes. Those of this file keep levels by number, and are then numbered anew.

use crate::leveling::{self, by_number as level, renumber};
use crate::plain::policy::{Record, ACCESS, DISCLOSURE, WEIGHT};
use crate::random::Random;
use crate::weighing::weigh;

/// The bytes of records.
pub fn encode(records: &[Record]) -> Vec<u8> {
    let mut bytes = Vec::with_capacity(18 * records.len());
    for record in records {
        bytes.extend([record.kind, record.head]);
        bytes.extend(record.positive.to_le_bytes());
        bytes.extend(record.negative.to_le_bytes());
    }
    bytes
}

pub fn access(head: u8, positive: u64, negative: u64) -> Record {
    Record {
        kind: ACCESS,
        head,
        positive,
        negative,
    }
}

pub fn disclosure(head: u8, positive: u64) -> Record {
    Record {
        kind: DISCLOSURE,
        head,
        positive,
        negative: 0,
    }
}

pub fn weight(head: u8, weight: u64) -> Record {
    Record {
        kind: WEIGHT,
        head,
        positive: weight,
        negative: 0,
    }
}

/// The atoms that rules are drawn from.
struct Pool {
    credentials: Vec<u8>,
    derived: Vec<u8>,
}

/// So many different numbers of a range, in random order.
pub(crate) fn some(random: &mut Random, count: usize, first: u8, last: u8) -> Vec<u8> {
    let mut all: Vec<u8> = (first..=last).collect();
    random.shuffle(&mut all);
    all.truncate(count);
    all
}

/// How many credentials a policy speaks of: mostly few, for a round tries the subsets of those that may be asked.
pub(crate) fn credential_count(random: &mut Random) -> usize {
    match random.below(1000) {
        0..=549 => random.range(1, 5),
        550..=879 => random.range(5, 8),
        880..=984 => random.range(8, 11),
        _ => random.range(12, 16),
    }
}

fn pool(random: &mut Random, most_derived: usize) -> Pool {
    let credentials = credential_count(random);
    let derived = random.range(1, most_derived);
    Pool {
        credentials: some(random, credentials, 0, 15),
        derived: some(random, derived, 16, 62),
    }
}

/// A set of so many atoms of those allowed.
pub(crate) fn draw(random: &mut Random, from: &[u8], count: usize) -> u64 {
    if from.is_empty() {
        return 0;
    }
    (0..count).fold(0, |set, _| set | 1 << random.pick(from))
}

/// A rule for a head with a body from the pool, levels kept.
fn rule(random: &mut Random, pool: &Pool, head: u8) -> Record {
    let own = level(head);
    let up_to = |most: u8| -> Vec<u8> {
        let derived = pool.derived.iter().filter(|atom| level(**atom) <= most);
        derived.copied().collect()
    };
    let credentials = [0, 0, 1, 1, 1, 2, 2, 3, 6];
    let counts = [0, 0, 0, 0, 1, 1, 2, 4];
    let (held, absent) = (up_to(own), up_to(own - 1));
    let positive_credentials = random.pick(&credentials);
    let positive_derived = random.pick(&counts);
    let negative_credentials = random.pick(&counts);
    let negative_derived = random.pick(&counts);
    let positive = draw(random, &pool.credentials, positive_credentials)
        | draw(random, &held, positive_derived);
    let negative = draw(random, &pool.credentials, negative_credentials)
        | draw(random, &absent, negative_derived);
    let two_sided = random.one_in(40);
    access(
        head,
        positive,
        if two_sided {
            negative
        } else {
            negative & !positive
        },
    )
}

/// Disclosure rules for credentials: all always, a chain, random bodies, or only some of them.
pub(crate) fn disclosures(random: &mut Random, credentials: &[u8]) -> Vec<Record> {
    let style = random.below(5);
    let mut rules = Vec::new();
    for (place, head) in credentials.iter().enumerate() {
        let before = if place == 0 {
            0
        } else {
            1 << credentials[place - 1]
        };
        match style {
            0 | 1 => rules.push(disclosure(*head, 0)),
            2 => rules.push(disclosure(*head, before)),
            3 => {
                let count = random.pick(&[0, 0, 1, 1, 2]);
                rules.push(disclosure(*head, draw(random, credentials, count)));
            }
            _ if random.one_in(2) => rules.push(disclosure(*head, 0)),
            _ => {}
        }
    }
    if random.one_in(4) {
        let head = random.pick(credentials);
        let body = draw(random, credentials, 2);
        rules.push(disclosure(head, body));
    }
    rules
}

/// Rules over a pool, some for the breach mark.
fn random_rules(random: &mut Random, most_derived: usize, most_rules: usize) -> Vec<Record> {
    let pool = pool(random, most_derived);
    let mut records = disclosures(random, &pool.credentials);
    for _ in 0..random.below(most_rules + 1) {
        let head = if random.one_in(10) {
            63
        } else {
            random.pick(&pool.derived)
        };
        records.push(rule(random, &pool, head));
    }
    records
}

/// A service with several alternatives, direct or by way of a role, some spoilt by "not" or by the breach mark.
fn alternatives(random: &mut Random) -> Vec<Record> {
    let count = credential_count(random).max(2);
    let credentials = some(random, count, 0, 15);
    let service = random.range(16, 62) as u8;
    let mut records = disclosures(random, &credentials);
    for _ in 0..random.pick(&[1, 2, 3, 4, 5, 6, 8, 12]) {
        let size = random.pick(&[1, 1, 2, 2, 2, 3, 3, 4]);
        let body = draw(random, &credentials, size);
        let negated = random.pick(&[0, 0, 0, 1]);
        let not = draw(random, &credentials, negated) & !body;
        let role = random.range(16, service.into()) as u8;
        if random.one_in(3) && role != service {
            records.push(access(role, body, not));
            records.push(access(service, 1 << role, 0));
        } else {
            records.push(access(service, body, not));
        }
    }
    for _ in 0..random.pick(&[0, 0, 1, 2]) {
        let body = draw(random, &credentials, 2);
        records.push(access(63, body, 0));
    }
    records
}

/// Chains within levels, each begun by a credential or by "not" of the chain below.
fn chains(random: &mut Random) -> Vec<Record> {
    let count = credential_count(random);
    let credentials = some(random, count, 0, 15);
    let mut records = disclosures(random, &credentials);
    let mut last: Option<u8> = None;
    for level in random.range(2, 4)..=random.range(4, 7) {
        let first = 8 * level as u8;
        let end = first + random.range(0, if level == 7 { 6 } else { 7 }) as u8;
        let not = match last {
            Some(atom) if random.one_in(2) => 1 << atom,
            _ => 0,
        };
        let body = draw(random, &credentials, 1);
        records.push(access(first, if not == 0 { body } else { 0 }, not));
        for atom in first + 1..=end {
            let count = usize::from(random.one_in(4));
            let more = draw(random, &credentials, count);
            records.push(access(atom, 1 << (atom - 1) | more, 0));
        }
        last = Some(end);
    }
    if let Some(atom) = last {
        if random.one_in(3) {
            records.push(access(63, draw(random, &credentials, 2), 1 << atom));
        }
    }
    match random.below(3) {
        0 => records.reverse(),
        1 => random.shuffle(&mut records),
        _ => {}
    }
    records
}

/// "not" across levels: each level has an atom if the one below has none.
fn ladder(random: &mut Random) -> Vec<Record> {
    let count = credential_count(random);
    let credentials = some(random, count, 0, 15);
    let mut records = disclosures(random, &credentials);
    let mut below = random.pick(&credentials);
    for level in 2..=7u8 {
        let atom = 8 * level + random.below(7) as u8;
        let count = usize::from(random.one_in(3));
        records.push(access(atom, draw(random, &credentials, count), 1 << below));
        below = atom;
    }
    if random.one_in(2) {
        records.push(access(63, draw(random, &credentials, 1), 1 << below));
    }
    random.shuffle(&mut records);
    records
}

/// Heads, positive and negated atoms at the edges of what the written form allows.
fn edges(random: &mut Random) -> Vec<Record> {
    let mut records = Vec::new();
    for _ in 0..random.range(1, 12) {
        let head = random.pick(&[16, 17, 23, 24, 31, 32, 47, 48, 55, 56, 62, 63]);
        let own = level(head);
        let top = if own >= 7 { 62 } else { 8 * own + 7 };
        let below = if own == 8 { 62 } else { 8 * own - 1 };
        let held = random.pick(&[top, top, 8 * own.min(7), below, 15, 0]);
        let absent = random.pick(&[below, below, 8 * (own - 1), 15, 0]);
        let positive = if random.one_in(2) { 1 << held } else { 0 };
        let negative = if random.one_in(2) { 1 << absent } else { 0 };
        records.push(access(head, positive, negative));
    }
    for _ in 0..random.below(4) {
        let body = random.pick(&[0, 1, 0x8000, 0xffff, 3]);
        records.push(disclosure(random.pick(&[0, 1, 14, 15]), body));
    }
    random.shuffle(&mut records);
    records
}

/// A service that each askable credential gives alone, or gives with one more: long sessions.
fn singles(random: &mut Random) -> Vec<Record> {
    let count = match random.below(12) {
        0..=7 => random.range(1, 10),
        8 => random.range(11, 15),
        _ => 16,
    };
    let credentials = some(random, count, 0, 15);
    let service = random.range(16, 62) as u8;
    let mut records = Vec::new();
    for head in &credentials {
        records.push(disclosure(*head, 0));
        records.push(access(service, 1 << head, 0));
    }
    random.shuffle(&mut records);
    records
}

/// A service that needs many credentials at once: large questions, many candidates before them.
fn wide(random: &mut Random) -> Vec<Record> {
    let count = random.pick(&[5, 6, 7, 8, 8, 9, 9, 10, 10, 11, 12]);
    let count = if random.one_in(50) { 16 } else { count };
    let credentials = some(random, count, 0, 15);
    let service = random.range(16, 62) as u8;
    let mut records = disclosures(random, &credentials);
    for _ in 0..random.range(1, 3) {
        let size = random.range(count / 2, count);
        let body = credentials[..size].iter().fold(0, |set, c| set | 1 << c);
        let spare = draw(random, &credentials, 1);
        let not = if random.one_in(3) { spare & !body } else { 0 };
        records.push(access(service, body, not));
    }
    records
}

/// Records that change little: repeated ones, ones that never apply, another order.
fn decorate(random: &mut Random, records: &mut Vec<Record>) {
    if !records.is_empty() && random.one_in(6) {
        let again = records[random.below(records.len())];
        records.push(again);
    }
    if random.one_in(10) {
        let atom = random.below(16);
        records.push(access(random.range(16, 63) as u8, 1 << atom, 1 << atom));
    }
    if random.one_in(3) {
        random.shuffle(records);
    }
}

/// Records up to the most there may be.
fn fill(random: &mut Random, records: &mut Vec<Record>) {
    let pool = pool(random, 20);
    let full = if random.one_in(2) {
        128
    } else {
        random.range(100, 128)
    };
    while records.len() < full {
        let head = random.pick(&pool.derived);
        records.push(rule(random, &pool, head));
    }
    random.shuffle(records);
}

/// A policy of the written form.
pub fn accepted(random: &mut Random) -> Vec<Record> {
    let mut records = match random.below(120) {
        0..=1 => Vec::new(),
        2..=21 => random_rules(random, 6, 10),
        22..=29 => random_rules(random, 20, 40),
        30..=32 => random_rules(random, 46, 110),
        33..=59 => alternatives(random),
        60..=69 => chains(random),
        70..=76 => ladder(random),
        77..=84 => edges(random),
        85..=90 => singles(random),
        91..=95 => wide(random),
        96..=105 => leveling::loops(random),
        106..=109 => leveling::tower(random),
        110..=112 => leveling::chain(random),
        113..=115 => leveling::dense(random),
        _ => {
            let mut records = alternatives(random);
            fill(random, &mut records);
            records
        }
    };
    decorate(random, &mut records);
    weigh(random, &mut records);
    records.truncate(128);
    renumber(random, &mut records);
    records
}

/// A policy of the written form under which there is much to ask.
pub fn talkative(random: &mut Random) -> Vec<Record> {
    let mut records = match random.below(10) {
        0..=4 => alternatives(random),
        5 | 6 => singles(random),
        7 => wide(random),
        8 => leveling::loops(random),
        _ => random_rules(random, 3, 16),
    };
    decorate(random, &mut records);
    weigh(random, &mut records);
    records.truncate(128);
    renumber(random, &mut records);
    records
}

/// A policy under which a client that holds some set, and lacks others that are asked for first, is let in; and that set.
pub fn licensed(random: &mut Random) -> (Vec<Record>, u16) {
    let count = random.range(3, 9);
    let credentials = some(random, count, 0, 15);
    let held_count = random.range(1, 3.min(count - 1));
    let (held, lacked) = credentials.split_at(held_count);
    let service = random.range(16, 62) as u8;
    let body = held.iter().fold(0, |set, atom| set | 1u64 << atom);
    let mut records = vec![access(service, body, 0)];
    records.extend(held.iter().map(|head| disclosure(*head, 0)));
    let askable = random.range(0, lacked.len());
    for head in &lacked[..askable] {
        records.push(disclosure(*head, 0));
        let more = random.pick(&[0, 0, 0, 1]);
        let with = draw(random, &credentials, more);
        records.push(access(service, 1 << head | with, 0));
    }
    if random.one_in(3) && lacked.len() > 1 {
        records.push(access(63, 1 << lacked[0] | 1 << lacked[1], 0));
    }
    if random.one_in(3) {
        records.push(access(service, draw(random, held, 1), 1 << lacked[0]));
    }
    random.shuffle(&mut records);
    weigh(random, &mut records);
    renumber(random, &mut records);
    let extra = random.part(
        lacked[askable..]
            .iter()
            .fold(0, |set, atom| set | 1 << atom),
    );
    (records, (body | extra) as u16)
}
