//! Levels of random policies: numbers changed, loops, many levels, and records that no levels keep.

use crate::plain::policy::{atoms, Record};
use crate::policies::{access, credential_count, disclosures, draw, some};
use crate::random::Random;

/// Document 01's level, by number: policies of its shapes keep it before they are numbered anew.
pub fn by_number(atom: u8) -> u8 {
    atom / 8 + u8::from(atom == 63)
}

/// Whether rules keep levels by number.
pub fn kept_by_number(rules: &[Record]) -> bool {
    rules.iter().all(|rule| {
        let head = by_number(rule.head);
        atoms(rule.positive).all(|atom| by_number(atom) <= head)
            && atoms(rule.negative).all(|atom| by_number(atom) < head)
    })
}

/// Changes the numbers of derived atoms, 63 aside: not at all, turned round, moved on, or in any way. What each atom becomes.
pub fn renumber(random: &mut Random, records: &mut [Record]) -> [u8; 64] {
    let mut numbers: Vec<u8> = (16..=62).collect();
    match random.below(8) {
        0..=2 => {}
        3 => numbers.reverse(),
        4 => numbers.rotate_left(random.range(1, 46)),
        _ => random.shuffle(&mut numbers),
    }
    let mut becomes: [u8; 64] = std::array::from_fn(|atom| atom as u8);
    becomes[16..63].copy_from_slice(&numbers);
    let moved = |set: u64| atoms(set).fold(0, |all, atom| all | 1 << becomes[usize::from(atom)]);
    for record in records.iter_mut().filter(|record| record.kind == 1) {
        record.head = becomes[usize::from(record.head)];
        record.positive = moved(record.positive);
        record.negative = moved(record.negative);
    }
    becomes
}

/// So many derived atoms, 63 aside: rising, falling, or in any order.
fn derived(random: &mut Random, count: usize) -> Vec<u8> {
    let mut atoms = some(random, count, 16, 62);
    match random.below(5) {
        0 => atoms.sort_unstable(),
        1 => atoms.sort_unstable_by(|one, other| other.cmp(one)),
        _ => {}
    }
    atoms
}

/// The records as they are, turned round or mixed.
fn ordered(random: &mut Random, mut records: Vec<Record>) -> Vec<Record> {
    match random.below(3) {
        0 => records.reverse(),
        1 => random.shuffle(&mut records),
        _ => {}
    }
    records
}

/// Each atom if the next one, and the last if the first; at some places if not.
pub fn ring(atoms: &[u8], negated: u64) -> Vec<Record> {
    let next = atoms.iter().cycle().skip(1);
    let pairs = atoms.iter().zip(next).enumerate();
    pairs
        .map(|(k, (head, body))| match negated >> k & 1 {
            0 => access(*head, 1 << body, 0),
            _ => access(*head, 0, 1 << body),
        })
        .collect()
}

/// Some credentials, and rules by which they may be asked for.
fn shown(random: &mut Random) -> (Vec<u8>, Vec<Record>) {
    let count = credential_count(random).min(8);
    let credentials = some(random, count, 0, 15);
    let rules = disclosures(random, &credentials);
    (credentials, rules)
}

/// The breach mark by credentials, or by an atom, or by its lack; mostly not at all.
fn breach(random: &mut Random, credentials: &[u8], atom: u8) -> Vec<Record> {
    let body = draw(random, credentials, 2);
    match random.below(6) {
        0 => vec![access(63, body, 0)],
        1 => vec![access(63, body, 1 << atom)],
        2 => vec![access(63, body | 1 << atom, 0)],
        _ => Vec::new(),
    }
}

/// Positive loops, each entered by credentials, or by an atom of the one before or by its lack; some have rules across, and some
/// rules that never apply.
pub fn loops(random: &mut Random) -> Vec<Record> {
    let (credentials, mut records) = shown(random);
    let count = random.pick(&[1, 2, 2, 3, 4, 6, 9, 12, 20, 47]);
    let atoms = derived(random, count);
    let (mut left, mut before): (&[u8], Option<u8>) = (&atoms, None);
    while !left.is_empty() {
        let most = random.pick(&[1, 2, 3, 8, 47]).min(left.len());
        let (group, rest) = left.split_at(random.range(1, most));
        records.extend(ring(group, 0));
        let way = draw(random, &credentials, 1);
        let (one, other) = (random.pick(group), random.pick(group));
        records.push(match before {
            Some(atom) if random.one_in(3) => access(one, 0, 1 << atom),
            Some(atom) if random.one_in(2) => access(one, way | 1 << atom, 0),
            _ => access(one, way, 0),
        });
        match random.below(4) {
            0 => records.push(access(other, 1 << one, 0)),
            1 => records.push(access(other, 1 << one | way, way)),
            _ => {}
        }
        before = Some(other);
        left = rest;
    }
    records.extend(breach(random, &credentials, atoms[count - 1]));
    ordered(random, records)
}

/// Up to 48 levels of "not", some with other rules.
pub fn tower(random: &mut Random) -> Vec<Record> {
    let (credentials, mut records) = shown(random);
    let count = random.pick(&[2, 5, 9, 10, 24, 47, 47]);
    let atoms = derived(random, count);
    let mut before = random.pick(&credentials);
    for (k, atom) in atoms.iter().enumerate() {
        let more = random.pick(&[0, 0, 0, 1]);
        let body = draw(random, &credentials, more);
        records.push(access(*atom, body, 1 << before));
        if k > 0 && random.one_in(8) {
            let body = 1 << random.pick(&atoms[..k]) | draw(random, &credentials, 1);
            records.push(access(*atom, body, 0));
        }
        before = *atom;
    }
    match random.one_in(2) {
        true => records.push(access(63, draw(random, &credentials, 1), 1 << before)),
        false => records.extend(breach(random, &credentials, before)),
    }
    ordered(random, records)
}

/// A chain of up to 47 rules.
pub fn chain(random: &mut Random) -> Vec<Record> {
    let (credentials, mut records) = shown(random);
    let count = random.pick(&[5, 9, 10, 20, 47]);
    let atoms = derived(random, count);
    let mut before = random.pick(&credentials);
    for atom in &atoms {
        records.push(access(*atom, 1 << before, 0));
        before = *atom;
    }
    records.extend(breach(random, &credentials, before));
    ordered(random, records)
}

/// Long bodies: each atom by those before it, which must hold, must not, or do not matter.
pub fn dense(random: &mut Random) -> Vec<Record> {
    let (credentials, mut records) = shown(random);
    let count = random.pick(&[4, 8, 20, 47]);
    let atoms = derived(random, count);
    let mut before = credentials.iter().fold(0, |set, atom| set | 1u64 << atom);
    for atom in &atoms {
        let held = random.part(before) & random.number() & random.number();
        let negated = random.part(before & !held) & random.number();
        records.push(access(*atom, held, negated));
        before |= 1 << atom;
    }
    records.extend(breach(random, &credentials, atoms[count - 1]));
    ordered(random, records)
}

/// How many atoms a loop through "not" has.
const SIZES: [usize; 16] = [1, 1, 1, 2, 2, 2, 3, 3, 3, 4, 5, 8, 9, 12, 20, 47];

/// Rules that no levels keep: a loop of "not" alone, with one "not", or with some; a positive loop with a "not" inside it; one
/// in which only a rule that never applies has the "not".
pub fn broken(random: &mut Random) -> Vec<Record> {
    let size = random.pick(&SIZES);
    let atoms = derived(random, size);
    let place = random.below(size);
    let all = (1 << size) - 1;
    let mut rules = match random.below(6) {
        0 => ring(&atoms, all),
        1 => ring(&atoms, 1 << place),
        2 => ring(&atoms, random.part(all) | 1 << place),
        3 | 4 => {
            let (head, body) = (random.pick(&atoms), random.pick(&atoms));
            let mut rules = ring(&atoms, 0);
            rules.push(access(head, 0, 1 << body));
            rules
        }
        _ => {
            let mut rules = ring(&atoms, 1 << place);
            rules[place].positive |= rules[place].negative;
            rules
        }
    };
    for rule in &mut rules {
        let one = 1 << random.below(16);
        let more = random.pick(&[0, 0, one]);
        rule.positive |= more;
    }
    ordered(random, rules)
}

/// Puts records among others: all in one place, or each in one of its own.
pub fn scatter(random: &mut Random, records: &mut Vec<Record>, more: Vec<Record>) {
    let place = random.below(records.len() + 1);
    let place = random.pick(&[0, place, records.len()]);
    if random.one_in(2) {
        records.splice(place..place, more);
        return;
    }
    for record in more {
        records.insert(random.below(records.len() + 1), record);
    }
}

/// Few rules over few atoms: half of such policies have levels.
pub fn tiny(random: &mut Random) -> Vec<Record> {
    let count = random.range(1, 4);
    let mut atoms = some(random, count, 16, 62);
    if random.one_in(3) {
        atoms = [16, 17, 24, 62][..count].to_vec();
    }
    let rules = random.range(1, 2 * count);
    let rule = |_| {
        let head = match random.one_in(12) {
            true => 63,
            false => random.pick(&atoms),
        };
        let (held, negated) = (random.pick(&[0, 1, 1, 2]), random.pick(&[0, 0, 0, 1, 1]));
        let credential = match random.one_in(4) {
            true => 1 << random.below(16),
            false => 0,
        };
        let positive = draw(random, &atoms, held) | credential;
        access(head, positive, draw(random, &atoms, negated))
    };
    (0..rules).map(rule).collect()
}
