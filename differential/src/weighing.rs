//! Records of kind 3 for random policies: which credentials weigh what, and where the records stand.

use crate::plain::policy::{Record, ACCESS, DISCLOSURE};
use crate::policies::weight;
use crate::random::Random;
use crate::requests::named;

/// The weights of sixteen credentials: any, equal, none or most, small, all different, all but a few equal.
pub fn weights(random: &mut Random) -> [u8; 16] {
    let equal = random.below(16) as u8;
    let mut different: [u8; 16] = std::array::from_fn(|k| k as u8);
    random.shuffle(&mut different);
    match random.below(8) {
        0 => [equal; 16],
        1 => std::array::from_fn(|_| random.pick(&[0, 15])),
        2 => std::array::from_fn(|_| random.pick(&[0, 0, 1, 2])),
        3 | 4 => std::array::from_fn(|_| random.range(0, 4) as u8),
        5 => different,
        6 => std::array::from_fn(|_| random.pick(&[equal, equal, equal, 0, 15])),
        _ => std::array::from_fn(|_| random.below(16) as u8),
    }
}

/// Which credentials are named: one, few, those of the rules, all sixteen, those that no rule discloses or reads.
fn heads(random: &mut Random, records: &[Record]) -> Vec<u8> {
    let spoken = named(records);
    let disclosed = records.iter().filter(|record| record.kind == DISCLOSURE);
    let disclosed = disclosed.fold(0, |set, record| set | 1 << record.head);
    let set: u16 = match random.below(10) {
        0 => 1 << random.below(16),
        1 => random.word() & random.word(),
        2 | 3 => 0xffff,
        4 => !spoken,
        5 => spoken & !disclosed,
        6 | 7 => random.credentials(spoken),
        _ => spoken,
    };
    let mut heads: Vec<u8> = (0..16).filter(|k| set >> k & 1 == 1).collect();
    random.shuffle(&mut heads);
    heads
}

/// In half of the policies, weights: before the rules, after them, in one place among them, or anywhere.
pub fn weigh(random: &mut Random, records: &mut Vec<Record>) {
    if random.one_in(2) {
        return;
    }
    let weights = weights(random);
    let heads = heads(random, records);
    let weigh = |head| weight(head, weights[usize::from(head)].into());
    let more = heads.into_iter().map(weigh);
    if random.one_in(3) {
        more.for_each(|record| records.insert(random.below(records.len() + 1), record));
        return;
    }
    let place = random.below(records.len() + 1);
    let place = random.pick(&[0, records.len(), place]);
    records.splice(place..place, more);
}

/// A record of kind 3 with one fault: the head, the weight, or the negated set.
pub fn faulty(random: &mut Random) -> Record {
    let head = random.below(16) as u8;
    let small = random.below(16) as u64;
    match random.below(8) {
        0 => weight(random.pick(&[16, 16, 17, 63, 64, 255]), small),
        1 => weight(head, 16),
        2 => weight(head, random.pick(&[17, 31, 255, 1 << 63, u64::MAX])),
        3 | 4 => weight(head, small | 1 << random.range(8, 63)),
        5 => weight(head, small | random.number() << 8),
        _ => Record {
            negative: 1 << random.below(64),
            ..weight(head, small)
        },
    }
}

/// A second weight for one credential: by an equal record or another, which may be wrong itself, next to the first or anywhere
/// after it.
pub fn insert_second(random: &mut Random, records: &mut Vec<Record>) {
    let weights = records.iter().enumerate().filter(|(_, r)| r.kind == 3);
    let mut places: Vec<usize> = weights.map(|(k, _)| k).collect();
    if places.is_empty() {
        let first = weight(random.below(16) as u8, random.below(16) as u64);
        let place = random.below(records.len() + 1);
        records.insert(place, first);
        places.push(place);
    }
    let place = random.pick(&places);
    let again = records[place];
    let second = match random.below(6) {
        0..=2 => again,
        3 | 4 => weight(again.head, random.below(16) as u64),
        _ => Record {
            head: again.head,
            ..faulty(random)
        },
    };
    let next = match random.below(3) {
        0 => place + 1,
        1 => records.len(),
        _ => random.range(place + 1, records.len()),
    };
    records.insert(next, second);
}

/// Heads and weights at which a test may turn.
const HEADS: [u8; 10] = [0, 1, 14, 15, 15, 15, 16, 63, 64, 255];
const WEIGHTS: [u64; 10] = [15, 15, 16, 17, 255, 256, 0x10f, 1 << 32, 1 << 63, u64::MAX];

/// A record at the edges of what is allowed of kind 3, or of another kind with such a head.
fn edge(random: &mut Random) -> Record {
    let number = match random.one_in(3) {
        true => random.pick(&WEIGHTS),
        false => random.below(16) as u64,
    };
    let record = weight(random.pick(&HEADS), number);
    match random.below(14) {
        0 => Record {
            negative: random.pick(&[1, 1 << 63]),
            ..record
        },
        1 | 2 => Record {
            kind: random.pick(&[0, 4, 255, ACCESS, DISCLOSURE, DISCLOSURE]),
            positive: 0,
            ..record
        },
        _ => record,
    }
}

/// A few of them.
pub fn edges(random: &mut Random) -> Vec<Record> {
    (0..random.range(1, 5)).map(|_| edge(random)).collect()
}
