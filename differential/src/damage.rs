//! Damaged policies, and policies just at a boundary of the written form.

use crate::leveling::{broken, scatter, tiny};
use crate::plain::policy::{read, Record};
use crate::policies::{accepted, access, disclosure, encode, weight};
use crate::random::Random;
use crate::weighing::{self, insert_second};

/// Bytes at which a test may turn.
const BYTES: [u8; 15] = [0, 1, 2, 3, 4, 7, 8, 15, 16, 23, 63, 64, 127, 128, 255];

/// Lengths at which a test may turn.
const LENGTHS: [usize; 15] = [
    0, 1, 17, 18, 19, 35, 36, 2286, 2287, 2303, 2304, 2305, 2306, 2322, 2400,
];

fn flip_bit(random: &mut Random, bytes: &mut [u8]) {
    if !bytes.is_empty() {
        bytes[random.below(bytes.len())] ^= 1 << random.below(8);
    }
}

fn change_byte(random: &mut Random, bytes: &mut [u8]) {
    if bytes.is_empty() {
        return;
    }
    let at = random.below(bytes.len());
    bytes[at] = if random.one_in(2) {
        random.pick(&BYTES)
    } else {
        random.byte()
    };
}

/// A change of a kind or a head, the bytes that decide most.
fn change_front(random: &mut Random, bytes: &mut [u8]) {
    let records = bytes.len() / 18;
    if records > 0 {
        bytes[18 * random.below(records) + random.below(2)] = random.pick(&BYTES);
    }
}

fn set_length(random: &mut Random, bytes: &mut Vec<u8>) {
    let length = match random.below(4) {
        0 => bytes.len().saturating_sub(random.range(1, 40)),
        1 => bytes.len() + random.range(1, 40),
        2 => random.pick(&LENGTHS),
        _ => random.below(2420),
    };
    while bytes.len() < length {
        bytes.push(random.byte());
    }
    bytes.truncate(length);
}

/// A record with one fault, of number 3 to 5 or 12, or a rule that no levels keep, as near to a right one as can be.
fn faulty(random: &mut Random) -> Record {
    let right = access(24, 0x0100_0000, 0x0080_0000);
    match random.below(16) {
        0 => Record { kind: 0, ..right },
        1 => Record { kind: 4, ..right },
        2 => access(random.pick(&[15, 64, 0, 255]), 0, 0),
        3 => disclosure(random.pick(&[16, 63, 255]), 0),
        4 => access(63, 1 << 63, 0),
        5 => access(63, 0, 1 << 63),
        6 => disclosure(3, 1 << 16),
        7 => Record {
            negative: 1 << random.below(64),
            ..disclosure(3, 0)
        },
        8 => access(24, 0, 1 << 24),
        9 => access(62, 1 << 62, 1 << 62),
        10..=13 => weighing::faulty(random),
        14 => access(16, 0, 1 << 16 | 1 << 63),
        _ => access(17, 1, 1 << 17),
    }
}

fn insert_faulty(random: &mut Random, bytes: &mut Vec<u8>) {
    let at = 18 * random.below(bytes.len() / 18 + 1);
    let record = faulty(random);
    bytes.splice(at..at, encode(&[record]));
}

/// Changes the records, if they are whole.
fn change_records(bytes: &mut Vec<u8>, change: impl FnOnce(&mut Vec<Record>)) {
    if bytes.len().is_multiple_of(18) {
        let mut records: Vec<Record> = bytes.chunks(18).map(read).collect();
        change(&mut records);
        *bytes = encode(&records);
    }
}

/// A second weight.
fn insert_again(random: &mut Random, bytes: &mut Vec<u8>) {
    change_records(bytes, |records| insert_second(random, records));
}

/// Rules that no levels keep.
fn insert_broken(random: &mut Random, bytes: &mut Vec<u8>) {
    change_records(bytes, |records| {
        let rules = broken(random);
        scatter(random, records, rules);
    });
}

/// Rules that no levels keep, and besides them one other fault, of any number, before them, after them or among them.
fn beside_broken(random: &mut Random) -> Vec<u8> {
    let mut records = accepted(random);
    records.truncate(random.pick(&[0, 1, 3, 60]));
    let rules = broken(random);
    scatter(random, &mut records, rules);
    let small = random.below(16) as u8;
    match random.below(8) {
        0 => scatter(random, &mut records, vec![access(24, 1, 1 << 63)]),
        1 => scatter(random, &mut records, vec![disclosure(small, 1 << 16)]),
        2 => scatter(random, &mut records, vec![access(small, 0, 0)]),
        3 => scatter(random, &mut records, vec![weight(small, 16)]),
        4 | 5 => insert_second(random, &mut records),
        6 => {
            let kind = random.pick(&[0, 4, 255]);
            let record = Record {
                kind,
                ..access(24, 1, 0)
            };
            scatter(random, &mut records, vec![record]);
        }
        _ => {
            let mut bytes = encode(&records);
            set_length(random, &mut bytes);
            return bytes;
        }
    }
    encode(&records)
}

/// One bit more in a body.
fn add_atom(random: &mut Random, bytes: &mut [u8]) {
    let records = bytes.len() / 18;
    if records > 0 {
        bytes[18 * random.below(records) + random.range(2, 17)] |= 1 << random.below(8);
    }
}

/// 128 records, among them rules that no levels keep: at the end, at the beginning or anywhere.
fn full_broken(random: &mut Random) -> Vec<u8> {
    let mut records = broken(random);
    let rest = 128 - records.len();
    let others = vec![access(16, 1, 2); rest];
    match random.below(3) {
        0 => records.extend(others),
        1 => records = [others, records].concat(),
        _ => scatter(random, &mut records, others),
    }
    encode(&records)
}

/// Random records whose kinds and heads are mostly right, so that the tests after them are reached.
fn nearly_random(random: &mut Random) -> Vec<u8> {
    let mut records = Vec::new();
    for _ in 0..random.below(12) {
        let sparse = random.number() & random.number() & random.number();
        let other = random.number() & random.number() & random.number() & random.number();
        let head = random.range(16, 64) as u8;
        let mut record = if random.one_in(4) {
            weight(random.below(17) as u8, random.below(17) as u64)
        } else if random.one_in(3) {
            disclosure(random.below(17) as u8, sparse & 0x1_ffff)
        } else if random.one_in(2) {
            access(head, sparse & low(head), other & low(head))
        } else {
            access(head, sparse, other)
        };
        if random.one_in(30) {
            record.kind = random.byte();
        }
        records.push(record);
    }
    encode(&records)
}

/// The atoms below a number, or all.
fn low(head: u8) -> u64 {
    if head < 64 {
        (1 << head) - 1
    } else {
        u64::MAX
    }
}

fn random_bytes(random: &mut Random) -> Vec<u8> {
    let length = if random.one_in(2) {
        18 * random.below(132)
    } else {
        random.below(2420)
    };
    (0..length).map(|_| random.byte()).collect()
}

/// An accepted policy with one to four faults, or bytes that never were one.
pub fn damaged(random: &mut Random) -> Vec<u8> {
    match random.below(10) {
        0 => return random_bytes(random),
        1 | 2 => return nearly_random(random),
        3 if random.one_in(8) => return full_broken(random),
        3 => return beside_broken(random),
        _ => {}
    }
    let mut bytes = encode(&accepted(random));
    for _ in 0..random.pick(&[1, 1, 1, 2, 3, 4]) {
        match random.below(12) {
            0 => flip_bit(random, &mut bytes),
            1 => change_byte(random, &mut bytes),
            2 => change_front(random, &mut bytes),
            3 => set_length(random, &mut bytes),
            4 | 5 => add_atom(random, &mut bytes),
            6 | 7 => insert_again(random, &mut bytes),
            8 | 9 => insert_broken(random, &mut bytes),
            _ => insert_faulty(random, &mut bytes),
        }
    }
    bytes
}

/// One record at a boundary: head, one positive and one negated atom at the edges of what is allowed, alone or after others; or a
/// few rules over few atoms.
pub fn boundary(random: &mut Random) -> Vec<u8> {
    let edges = [
        0, 14, 15, 16, 17, 22, 23, 24, 25, 54, 55, 56, 57, 61, 62, 63,
    ];
    if random.one_in(4) {
        return encode(&weighing::edges(random));
    }
    if random.one_in(3) {
        return encode(&tiny(random));
    }
    let mut records = Vec::new();
    for _ in 0..random.pick(&[1, 1, 1, 2, 3]) {
        let (a, b) = (random.pick(&edges), random.pick(&edges));
        let head = random.pick(&edges) as u8 + u8::from(random.one_in(40)) * 64;
        let kind = random.pick(&[1, 1, 1, 1, 2, 2, 0, 3, 4]);
        records.push(Record {
            kind,
            head,
            positive: if random.one_in(2) { 1 << a } else { 0 },
            negative: if random.one_in(2) { 1 << b } else { 0 },
        });
    }
    let mut bytes = encode(&records);
    if random.one_in(20) {
        while bytes.len() < 2304 {
            bytes.extend(encode(&[access(16, 0, 0)]));
        }
        set_near_most(random, &mut bytes);
    }
    bytes
}

/// A length at or near 2,304.
fn set_near_most(random: &mut Random, bytes: &mut Vec<u8>) {
    let length = random.pick(&[2286, 2303, 2304, 2304, 2305, 2322]);
    bytes.resize(length, 1);
}
