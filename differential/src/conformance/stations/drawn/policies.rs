//! Policies for drawn cases: small ones mostly, under which there is much to ask, and refused ones.

use crate::damage::damaged;
use crate::plain::policy::{check, Record, RECORD_BYTES};
use crate::policies::{access, disclosure, disclosures, draw, licensed, some, talkative, weight};
use crate::random::Random;

/// Records of a policy, mostly no more.
const FEW: usize = 12;

/// Records of a policy, never more.
const MANY: usize = 30;

/// Two or three services over few credentials, each with one or two ways in; some have a breach or a weight.
fn services(random: &mut Random) -> Vec<Record> {
    let count = random.range(3, 5);
    let credentials = some(random, count, 0, 15);
    let mut records = disclosures(random, &credentials);
    let services = random.range(2, 3);
    for service in some(random, services, 16, 62) {
        for _ in 0..random.range(1, 2) {
            let size = random.pick(&[1, 1, 2, 2, 3]);
            let body = draw(random, &credentials, size);
            let negated = random.pick(&[0, 0, 0, 1]);
            let not = draw(random, &credentials, negated) & !body;
            records.push(access(service, body, not));
        }
    }
    if random.one_in(3) {
        records.push(access(63, draw(random, &credentials, 2), 0));
    }
    if random.one_in(3) {
        let head = random.pick(&credentials);
        records.push(weight(head, random.below(16) as u64));
    }
    random.shuffle(&mut records);
    records
}

/// A policy of few records mostly, in one of sixteen of some more.
pub fn small(random: &mut Random) -> Vec<Record> {
    let most = if random.one_in(16) { MANY } else { FEW };
    loop {
        let records = match random.below(5) {
            0 => talkative(random),
            1 => licensed(random).0,
            _ => services(random),
        };
        if records.len() <= most {
            return records;
        }
    }
}

/// One or two services that each credential gives alone, or with one more: sessions of many rounds.
pub fn long(random: &mut Random) -> Vec<Record> {
    let count = random.range(3, 5);
    let credentials = some(random, count, 0, 15);
    let services = some(random, 2, 16, 62);
    let mut records: Vec<Record> = credentials.iter().map(|k| disclosure(*k, 0)).collect();
    for head in &credentials {
        let service = random.pick(&services);
        let more = random.pick(&[0, 0, 0, 1]);
        let body = 1 << head | draw(random, &credentials, more);
        records.push(access(services[0], body, 0));
        if random.one_in(3) {
            records.push(access(service, body, 0));
        }
    }
    random.shuffle(&mut records);
    records
}

/// A refused policy of few records.
pub fn refused(random: &mut Random) -> Vec<u8> {
    loop {
        let policy = damaged(random);
        if policy.len() <= FEW * RECORD_BYTES && check(&policy).is_err() {
            return policy;
        }
    }
}
