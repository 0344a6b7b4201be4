//! Policies under which sessions are long.

use crate::plain::policy::Record;
use crate::policies::{access, disclosure, some};
use crate::random::Random;

/// The service of all of them, but for the one that document 02 names.
pub const SERVICE: u8 = 40;

/// "service 16 by any one of credentials 0 to d - 1, each disclosed always; all access records first, credentials rising"
pub fn longest(d: u8) -> Vec<Record> {
    let access = (0..d).map(|k| access(16, 1 << k, 0));
    access.chain((0..d).map(|k| disclosure(k, 0))).collect()
}

fn credential(random: &mut Random) -> u8 {
    random.below(16) as u8
}

/// Many ways in, of one to three credentials each, some spoilt by another credential.
pub fn many_ways(random: &mut Random) -> Vec<Record> {
    let mut records: Vec<Record> = (0..16).map(|k| disclosure(k, 0)).collect();
    for _ in 0..random.range(8, 24) {
        let size = random.pick(&[1, 2, 2, 2, 3, 3]);
        let body = (0..size).fold(0, |set, _| set | 1u64 << credential(random));
        let not = match random.one_in(4) {
            true => 1 << credential(random),
            false => 0,
        };
        records.push(access(SERVICE, body, not & !body));
    }
    random.shuffle(&mut records);
    records
}

/// Any one of so many credentials, each disclosed always; some in a role between.
pub fn singles(random: &mut Random, count: u8) -> Vec<Record> {
    let mut records = Vec::new();
    for k in some(random, count.into(), 0, 15) {
        records.push(disclosure(k, 0));
        if random.one_in(3) {
            records.push(access(16 + k, 1 << k, 0));
            records.push(access(SERVICE, 1 << (16 + k), 0));
        } else {
            records.push(access(SERVICE, 1 << k, 0));
        }
    }
    random.shuffle(&mut records);
    records
}
