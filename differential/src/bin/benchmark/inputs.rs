//! The policies that are timed, each with the request of its rounds.

use crate::levelled;
use differential::marked::policy_a;
use differential::plain::policy::Record;
use differential::policies::{access, disclosure, encode, weight};
use std::path::Path;

/// A policy, and a service to ask for under it.
#[derive(Clone)]
pub struct Input {
    pub name: String,
    pub policy: Vec<u8>,
    pub request: u16,
}

pub fn input(name: &str, policy: Vec<u8>, request: u16) -> Input {
    Input {
        name: name.to_string(),
        policy,
        request,
    }
}

/// A policy of 44 records: eight askable credentials, roles on three levels, each with "not"; the service is 48.
fn middle() -> Vec<u8> {
    let mut records = Vec::new();
    let bit = |atom: u8| 1u64 << atom;
    for k in 0..8u8 {
        let next = |by: u8| (k + by) % 8;
        records.push(disclosure(k, if k % 2 == 0 { 0 } else { bit(k - 1) }));
        records.push(access(16 + k, bit(k) | bit(next(1)), 0));
        records.push(access(24 + k, bit(16 + k), bit(next(4))));
        records.push(access(
            32 + k,
            bit(24 + k) | bit(16 + next(1)),
            bit(next(6)),
        ));
        records.push(access(40 + k, bit(32 + k) | bit(24 + next(1)), 0));
    }
    records.push(access(48, bit(40), 0));
    records.push(access(48, bit(43) | bit(41), 0));
    records.push(access(63, bit(0) | bit(7), 0));
    records.push(access(63, bit(49), bit(48)));
    encode(&records)
}

/// The policy without its rules for the breach mark.
fn less_63(policy: &[u8]) -> Vec<u8> {
    let records = policy.chunks(18).filter(|record| record[1] != 63);
    records.flatten().copied().collect()
}

/// Sixteen different weights, 0 to 15, mixed.
pub fn weights() -> [u8; 16] {
    std::array::from_fn(|k| ((7 * k + 3) % 16) as u8)
}

/// The same policy with these weights.
fn weighed(of: &Input, name: &str, weights: &[Record]) -> Input {
    let policy = [of.policy.clone(), encode(weights)].concat();
    input(&format!("{}, {name}", of.name), policy, of.request)
}

/// The policy without the last sixteen of its rules for 16 to 61, so that there is room for sixteen weights.
fn fewer(of: &Input) -> Input {
    let mut records: Vec<&[u8]> = of.policy.chunks(18).collect();
    for _ in 0..16 {
        let last = records.iter().rposition(|r| (16..62).contains(&r[1]));
        last.map(|place| records.remove(place));
    }
    let name = format!("{} less 16 rules", of.name);
    input(&name, records.concat(), of.request)
}

/// All policies that are timed.
pub struct Inputs {
    /// Policy A, and one of 44 records; and the same with weights.
    pub short: Vec<Input>,
    pub short_weighed: Vec<Input>,
    /// 128 records each; nothing unlocks 62, and all candidates are tried.
    pub full: Vec<Input>,
    /// One chain over all derived atoms, upwards and downwards, 128 records each; nothing unlocks its end.
    pub chains: Vec<Input>,
    /// Policies of 128 records for the test of levels alone, refused ones among them.
    pub levelled: Vec<Input>,
    /// The full ones with 112 records; and these with sixteen weights.
    pub fewer: Vec<Input>,
    pub fewer_weighed: Vec<Input>,
    /// The full ones without the rules for 63, and a service for which there is a question.
    pub asking: Vec<Input>,
    /// These with fewer rules and sixteen weights.
    pub asking_weighed: Vec<Input>,
}

impl Inputs {
    pub fn read(folder: &Path) -> Result<Inputs, String> {
        let read = |name: &str| {
            let bytes = std::fs::read(folder.join(name));
            bytes.map_err(|e| format!("{name}: {e}"))
        };
        let mut full = Vec::new();
        let mut asking = Vec::new();
        for (name, service) in [("chain.bin", 39), ("wide.bin", 18), ("slow.bin", 62)] {
            let policy = read(name)?;
            let less = format!("{name} less 63");
            asking.push(input(&less, less_63(&policy), service));
            full.push(input(name, policy, 62));
        }
        let chains = vec![
            input("up.bin", read("up.bin")?, 62),
            input("down.bin", read("down.bin")?, 16),
        ];
        let short = vec![
            input("policy A", policy_a(), 16),
            input("44 records", middle(), 48),
        ];
        let each = (0..).zip(weights()).map(|(k, w)| weight(k, w.into()));
        let all: Vec<Record> = each.collect();
        let sixteen = |input: &Input| weighed(input, "sixteen weights", &all);
        let shorter: Vec<Input> = full.iter().map(fewer).collect();
        Ok(Inputs {
            short_weighed: vec![
                weighed(&short[0], "one weight", &[weight(2, 3)]),
                weighed(&short[1], "eight weights", &all[..8]),
            ],
            short,
            fewer_weighed: shorter.iter().map(sixteen).collect(),
            fewer: shorter,
            asking_weighed: asking.iter().map(|i| sixteen(&fewer(i))).collect(),
            full,
            chains,
            levelled: levelled::policies(),
            asking,
        })
    }

    /// Every one of them.
    pub fn all(&self) -> impl Iterator<Item = &Input> {
        let without = self.short.iter().chain(&self.full).chain(&self.chains);
        without
            .chain(&self.levelled)
            .chain(&self.asking)
            .chain(&self.short_weighed)
            .chain(&self.fewer_weighed)
            .chain(&self.asking_weighed)
    }
}
