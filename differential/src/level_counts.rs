//! Which levels came up in a run: loops, many levels, policies that no levels keep, and 6 beside the other refusals.

use crate::calls::refusal_of;
use crate::leveling::kept_by_number;
use crate::plain::levels::{below, choice};
use crate::plain::policy::{atoms, read, Policy, Record, ACCESS};

/// Classes of accepted policies.
const ACCEPTED: [&str; 8] = [
    "that levels by number would refuse",
    "with an access rule, and levels by number",
    "with a positive loop",
    "with a positive loop of ten atoms and more",
    "with a loop, and a \"not\" of one of its atoms above it",
    "with a two-sided rule in a loop",
    "with ten \"not\" and more, one over the other",
    "with 48",
];

/// Classes of policies that are refused 6.
const REFUSED: [&str; 10] = [
    "6, the shortest loop through \"not\" of one atom",
    "6, of two",
    "6, of three",
    "6, of four to nine",
    "6, of ten and more",
    "6, and no loop is of \"not\" alone",
    "6, and only two-sided rules have the \"not\"",
    "6, of one record",
    "6, of 128 records",
    "6, with records of other kinds after the last access rule",
];

/// Classes of policies that are refused otherwise, though no levels keep their access rules.
const BESIDE: [u32; 7] = [1, 2, 3, 4, 5, 12, 13];

/// Of each class so many must come up.
const LEAST: u64 = 20;

#[derive(Clone, Default)]
pub struct LevelCounts {
    accepted: [u64; 8],
    refused: [u64; 10],
    beside: [u64; 7],
}

fn add_all(to: &mut [u64], from: impl IntoIterator<Item = u64>) {
    for (a, b) in to.iter_mut().zip(from) {
        *a += b;
    }
}

/// The atoms in a loop with an atom, itself among them.
fn in_loop(below: &[u64; 64], atom: u8) -> u64 {
    atoms(below[usize::from(atom)])
        .filter(|other| below[usize::from(*other)] >> atom & 1 == 1)
        .fold(0, |set, other| set | 1 << other)
}

/// The most "not" that stand one over the other, where there are levels.
fn storeys(rules: &[Record]) -> u32 {
    let mut levels = [0u32; 64];
    let mut sorted = rules.to_vec();
    let choice = choice(rules).unwrap_or([0; 64]);
    sorted.sort_by_key(|rule| choice[usize::from(rule.head)]);
    // within a loop there is no "not", so that two sweeps give all its atoms the highest level
    for rule in sorted.iter().chain(&sorted.clone()) {
        let held = atoms(rule.positive).map(|atom| levels[usize::from(atom)]);
        let negated = atoms(rule.negative).map(|atom| levels[usize::from(atom)] + 1);
        let least = held.chain(negated).max().unwrap_or(0);
        let own = &mut levels[usize::from(rule.head)];
        *own = least.max(*own);
    }
    levels.into_iter().max().unwrap_or(0)
}

/// What is to be told of an accepted policy.
pub fn accepted(rules: &[Record]) -> [bool; 8] {
    let below = below(rules);
    let sizes = |rule: &Record| in_loop(&below, rule.head).count_ones();
    let looped = |rule: &Record| sizes(rule) > 1 || rule.positive >> rule.head & 1 == 1;
    let looping = rules.iter().filter(|rule| looped(rule));
    let in_loops = looping.fold(0, |set, rule| set | 1u64 << rule.head);
    let two_sided = |rule: &Record| rule.positive & rule.negative != 0;
    let within = |rule: &Record| in_loop(&below, rule.head) & rule.positive != 0;
    let by_number = kept_by_number(rules);
    let storeys = storeys(rules);
    [
        !by_number,
        by_number && !rules.is_empty(),
        in_loops != 0,
        rules.iter().any(|rule| sizes(rule) >= 10),
        rules.iter().any(|rule| rule.negative & in_loops != 0),
        rules.iter().any(|rule| two_sided(rule) && within(rule)),
        storeys >= 10,
        storeys >= 48,
    ]
}

/// How many steps lead from one atom to another, if any do.
fn steps(rules: &[Record], from: u8, to: u8) -> Option<usize> {
    let mut reached = 1u64 << from;
    for steps in 0..64 {
        if reached >> to & 1 == 1 {
            return Some(steps);
        }
        let stands = rules.iter().filter(|rule| reached >> rule.head & 1 == 1);
        reached |= stands.fold(0, |set, rule| set | rule.positive | rule.negative);
    }
    None
}

/// Each "not" that is in a loop, by its rule, with the number of atoms in the shortest such loop.
fn nots_in_loops(rules: &[Record]) -> Vec<(Record, usize)> {
    let of_rule = |rule: &Record| {
        let sizes = atoms(rule.negative).filter_map(|atom| steps(rules, atom, rule.head));
        sizes
            .map(|steps| (*rule, steps + 1))
            .min_by_key(|(_, size)| *size)
    };
    rules.iter().filter_map(of_rule).collect()
}

/// What is to be told of a policy that is refused 6.
pub fn refused(records: &[Record], rules: &[Record]) -> [bool; 10] {
    let all = nots_in_loops(rules);
    let shortest = all.iter().map(|(_, size)| *size).min().unwrap_or(0);
    let nots = rules.iter().map(|rule| Record {
        positive: 0,
        ..*rule
    });
    let alone = nots_in_loops(&nots.collect::<Vec<Record>>());
    let two_sided = |rule: &Record| rule.positive & rule.negative != 0;
    let last = records.last().map(|record| record.kind);
    [
        shortest == 1,
        shortest == 2,
        shortest == 3,
        (4..10).contains(&shortest),
        shortest >= 10,
        alone.is_empty(),
        all.iter().all(|(rule, _)| two_sided(rule)),
        records.len() == 1,
        records.len() == 128,
        last != Some(ACCESS),
    ]
}

impl LevelCounts {
    /// Counts a policy by the reply of its test.
    pub fn policy(&mut self, policy: &[u8], rules: Option<&Policy>, reply: u32) {
        if let Some(rules) = rules {
            add_all(&mut self.accepted, accepted(&rules.access).map(u64::from));
            return;
        }
        let whole = policy.chunks_exact(18).map(read);
        let records: Vec<Record> = whole.collect();
        let rules: Vec<Record> = records
            .iter()
            .filter(|r| r.kind == ACCESS && (16..64).contains(&r.head))
            .copied()
            .collect();
        if refusal_of(reply) == 6 {
            add_all(&mut self.refused, refused(&records, &rules).map(u64::from));
        } else if choice(&rules).is_none() {
            let is = BESIDE.map(|number| u64::from(number == refusal_of(reply)));
            add_all(&mut self.beside, is);
        }
    }

    pub fn add(&mut self, other: &LevelCounts) {
        add_all(&mut self.accepted, other.accepted);
        add_all(&mut self.refused, other.refused);
        add_all(&mut self.beside, other.beside);
    }

    fn named(&self) -> Vec<(String, u64)> {
        let accepted = ACCEPTED.iter().map(|name| format!("accepted {name}"));
        let refused = REFUSED.iter().map(|name| name.to_string());
        let beside = BESIDE.map(|number| format!("{number}, and no levels besides"));
        let names = accepted.chain(refused).chain(beside);
        let counts = self
            .accepted
            .iter()
            .chain(&self.refused)
            .chain(&self.beside);
        names.zip(counts.copied()).collect()
    }

    /// What has not come up often enough.
    pub fn missing(&self) -> Vec<String> {
        let all = self.named().into_iter();
        all.filter(|(_, count)| *count < LEAST)
            .map(|(name, count)| format!("levels: {name}, {LEAST} times ({count})"))
            .collect()
    }

    pub fn print(&self) {
        println!("\nlevels of policies");
        for (name, count) in self.named() {
            println!("  {count:>10}  {name}");
        }
    }
}
