//! Which weights came up in a run: how many a policy has, refusals by 12 and 13, questions that the weights decide.

use crate::calls::refusal_of;
use crate::candidates::number;
use crate::plain::policy::{read, Policy, Record, WEIGHT};
use crate::plain::session::Session;
use crate::plain::weights::{by_preference, total_weight, weights};
use crate::tuned::{check, Access};

/// Classes of refused policies.
pub const FAULTS: [&str; 11] = [
    "4, kind 3 with head 16",
    "12, weight 16",
    "12, a weight whose low byte is 15 or less",
    "12, a weight of 2^63 or more",
    "12, the weight right and the negated set not empty",
    "12, and a second weight besides",
    "13, by an equal record",
    "13, by another weight",
    "13, right after the first",
    "13, with sixteen or more records between",
    "13, and a 3 at a later record",
];

/// Classes of questions under a policy with weights.
pub const QUESTIONS: [&str; 10] = [
    "another set than by size",
    "larger than by size",
    "of as light ones smaller than another",
    "of as light and as small ones the smaller number",
    "a smaller number is heavier, as small",
    "with a credential of weight 0",
    "of total weight 0",
    "with a credential of weight 15",
    "with a credential that no record names",
    "past the first 256 candidates' numbers",
];

/// Other sets that unlock are looked for where so many may be asked.
const FEW: u32 = 8;

/// Of each class so many must come up.
const LEAST: u64 = 20;

#[derive(Clone, Default)]
pub struct WeightCounts {
    /// Accepted policies by how many weights they have.
    policies: [u64; 17],
    faults: [u64; 11],
    /// Questions under weights, and of them each class.
    asked: u64,
    questions: [u64; 10],
}

fn add_all(to: &mut [u64], from: impl IntoIterator<Item = u64>) {
    for (a, b) in to.iter_mut().zip(from) {
        *a += b;
    }
}

/// What is to be told of a policy that is refused at record k.
pub fn faults(records: &[Record], number: u32, k: usize) -> [bool; 11] {
    let record = &records[k];
    let (weight, kind) = (record.positive, record.kind);
    let same = |other: &&Record| other.kind == WEIGHT && other.head == record.head;
    let first = records[..k].iter().rposition(|other| same(&other));
    let by = |refusal: u32| number == refusal && kind == WEIGHT;
    let equal = first.is_some_and(|j| records[j] == *record);
    let between = first.map_or(0, |j| k - j - 1);
    let later = records[k + 1..]
        .iter()
        .any(|r| !(1..=WEIGHT).contains(&r.kind));
    [
        by(4) && record.head == 16,
        by(12) && weight == 16,
        by(12) && weight > 15 && weight & 0xff <= 15,
        by(12) && weight >> 63 == 1,
        by(12) && weight <= 15,
        by(12) && first.is_some(),
        by(13) && equal,
        by(13) && !equal,
        by(13) && between == 0,
        by(13) && between >= 16,
        by(13) && later,
    ]
}

/// The sets that unlock, by size and number.
fn unlocking(policy: &[u8], session: &Session, may_ask: u16) -> Vec<u16> {
    let Ok(accepted) = check(policy) else {
        return Vec::new();
    };
    let access = Access::new(&accepted);
    let opening = access.opening(session.request);
    let mut sets = by_preference(&[1; 16], may_ask);
    sets.retain(|set| opening.unlocks(session.shown | set));
    sets
}

/// What the other sets that unlock say of a question.
fn against(weights: &[u8; 16], all: &[u16], asked: u16) -> [bool; 5] {
    let weight = |set: u16| total_weight(weights, set);
    let by_size = all.first().copied().unwrap_or(asked);
    let others = || all.iter().filter(|set| **set != asked);
    let light = || others().filter(|set| weight(**set) == weight(asked));
    let small = |set: &&u16| set.count_ones() == asked.count_ones();
    [
        by_size != asked,
        by_size.count_ones() < asked.count_ones(),
        light().any(|set| !small(&set)),
        light().any(|set| small(&set)),
        others().filter(small).any(|set| *set < asked),
    ]
}

/// What is to be told of a question under weights, by the session that it leaves, what may be asked, and what is.
pub fn classes(policy: &[u8], rules: &Policy, session: &Session, sets: (u16, u16)) -> [bool; 10] {
    let (may_ask, asked) = sets;
    let weights = weights(&rules.weights);
    let named = rules.weights.iter().fold(0, |set, r| set | 1u16 << r.head);
    let of_weight = |w: u8| (0..16).any(|k| asked >> k & 1 == 1 && weights[k] == w);
    let mut found = [false; 10];
    if may_ask.count_ones() <= FEW {
        let all = unlocking(policy, session, may_ask);
        found[..5].copy_from_slice(&against(&weights, &all, asked));
    }
    found[5..].copy_from_slice(&[
        of_weight(0),
        total_weight(&weights, asked) == 0,
        of_weight(15),
        asked & !named != 0,
        number(asked, may_ask) > 255,
    ]);
    found
}

impl WeightCounts {
    /// Counts a policy by the reply of its test.
    pub fn policy(&mut self, policy: &[u8], rules: Option<&Policy>, reply: u32) {
        if let Some(rules) = rules {
            self.policies[rules.weights.len().min(16)] += 1;
        }
        let (number, k) = (refusal_of(reply), (reply >> 8) as usize);
        if [4, 12, 13].contains(&number) {
            let records: Vec<Record> = policy.chunks(18).map(read).collect();
            let found = faults(&records, number, k);
            add_all(&mut self.faults, found.map(u64::from));
        }
    }

    /// Counts a question, by the session that it leaves and what may be asked.
    pub fn question(&mut self, policy: &[u8], rules: &Policy, session: &Session, sets: (u16, u16)) {
        if rules.weights.is_empty() {
            return;
        }
        let found = classes(policy, rules, session, sets);
        self.asked += 1;
        add_all(&mut self.questions, found.map(u64::from));
    }

    pub fn add(&mut self, other: &WeightCounts) {
        add_all(&mut self.policies, other.policies);
        add_all(&mut self.faults, other.faults);
        add_all(&mut self.questions, other.questions);
        self.asked += other.asked;
    }

    /// What has not come up often enough.
    pub fn missing(&self) -> Vec<String> {
        let named = |names: &[&str]| names.iter().map(|name| name.to_string()).collect();
        let sizes: Vec<String> = (0..=16).map(|n| format!("{n} in a policy")).collect();
        let faults: Vec<String> = named(&FAULTS);
        let questions: Vec<String> = named(&QUESTIONS);
        let names = sizes.into_iter().chain(faults).chain(questions);
        let counts = self.policies.iter().chain(&self.faults);
        names
            .zip(counts.chain(&self.questions))
            .filter(|(_, count)| **count < LEAST)
            .map(|(name, count)| format!("weights: {name}, {LEAST} times ({count})"))
            .collect()
    }

    pub fn print(&self) {
        println!("\nweights");
        let sizes = self.policies.iter().enumerate();
        let cells: Vec<String> = sizes.map(|(n, count)| format!("{n}:{count}")).collect();
        println!("  accepted policies by weights: {}", cells.join(" "));
        println!("  policies refused");
        for (name, count) in FAULTS.iter().zip(self.faults) {
            println!("  {count:>10}  {name}");
        }
        println!("  questions under weights: {}", self.asked);
        for (name, count) in QUESTIONS.iter().zip(self.questions) {
            println!("  {count:>10}  {name}");
        }
    }
}
