//! Which searches by weights came up in a run.

use super::plain::{answer, candidates};
use super::{Answer, Search};
use crate::candidates::number;
use crate::plain::model::unlocks;
use crate::plain::policy::check;
use crate::plain::weights::total_weight;

pub const CLASSES: [&str; 17] = [
    "found",
    "nothing, all tried",
    "spent",
    "refused",
    "unlocked by what is shown alone",
    "found, the limit its place",
    "spent, found with one trial more",
    "nothing, the limit the number of candidates",
    "spent, nothing with one trial more",
    "found, not what equal weights give",
    "found, another as light",
    "found, another as light and as small",
    "found, with a credential of weight 0",
    "found, past the first 256 candidates",
    "found, its weight above 255",
    "found, in a block that is not the first",
    "found, not as small as can be",
];

/// Sets as light are looked for among so many candidates.
const FEW: usize = 1 << 9;

/// So many searches must have every class among them.
const ENOUGH: u64 = 10_000;

#[derive(Clone, Default)]
pub struct WeightedCounts {
    pub searches: u64,
    classes: [u64; 17],
    pub disagreed: u64,
}

/// Whether another set that unlocks is as light; and whether one is as light and as small.
fn ties(policy: &[u8], search: &Search, set: u16) -> [bool; 2] {
    let all = candidates(&search.weights, search.within & !search.shown);
    let Ok(rules) = check(policy) else {
        return [false; 2];
    };
    if all.len() > FEW {
        return [false; 2];
    }
    let weight = |set: u16| total_weight(&search.weights, set);
    let light = all.into_iter().filter(|other| {
        let opens = || unlocks(&rules.levels, search.request, search.shown | other);
        *other != set && weight(*other) == weight(set) && opens()
    });
    let light: Vec<u16> = light.collect();
    let small = |other: &u16| other.count_ones() == set.count_ones();
    [!light.is_empty(), light.iter().any(small)]
}

/// What is to be told of a set found.
fn found(policy: &[u8], search: &Search, trials: u32, set: u16) -> [bool; 8] {
    let equal = Search {
        weights: [1; 16],
        limit: u32::MAX,
        ..*search
    };
    let smallest = match answer(policy, &equal) {
        Answer::Found { set, .. } => set,
        _ => 0,
    };
    let other = smallest != set;
    let larger = smallest.count_ones() < set.count_ones();
    let [light, small] = ties(policy, search, set);
    let free = (0..16).any(|k| set >> k & 1 == 1 && search.weights[k] == 0);
    let heavy = total_weight(&search.weights, set) > 255;
    let later = number(set, search.within & !search.shown) > 255;
    let past = trials > 256;
    [other, light, small, free, past, heavy, later, larger]
}

impl WeightedCounts {
    /// Counts a search by its answer, and by what it gives with one trial more.
    pub fn count(&mut self, policy: &[u8], search: &Search, given: Answer) {
        let limit = search.limit.saturating_add(1);
        let more = answer(policy, &Search { limit, ..*search });
        let spent = given == Answer::Spent;
        let mut is = [false; 17];
        match given {
            Answer::Found { trials: 0, .. } => is[4] = true,
            Answer::Found { trials, set } => {
                is[0] = true;
                is[5] = trials == search.limit;
                is[9..].copy_from_slice(&found(policy, search, trials, set));
            }
            Answer::Nothing { trials } => {
                is[1] = true;
                is[7] = trials == search.limit;
            }
            Answer::Spent => is[2] = true,
            Answer::Refused => is[3] = true,
        }
        is[6] = spent && matches!(more, Answer::Found { .. });
        is[8] = spent && matches!(more, Answer::Nothing { .. });
        self.searches += 1;
        for (count, is) in self.classes.iter_mut().zip(is) {
            *count += u64::from(is);
        }
    }

    pub fn add(&mut self, other: &WeightedCounts) {
        self.searches += other.searches;
        self.disagreed += other.disagreed;
        for (a, b) in self.classes.iter_mut().zip(other.classes) {
            *a += b;
        }
    }

    /// What should have come up and did not, in a run with enough of them.
    pub fn missing(&self) -> Vec<String> {
        if self.searches < ENOUGH {
            return Vec::new();
        }
        let all = CLASSES.iter().zip(self.classes);
        all.filter(|(_, count)| *count == 0)
            .map(|(name, _)| format!("searches by weights: {name}"))
            .collect()
    }

    pub fn print(&self) {
        println!("\nsearches by weights: {}", self.searches);
        for (name, count) in CLASSES.iter().zip(self.classes) {
            println!("  {count:>10}  {name}");
        }
    }
}
