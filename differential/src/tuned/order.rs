//! Candidates by total weight, count and number: of few members all sorted at once, else the first ones stepwise from a heap, and
//! the others from one sort of all by cost.

use std::cmp::Reverse;
use std::collections::BinaryHeap;

/// The candidates of so many members are sorted at once.
const FEW: usize = 5;

/// So many candidates come from the heap.
const STEPS: usize = 512;

/// A member of the set searched: its cost, which puts weight before count, and itself as a set.
pub type Member = (u32, u16);

/// The members of a set, each with its cost.
pub fn members(weights: &[u8; 16], set: u16) -> Vec<Member> {
    (0..16)
        .filter(|k| set >> k & 1 == 1)
        .map(|k| (17 * u32::from(weights[k]) + 1, 1 << k))
        .collect()
}

/// Candidates in order, the next one made when it is asked for: each leads to one with a dearer last member in the place of its
/// last, and to one with that member besides. Both come later in order, since members are taken by cost and number.
struct Steps {
    members: Vec<Member>,
    /// Cost, set and place of the last member, in one number.
    heap: BinaryHeap<Reverse<u64>>,
}

fn packed(cost: u32, set: u16, last: usize) -> Reverse<u64> {
    Reverse(u64::from(cost) << 32 | u64::from(set) << 16 | last as u64)
}

impl Steps {
    fn new(mut members: Vec<Member>) -> Steps {
        members.sort_unstable();
        let first = members.first().map(|(cost, one)| packed(*cost, *one, 0));
        Steps {
            members,
            heap: first.into_iter().collect(),
        }
    }
}

impl Iterator for Steps {
    type Item = u16;

    fn next(&mut self) -> Option<u16> {
        let Reverse(top) = self.heap.pop()?;
        let (cost, set, last) = ((top >> 32) as u32, (top >> 16) as u16, top as u16 as usize);
        if let Some((more, one)) = self.members.get(last + 1) {
            let (less, other) = self.members[last];
            self.heap.push(packed(cost + more, set | one, last + 1));
            let moved = set & !other | one;
            self.heap.push(packed(cost - less + more, moved, last + 1));
        }
        Some(set)
    }
}

/// All candidates in order: a counting sort by cost, which leaves those of one cost in order of number.
fn sorted(members: &[Member]) -> Vec<u16> {
    let mut all = vec![(0u32, 0u16)];
    for (more, one) in members {
        for k in 0..all.len() {
            let (cost, set) = all[k];
            all.push((cost + more, set | one));
        }
    }
    let most = all[all.len() - 1].0 as usize;
    let mut starts = vec![0u32; most + 2];
    for (cost, _) in &all {
        starts[*cost as usize + 1] += 1;
    }
    for cost in 0..=most {
        starts[cost + 1] += starts[cost];
    }
    let mut order = vec![0; all.len()];
    for (cost, set) in all {
        let place = &mut starts[cost as usize];
        order[*place as usize] = set;
        *place += 1;
    }
    order
}

/// The first candidate of these that opens, with its place among them from 1.
fn first(sets: impl Iterator<Item = u16>, opens: impl Fn(u16) -> bool) -> Option<(usize, u16)> {
    let mut places = sets.enumerate();
    places
        .find(|(_, set)| opens(*set))
        .map(|(k, set)| (k + 1, set))
}

/// The same of few members: cost and set of each candidate in one number.
fn first_of_few(
    members: &[Member],
    most: usize,
    opens: impl Fn(u16) -> bool,
) -> Option<(usize, u16)> {
    let mut all = [0u64; 1 << FEW];
    let mut count = 1;
    for (cost, one) in members {
        for k in 0..count {
            all[count + k] = all[k] + (u64::from(*cost) << 16) + u64::from(*one);
        }
        count *= 2;
    }
    all[..count].sort_unstable();
    // the empty set stands at place 0
    first(all[1..=most].iter().map(|key| *key as u16), opens)
}

/// Of at most so many candidates, the first that opens, with its place from 1. There are no fewer.
pub fn first_of(
    members: Vec<Member>,
    most: usize,
    opens: impl Fn(u16) -> bool,
) -> Option<(usize, u16)> {
    if members.len() <= FEW {
        return first_of_few(&members, most, opens);
    }
    let steps = Steps::new(members.clone()).take(most.min(STEPS));
    if let Some(found) = first(steps, &opens) {
        return Some(found);
    }
    if most <= STEPS {
        return None;
    }
    // the empty set stands at place 0
    let later = sorted(&members);
    let rest = later[STEPS + 1..=most].iter().copied();
    first(rest, opens).map(|(place, set)| (STEPS + place, set))
}
