//! Demand 3 of a list of rounds under one accepted policy, read from the list and the answers alone.

use crate::plain::disclosure::disclosable;
use crate::plain::lists::{
    askable_count, asked_twice, closes, comes_by, declined_by, lacked_count, shown_by, Accepted,
};
use crate::plain::model::unlocks;
use crate::plain::policy::Policy;
use crate::plain::session::Ending;
use crate::tuned::{check, ending};

/// A list of rounds that one policy answered, all rounds counted; the accepted ones are the first of them.
pub struct Played<'a> {
    pub policy: &'a Policy,
    pub bytes: &'a [u8],
    pub request: u16,
    pub accepted: &'a [Accepted],
    pub rounds: usize,
}

/// The parts of a set that hold another set.
fn between(least: u16, most: u16) -> impl Iterator<Item = u16> {
    let free = most & !least;
    let mut next = Some(0u16);
    std::iter::from_fn(move || {
        let this = next?;
        next = (this != free).then(|| this.wrapping_sub(free) & free);
        Some(this | least)
    })
}

/// "if some held set S, all disclosable from I, unlocks the service together with every part of its holding". The largest such S
/// is tried: where a smaller one has the property, so has it.
pub fn licensed(policy: &Policy, request: u16, holding: u16, first: u16) -> bool {
    let largest = disclosable(&policy.disclosure, first) & holding;
    between(largest, holding).all(|set| unlocks(&policy.levels, request, set))
}

impl Played<'_> {
    /// What is broken of the clauses about any client; nothing if all is well.
    pub fn broken(&self) -> Vec<String> {
        let mut broken = Vec::new();
        let twice = asked_twice(self.accepted);
        if twice != 0 {
            broken.push(format!("asked twice: {twice:04x}"));
        }
        let d = askable_count(self.policy);
        if !comes_by(self.accepted, d + 1, closes) {
            broken.push(format!("no grant or deny by round d + 1, d = {d}"));
        }
        let closed = self.accepted.last().is_some_and(|last| closes(last.ending));
        if self.rounds > d && !closed {
            broken.push(format!("{} rounds, d = {d}, not closed", self.rounds));
        }
        if self.rounds > self.accepted.len() && !closed {
            broken.push("refused before closing".to_string());
        }
        broken.extend(self.answers());
        broken
    }

    /// Each answer once more: granted where the shown unlock, denied exactly where no set does, else the preferred set asked.
    fn answers(&self) -> Option<String> {
        let Ok(records) = check(self.bytes) else {
            return Some("policy refused".to_string());
        };
        for k in 1..=self.accepted.len() {
            let past = &self.accepted[..k];
            let want = ending(records, self.request, shown_by(past), declined_by(past));
            let got = past[k - 1].ending;
            if want != got {
                return Some(format!("round {k} ends in {got:?}, by the list {want:?}"));
            }
        }
        None
    }

    /// "is never denied and has grant by round 2 + u": what is broken of it, for a client with the premise.
    pub fn broken_licence(&self, holding: u16) -> Vec<String> {
        let mut broken = Vec::new();
        if self
            .accepted
            .iter()
            .any(|round| round.ending == Ending::Deny)
        {
            broken.push("a licensed client is denied".to_string());
        }
        let u = lacked_count(self.policy, holding);
        let granted = |ending| ending == Ending::Grant;
        if !comes_by(self.accepted, 2 + u, granted) {
            broken.push(format!("no grant by round 2 + u, u = {u}"));
        }
        broken
    }
}
