//! Slips in the model, in disclosure and in the question.

use super::names::{Slip, Slipped};
use crate::plain::disclosure::disclosable;
use crate::plain::levels::Levels;
use crate::plain::policy::{Policy, Record};
use crate::plain::session::Session;

impl Slipped {
    fn pass(&self, rules: &[Record], set: u64, below: u64) -> u64 {
        rules.iter().fold(set, |set, rule| {
            let holds = rule.positive & !set == 0 && rule.negative & (below | rule.positive) == 0;
            set | u64::from(holds) << rule.head
        })
    }

    /// All heads of a level, those taken out for which no rule is left that applies.
    fn holding(rules: &[Record], below: u64) -> u64 {
        let heads = rules.iter().fold(0, |set, rule| set | 1 << rule.head);
        let mut set = below | heads;
        loop {
            let last = set;
            let applies = |rule: &&Record| {
                rule.positive & !last == 0 && rule.negative & (below | rule.positive) == 0
            };
            let held = rules.iter().filter(applies);
            set = held.fold(below, |set, rule| set | 1 << rule.head);
            if set == last {
                return set;
            }
        }
    }

    /// One level after the other.
    pub(super) fn model(&self, levels: &Levels, credentials: u16) -> u64 {
        let mut set = u64::from(credentials);
        for rules in levels {
            if self.is(Slip::HoldsItself) {
                set = Self::holding(rules, set);
                continue;
            }
            let below = set;
            let passes = match self.0 {
                Slip::OnePass => 1,
                Slip::SixPasses => 6,
                _ => usize::MAX,
            };
            for _ in 0..passes {
                let last = set;
                let read = match self.0 {
                    Slip::NotTooEarly => set,
                    _ => below,
                };
                set = self.pass(rules, set, read);
                if set == last {
                    break;
                }
            }
        }
        set
    }

    pub(super) fn disclosable(&self, rules: &[Record], shown: u16) -> u16 {
        if !self.is(Slip::OnePassDisclosure) {
            return disclosable(rules, shown);
        }
        self.pass(rules, shown.into(), 0) as u16
    }

    pub(super) fn unlocks(&self, rules: &Policy, request: u16, set: u16) -> bool {
        let model = self.model(&rules.levels, set);
        model >> request & 1 == 1 && (model >> 63 == 0 || self.is(Slip::BreachUnread))
    }

    pub(super) fn may_ask(&self, rules: &Policy, session: &Session) -> u16 {
        let (shown, declined) = (session.shown, session.declined);
        if self.is(Slip::DeclinedOutFirst) {
            let kept = |rule: &&Record| declined >> rule.head & 1 == 0;
            let left: Vec<Record> = rules.disclosure.iter().filter(kept).copied().collect();
            return self.disclosable(&left, shown) & !shown & !declined;
        }
        let open = self.disclosable(&rules.disclosure, shown) & !shown;
        match self.0 {
            Slip::AskedAgain => open,
            Slip::LastCredential => open & !declined & 0x7fff,
            _ => open & !declined,
        }
    }

    /// From all of D, credentials taken out one by one while what is left unlocks.
    fn irreducible(&self, rules: &Policy, session: &Session, d: u16) -> Option<u16> {
        let opens = |set: u16| self.unlocks(rules, session.request, session.shown | set);
        let mut set = opens(d).then_some(d)?;
        for k in 0..16 {
            if set >> k & 1 == 1 && opens(set & !(1 << k)) {
                set &= !(1 << k);
            }
        }
        Some(set)
    }

    pub(super) fn question(&self, rules: &Policy, session: &Session, d: u16) -> Option<u16> {
        let opens = |set: u16| self.unlocks(rules, session.request, session.shown | set);
        match self.0 {
            Slip::DenyUnlooked => return None,
            Slip::AsksAll => return opens(d).then_some(d),
            Slip::Irreducible => return self.irreducible(rules, session, d),
            _ => {}
        }
        let weights = self.weights(&rules.weights, d);
        if self.by_blocks() {
            return self.preferred_by_blocks(d, &weights, opens);
        }
        let mut subsets = vec![0u16];
        while subsets[subsets.len() - 1] != d {
            subsets.push(subsets[subsets.len() - 1].wrapping_sub(d) & d);
        }
        subsets.sort_by_cached_key(|set| self.key(&weights, *set));
        match self.0 {
            Slip::LargeQuestion => subsets.retain(|set| set.count_ones() <= 6),
            Slip::TwoHundredTrials => subsets.truncate(200),
            _ => {}
        }
        subsets.into_iter().find(|set| opens(*set))
    }
}
