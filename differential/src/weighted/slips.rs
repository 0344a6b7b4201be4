//! Searches by weights that are wrong on purpose: the comparison must find out every one of them.

use super::{Answer, Search};
use crate::plain::model::unlocks;
use crate::plain::policy::check;
use crate::plain::session::is_service;
use crate::plain::weights::total_weight;

#[derive(Clone, Copy, PartialEq, Eq, Debug)]
pub enum Slip {
    None,
    WeightUnread,
    CountUnread,
    CountFirst,
    LargestTie,
    ZeroAsOne,
    ByMember,
    EightBits,
    PlaceFromZero,
    LimitReached,
    LimitPassed,
    SpentAsNothing,
    ShownAgain,
    ShownUntried,
    RequestUntested,
    HighWeights,
    WholeBlocks,
}

pub const SLIPS: [(Slip, &str); 16] = [
    (Slip::WeightUnread, "weights not read"),
    (Slip::CountUnread, "of equal weight the smallest number"),
    (Slip::CountFirst, "fewest first, then by weight"),
    (
        Slip::LargestTie,
        "of equal weight and count the largest number",
    ),
    (Slip::ZeroAsOne, "weight 0 taken as 1"),
    (Slip::ByMember, "weights by place among the members"),
    (Slip::EightBits, "total weight cut to eight bits"),
    (Slip::PlaceFromZero, "places from 0"),
    (Slip::LimitReached, "spent where the place is the limit"),
    (
        Slip::LimitPassed,
        "found where the place is one past the limit",
    ),
    (
        Slip::SpentAsNothing,
        "nothing where the limit is reached first",
    ),
    (
        Slip::ShownAgain,
        "what is shown counted among the candidates",
    ),
    (Slip::ShownUntried, "the shown set alone not tried"),
    (Slip::RequestUntested, "request 63 not refused"),
    (
        Slip::HighWeights,
        "from the ninth member on, each weight taken as 1",
    ),
    (
        Slip::WholeBlocks,
        "the limit rounded up to whole blocks of 256",
    ),
];

impl Slip {
    fn weights(self, search: &Search, within: u16) -> [u8; 16] {
        let mut weights = search.weights;
        match self {
            Slip::WeightUnread => weights = [1; 16],
            Slip::ZeroAsOne => weights = weights.map(|weight| weight.max(1)),
            Slip::ByMember => {
                let mut next = search.weights.into_iter();
                for k in (0..16).filter(|k| within >> k & 1 == 1) {
                    weights[k] = next.next().unwrap_or(0);
                }
            }
            Slip::HighWeights => {
                let members = (0..16).filter(|k| within >> k & 1 == 1);
                members.skip(8).for_each(|k| weights[k] = 1);
            }
            _ => {}
        }
        weights
    }

    fn key(self, weights: &[u8; 16], set: u16) -> (u32, u32, u16) {
        let (weight, count) = (total_weight(weights, set), set.count_ones());
        match self {
            Slip::CountUnread => (weight, 0, set),
            Slip::CountFirst => (count, weight, set),
            Slip::LargestTie => (weight, count, !set),
            Slip::EightBits => (weight & 0xff, count, set),
            _ => (weight, count, set),
        }
    }

    fn within(self, search: &Search) -> u16 {
        match self {
            Slip::ShownAgain => search.within,
            _ => search.within & !search.shown,
        }
    }

    fn spent(self, place: u32, limit: u32) -> bool {
        match self {
            Slip::LimitReached => place >= limit,
            Slip::WholeBlocks => place.div_ceil(256) > limit.div_ceil(256),
            Slip::LimitPassed => place > limit.saturating_add(1),
            _ => place > limit,
        }
    }

    pub fn answer(self, policy: &[u8], search: &Search) -> Answer {
        let (Ok(rules), request) = (check(policy), search.request) else {
            return Answer::Refused;
        };
        let untested = self == Slip::RequestUntested && request == 63;
        if !is_service(request) && !untested {
            return Answer::Refused;
        }
        let opens = |set: u16| unlocks(&rules.levels, request, search.shown | set);
        if self != Slip::ShownUntried && opens(0) {
            return Answer::Found { trials: 0, set: 0 };
        }
        let within = self.within(search);
        let weights = self.weights(search, within);
        let mut sets: Vec<u16> = (1..=within).filter(|set| set & !within == 0).collect();
        sets.sort_by_key(|set| self.key(&weights, *set));
        let found = sets.iter().position(|set| opens(*set));
        let place = found.map_or(sets.len(), |k| k + 1) as u32;
        let trials = place - u32::from(self == Slip::PlaceFromZero && found.is_some());
        match found {
            _ if self.spent(place, search.limit) => match self {
                Slip::SpentAsNothing => Answer::Nothing {
                    trials: sets.len() as u32,
                },
                _ => Answer::Spent,
            },
            Some(k) => Answer::Found {
                trials,
                set: sets[k],
            },
            None => Answer::Nothing { trials },
        }
    }
}
