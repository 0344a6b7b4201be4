//! Slips in a search that tries 256 candidates at a time, in order of cost. Candidates are numbers: bit j takes member j of D.

use super::names::{Slip, Slipped};
use crate::candidates::members;

/// Of so many members the candidates are tried one at a time.
const FEW: usize = 3;

/// A cost and a number: what comes first is better.
type Key = (u32, u16);

/// The members that are tried, each with its weight.
struct Members(Vec<(u16, u8)>);

impl Members {
    fn taken(&self, number: u16) -> impl Iterator<Item = (u16, u8)> + '_ {
        let all = self.0.iter().enumerate();
        all.filter(move |(j, _)| number >> j & 1 == 1)
            .map(|(_, member)| *member)
    }

    /// 17 times the total weight and the count of ones.
    fn cost(&self, number: u16) -> u32 {
        self.taken(number)
            .map(|(_, weight)| 17 * u32::from(weight) + 1)
            .sum()
    }

    /// The set that a number stands for.
    fn chosen(&self, number: u16) -> u16 {
        self.taken(number).fold(0, |set, (one, _)| set | one)
    }
}

/// Where the blocks' candidates come from: the blocks in the order in which they are tried, and the lanes of each.
struct Blocks {
    order: Vec<u16>,
    lanes: u16,
}

impl Slipped {
    /// Whether the search goes by blocks: that of the slips from the first such up to those of weights, and of their control.
    pub(super) fn by_blocks(&self) -> bool {
        let these = Slip::TieInBlock as usize..Slip::EqualAccepted as usize;
        these.contains(&(self.0 as usize)) || self.is(Slip::NoneByBlocks)
    }

    fn members(&self, d: u16, weights: &[u8; 16]) -> Members {
        let mut members = members(d);
        if members.len() > 8 {
            match self.0 {
                Slip::HighMembers => (8..members.len()).for_each(|j| members[j] = 1 << j),
                Slip::HighOrder => members[8..].reverse(),
                Slip::LowEight => members.truncate(8),
                _ => {}
            }
        }
        if self.is(Slip::FourMembers) && members.len() == 4 {
            members.truncate(FEW);
        }
        let weigh = |one: u16| (one, weights[one.trailing_zeros() as usize]);
        Members(members.into_iter().map(weigh).collect())
    }

    /// The cost of a block's cheapest candidate.
    fn least(&self, members: &Members, block: u16) -> u32 {
        match self.0 {
            Slip::BlocksUnweighed => 18 * block.count_ones(),
            _ => members.cost(block << 8),
        }
    }

    fn blocks(&self, all: &Members) -> Blocks {
        let members = all.0.len();
        let count = 1u32 << members.saturating_sub(8);
        let mut order: Vec<u16> = (0..count as u16).collect();
        order.sort_by_key(|block| (self.least(all, *block), *block));
        if self.is(Slip::LastBlock) && count > 1 {
            order.pop();
        }
        Blocks {
            order,
            lanes: 1 << members.min(8),
        }
    }

    /// The better of two, either of which may be missing.
    fn better(&self, members: &Members, best: Option<Key>, other: Option<Key>) -> Option<Key> {
        let (Some(a), Some(b)) = (best, other) else {
            return best.or(other);
        };
        let second = match self.0 {
            Slip::TieOfBlocks => b.0 <= a.0,
            Slip::FirstBlockTie => b.0 < a.0,
            Slip::LaneCost => {
                let lane = |key: Key| (members.cost(key.1 & 0xff), key.1);
                lane(b) < lane(a)
            }
            _ => b < a,
        };
        Some(if second { b } else { a })
    }

    /// The best candidate of one block.
    fn best_of(
        &self,
        members: &Members,
        numbers: impl Iterator<Item = u16>,
        opens: impl Fn(u16) -> bool,
    ) -> Option<Key> {
        let hits = numbers.filter(|number| *number != 0 && opens(*number));
        let turned = if self.is(Slip::TieInBlock) { 0xff } else { 0 };
        let best = hits.min_by_key(|number| (members.cost(*number), *number ^ turned))?;
        Some((members.cost(best), best))
    }

    /// Whether nothing better is left: of the blocks not yet tried the first one's cheapest candidate is no better.
    fn done(&self, members: &Members, best: Key, left: &[u16]) -> bool {
        let ahead = usize::from(self.is(Slip::StopsEarly));
        let Some(next) = left.get(ahead) else {
            return true;
        };
        let least = (self.least(members, *next), next << 8);
        match self.0 {
            Slip::FirstHit => true,
            Slip::StopsOnEqual => best.0 <= least.0,
            _ => best < least,
        }
    }

    fn few(&self, members: &Members, opens: impl Fn(u16) -> bool) -> Option<u16> {
        let mut numbers: Vec<u16> = (1..1 << members.0.len()).collect();
        if !self.is(Slip::FewInOrder) {
            numbers.sort_by_key(|number| (members.cost(*number), *number));
        }
        let number = numbers.into_iter().find(|number| opens(*number))?;
        Some(members.chosen(number))
    }

    pub(super) fn preferred_by_blocks(
        &self,
        d: u16,
        weights: &[u8; 16],
        opens: impl Fn(u16) -> bool,
    ) -> Option<u16> {
        let members = self.members(d, weights);
        let opens = |number| opens(members.chosen(number));
        if members.0.len() <= FEW {
            return self.few(&members, opens);
        }
        let blocks = self.blocks(&members);
        let mut best = None;
        let mut left = &blocks.order[..];
        while let [block, rest @ ..] = left {
            if best.is_some_and(|best| self.done(&members, best, left)) {
                break;
            }
            let numbers = (0..blocks.lanes).map(|lane| block << 8 | lane);
            let found = self.best_of(&members, numbers, opens);
            let first = best.is_none() && found.is_some();
            best = self.better(&members, best, found);
            left = match rest {
                [_, after @ ..] if first && self.is(Slip::BlockAfterHit) => after,
                _ => rest,
            };
        }
        best.map(|(_, number)| members.chosen(number))
    }
}
