//! What there is to be told of a question: which other candidates unlock, and where they lie.

use crate::candidates::{block, number, subset, turn};
use crate::plain::levels::Levels;
use crate::plain::model::unlocks;

/// Classes of questions; each must come up.
pub const CLASSES: [&str; 12] = [
    "another set as small unlocks too",
    "and one of them is in another block",
    "and one of them is in a cheaper block",
    "found in a block that is not the first",
    "found in the last of several blocks",
    "found as the cheapest of a later block",
    "a larger set in an earlier block unlocks too",
    "the last candidate, all of D",
    "D has gaps",
    "something is shown",
    "of something larger that holds the question, some does not unlock",
    "no other set unlocks",
];

/// A round that asks: the rules, the service, what is shown, what may be asked, and what is asked.
pub struct Round<'a> {
    pub levels: &'a Levels,
    pub service: u16,
    pub shown: u16,
    pub may_ask: u16,
    pub asked: u16,
}

/// The numbers of all sets that unlock.
fn unlocking(round: &Round) -> Vec<u16> {
    let last = number(round.may_ask, round.may_ask);
    (1..=last)
        .filter(|n| {
            let set = round.shown | subset(*n, round.may_ask);
            unlocks(round.levels, round.service, set)
        })
        .collect()
}

fn has_gaps(set: u16) -> bool {
    let shifted = set >> set.trailing_zeros().min(15);
    shifted & shifted.wrapping_add(1) != 0
}

/// Which classes a question is of.
pub fn classes(round: &Round) -> [bool; 12] {
    let members = round.may_ask.count_ones();
    let asked = number(round.asked, round.may_ask);
    let own = block(asked);
    let all = unlocking(round);
    let others = || all.iter().copied().filter(|n| *n != asked);
    let ties = || others().filter(|n| n.count_ones() == asked.count_ones());
    let holding = others().filter(|n| n & asked == asked).count();
    let last = block(number(round.may_ask, round.may_ask));
    [
        ties().count() > 0,
        ties().any(|n| block(n) != own),
        ties().any(|n| block(n).count_ones() < own.count_ones()),
        own != 0,
        own == last && last != 0,
        own != 0 && asked & 0xff == 0,
        others().any(|n| turn(block(n)) < turn(own)),
        round.asked == round.may_ask,
        has_gaps(round.may_ask),
        round.shown != 0,
        holding < (1 << (members - asked.count_ones())) - 1,
        others().count() == 0,
    ]
}
