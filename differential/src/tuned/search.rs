//! The preferred question.

use super::order::{first_of, members};
use super::rules::Opening;

/// The n lowest members of a set, for each n up to its size.
fn lowest_members(set: u16) -> [u16; 17] {
    let mut table = [0; 17];
    let (mut left, mut size) = (set, 0);
    while left != 0 {
        table[size + 1] = table[size] | left & left.wrapping_neg();
        left &= left - 1;
        size += 1;
    }
    table
}

/// The next larger subset with as many members: a carry runs through the set, and what it swallowed comes back at the bottom.
fn next_of_size(set: u16, subset: u16, size: usize, lowest: &[u16; 17]) -> Option<u16> {
    let carried = u32::from(subset | !set) + u32::from(subset & subset.wrapping_neg());
    if carried > 0xffff {
        return None;
    }
    let kept = carried as u16 & set;
    Some(kept | lowest[size - kept.count_ones() as usize])
}

/// Sizes rise, and within a size each subset leads straight to the next.
pub fn preferred(opening: &Opening, shown: u16, may_ask: u16) -> Option<u16> {
    let lowest = lowest_members(may_ask);
    for size in 1..=may_ask.count_ones() as usize {
        let mut next = Some(lowest[size]);
        while let Some(subset) = next {
            if opening.unlocks(shown | subset) {
                return Some(subset);
            }
            next = next_of_size(may_ask, subset, size, &lowest);
        }
    }
    None
}

/// The same by weights; where those that may be asked weigh the same, they decide nothing.
pub fn preferred_by_weight(
    opening: &Opening,
    shown: u16,
    may_ask: u16,
    weights: &[u8; 16],
) -> Option<u16> {
    let members = members(weights, may_ask);
    if members.windows(2).all(|pair| pair[0].0 == pair[1].0) {
        return preferred(opening, shown, may_ask);
    }
    let all = (1 << members.len()) - 1;
    let found = first_of(members, all, |set| opening.unlocks(shown | set));
    found.map(|(_, set)| set)
}
