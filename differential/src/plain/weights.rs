//! Weights (document 02, R-2, "Ask for the junior paper first"), and the order of candidates by them.

use super::policy::Record;

/// "unnamed ones weigh 1"
const UNNAMED: u8 = 1;

/// The weight of each credential, by its number: "A record of kind 3 gives a credential (head) a weight 0 to 15 in its positive
/// set's number; unnamed ones weigh 1."
pub fn weights(records: &[Record]) -> [u8; 16] {
    let mut weights = [UNNAMED; 16];
    for record in records {
        weights[usize::from(record.head)] = record.positive as u8;
    }
    weights
}

/// The sum of the weights of a set's members.
pub fn total_weight(weights: &[u8; 16], set: u16) -> u32 {
    (0..16)
        .filter(|k| set >> k & 1 == 1)
        .map(|k| u32::from(weights[k]))
        .sum()
}

/// The subsets of a set: "The preferred set has the least total weight, then the fewest credentials, then the smallest number."
pub fn by_preference(weights: &[u8; 16], set: u16) -> Vec<u16> {
    let mut subsets = vec![0];
    while subsets.last() != Some(&set) {
        let last = subsets[subsets.len() - 1];
        subsets.push(last.wrapping_sub(set) & set);
    }
    subsets.sort_by_cached_key(|subset| {
        let weight = total_weight(weights, *subset);
        (weight, subset.count_ones(), *subset)
    });
    subsets
}
