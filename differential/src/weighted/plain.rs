//! The search by weights, in plain Rust.

use super::{Answer, Search};
use crate::plain::model::unlocks;
use crate::plain::policy::check;
use crate::plain::session::is_service;
use crate::plain::weights::by_preference;

/// The subsets but the empty one, which comes first.
pub fn candidates(weights: &[u8; 16], within: u16) -> Vec<u16> {
    by_preference(weights, within).split_off(1)
}

/// One candidate after the other until one unlocks, none is left, or the limit is reached. Where the shown set alone unlocks,
/// nothing is tried.
pub fn answer(policy: &[u8], search: &Search) -> Answer {
    let Ok(rules) = check(policy) else {
        return Answer::Refused;
    };
    if !is_service(search.request) {
        return Answer::Refused;
    }
    let opens = |set: u16| unlocks(&rules.levels, search.request, search.shown | set);
    if opens(0) {
        return Answer::Found { trials: 0, set: 0 };
    }
    let candidates = candidates(&search.weights, search.within & !search.shown);
    let mut trials = 0;
    for set in candidates {
        if trials == search.limit {
            return Answer::Spent;
        }
        trials += 1;
        if opens(set) {
            return Answer::Found { trials, set };
        }
    }
    Answer::Nothing { trials }
}
