//! The model ("The model"), level by level.

use super::levels::Levels;
use super::policy::{Record, BREACH};

/// A body holds if its positive atoms are in the set and none of its negated ones is among the finished lower levels.
/// "An empty body always applies." "An atom may stand on both sides of a body; that rule never applies."
fn applies(rule: &Record, set: u64, finished: u64) -> bool {
    let two_sided = rule.positive & rule.negative != 0;
    rule.positive & !set == 0 && rule.negative & finished == 0 && !two_sided
}

/// The rules of one level, applied until nothing more comes.
fn finish(rules: &[Record], finished: u64) -> u64 {
    let mut set = finished;
    loop {
        let before = set;
        for rule in rules {
            if applies(rule, set, finished) {
                set |= 1 << rule.head;
            }
        }
        if set == before {
            return set;
        }
    }
}

/// "For every accepted policy and every C just one stable set exists; that is the model."
pub fn model(levels: &Levels, credentials: u16) -> u64 {
    let start = u64::from(credentials);
    levels.iter().fold(start, |set, rules| finish(rules, set))
}

/// "C unlocks service r if r is in the model and 63 is not."
pub fn unlocks(levels: &Levels, service: u16, credentials: u16) -> bool {
    let model = model(levels, credentials);
    model >> service & 1 == 1 && model >> BREACH & 1 == 0
}
