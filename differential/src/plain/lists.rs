//! Lists of rounds ("Lists of rounds"): what is read from the list and its answers alone, never from a session.

use super::disclosure::askable;
use super::policy::Policy;
use super::session::Ending;

/// "A round is accepted if it ends in grant, deny or a question": what it was shown, and how it ended.
#[derive(Clone, Copy, PartialEq, Eq, Debug)]
pub struct Accepted {
    pub p: u16,
    pub ending: Ending,
}

/// The asked set of a round; empty where it asks nothing.
pub fn asked(round: &Accepted) -> u16 {
    match round.ending {
        Ending::Ask(asked) => asked,
        _ => 0,
    }
}

/// "Shown by round k is each credential in the p of one of rounds 1 to k."
pub fn shown_by(rounds: &[Accepted]) -> u16 {
    rounds.iter().fold(0, |shown, round| shown | round.p)
}

/// "Declined by it is each one in the asked set of a round before k and not in the p of the next accepted round."
pub fn declined_by(rounds: &[Accepted]) -> u16 {
    rounds
        .windows(2)
        .fold(0, |declined, pair| declined | asked(&pair[0]) & !pair[1].p)
}

/// "Asked twice is a credential in the asked sets of two rounds."
pub fn asked_twice(rounds: &[Accepted]) -> u16 {
    let mut once = 0;
    let mut twice = 0;
    for round in rounds {
        twice |= once & asked(round);
        once |= asked(round);
    }
    twice
}

/// Grant or deny.
pub fn closes(ending: Ending) -> bool {
    !matches!(ending, Ending::Ask(_))
}

/// "Grant, or grant or deny, comes by round k if the list has no round k + 1, and its round k, if it has one, ends so"
pub fn comes_by(rounds: &[Accepted], k: usize, ends: impl Fn(Ending) -> bool) -> bool {
    rounds.len() <= k && (rounds.len() < k || ends(rounds[k - 1].ending))
}

/// "d all askable ones"
pub fn askable_count(policy: &Policy) -> usize {
    askable(&policy.disclosure).count_ones() as usize
}

/// "u counts the askable ones outside it"
pub fn lacked_count(policy: &Policy, holding: u16) -> usize {
    (askable(&policy.disclosure) & !holding).count_ones() as usize
}
