//! The model, as far as grants, questions and denials show it.

use super::draft::{first_round, written};
use super::levels::to_62;
use super::{POLICY_A, POLICY_B};
use crate::conformance::case::{scope, Case, Sentence};

const UNLOCKS: Sentence = scope("C unlocks service r if r is in the model and 63 is not.");
const LEAST: Sentence =
    scope("M is stable if it equals the least set that holds C and is closed under what remains");

pub fn cases() -> Vec<Case> {
    [
        chains(),
        loops(),
        nots(),
        late(),
        two_sided(),
        breach(),
        breach_in_questions(),
        breach_by_more(),
    ]
    .concat()
}

/// Each record stands before what it needs; the last chain goes from 16 if 17 to 61 if 62, and 62 if 0.
fn chains() -> Vec<Case> {
    let empty = scope("An empty body always applies.");
    let below = "16 if 17, 18; 18 if 17; 17 always";
    let three = "16 if 17; 17 if 18; 18 if 0; disclosure 0 always";
    let all = format!("{}; 62 if 0", to_62(""));
    vec![
        first_round("model-empty-body", empty, below).prints(&["round 1 got 0000 grant"]),
        written("model-chain", LEAST, three)
            .plays(16, &[0x0000, 0x0001])
            .prints(&["round 1 got 0000 ask 0001", "round 2 got 0001 grant"]),
        written("model-chain-of-47", LEAST, &all)
            .plays(16, &[0x0001])
            .prints(&["round 1 got 0001 grant"]),
    ]
}

/// Where nothing enters a loop nothing of it holds.
fn loops() -> Vec<Case> {
    let not = "16 if not 17; 17 if 18; 18 if 17";
    vec![
        written("model-loop", LEAST, "16 if 17; 17 if 18; 18 if 16")
            .plays(16, &[0xffff])
            .prints(&["round 1 got ffff deny"]),
        first_round("model-not-a-loop", LEAST, not).prints(&["round 1 got 0000 grant"]),
    ]
}

fn nots() -> Vec<Case> {
    let strike = scope(
        "strike each rule that negates an atom of M, then drop the negated parts of the others",
    );
    let two_rules = "16 if 0, not 1; 16 if 1, not 2";
    let two_levels = "16 if not 17; 17 if not 18; 18 if 0; disclosure 0 always";
    vec![
        written("model-not-shown", strike, "16 if not 0")
            .plays(16, &[0x0001])
            .prints(&["round 1 got 0001 deny"]),
        // the other rule for 16 is not struck
        written("model-not-in-one-rule", strike, two_rules)
            .plays(16, &[0x0003])
            .prints(&["round 1 got 0003 grant"]),
        // without 0 it is 17 that holds, and with it 18 and 16
        written("model-not-over-two-levels", strike, two_levels)
            .plays(16, &[0x0000, 0x0001])
            .prints(&["round 1 got 0000 ask 0001", "round 2 got 0001 grant"]),
    ]
}

/// What is negated comes out of rules further down.
fn late() -> Vec<Case> {
    let one = scope(
        "For every accepted policy and every C just one stable set exists; that is the model.",
    );
    let service = "16 if not 17; 17 if 18; 18 if 19; 19 if 0";
    let breach = "16 always; 63 if not 17; 17 if 18; 18 if 0";
    vec![
        written("model-not-a-chain", one, service)
            .plays(16, &[0x0001])
            .prints(&["round 1 got 0001 deny"]),
        written("model-not-a-chain-breach", one, breach)
            .plays(16, &[0x0001])
            .prints(&["round 1 got 0001 grant"]),
    ]
}

fn two_sided() -> Vec<Case> {
    let never = scope("An atom may stand on both sides of a body; that rule never applies.");
    let asked = "16 if 0, not 0; disclosure 0 always";
    let derived = "16 if 17, not 17; 17 always";
    let breach = "16 always; 63 if 0, 1, not 0";
    vec![
        first_round("model-two-sided", never, asked).prints(&["round 1 got 0000 deny"]),
        written("model-two-sided-shown", never, asked)
            .plays(16, &[0x0001])
            .prints(&["round 1 got 0001 deny"]),
        first_round("model-two-sided-derived", never, derived).prints(&["round 1 got 0000 deny"]),
        written("model-two-sided-breach", never, breach)
            .plays(16, &[0x0003])
            .prints(&["round 1 got 0003 grant"]),
    ]
}

fn breach() -> Vec<Case> {
    let kept_away = "16 if 0; 63 if 0, not 1; disclosure 1 always";
    vec![
        written("model-breach", UNLOCKS, "16 always; 63 if 0")
            .plays(16, &[0x0001])
            .prints(&["round 1 got 0001 deny"]),
        written("model-no-breach", UNLOCKS, "16 always; 63 if 0")
            .plays(16, &[0xfffe])
            .prints(&["round 1 got fffe grant"]),
        // 16 holds already, and 1 ends the breach
        written("model-breach-ended", UNLOCKS, kept_away)
            .plays(16, &[0x0001, 0x0002])
            .prints(&["round 1 got 0001 ask 0002", "round 2 got 0002 grant"]),
    ]
}

/// The breach comes only with what would be asked for.
fn breach_in_questions() -> Vec<Case> {
    let one = "16 if 0; 63 if 0; disclosure 0 always";
    let other = "16 if 0; 63 if 0; 16 if 1, 2; disclosure 0 to 2 always";
    vec![
        first_round("model-breach-by-question", UNLOCKS, one).prints(&["round 1 got 0000 deny"]),
        first_round("model-breach-other-question", UNLOCKS, other)
            .prints(&["round 1 got 0000 ask 0006"]),
        // beside 2 the pair of 0 and 1 is a breach
        written("model-breach-beside-shown", UNLOCKS, POLICY_B)
            .plays(16, &[0x0004, 0x0008])
            .prints(&["round 1 got 0004 ask 0008", "round 2 got 0008 grant"]),
    ]
}

/// Enough is asked for, and what is shown beyond it is a breach.
fn breach_by_more() -> Vec<Case> {
    let either = "16 if 0; 16 if 1; 63 if 0, 1; disclosure 0, 1 always";
    vec![
        written("model-breach-by-both", UNLOCKS, either)
            .plays(16, &[0x0000, 0x0003])
            .prints(&["round 1 got 0000 ask 0001", "round 2 got 0003 deny"]),
        // 0 beside 2, which was asked for
        written("model-breach-by-unasked", UNLOCKS, POLICY_A)
            .plays(16, &[0x0000, 0x0005])
            .prints(&["round 1 got 0000 ask 0004", "round 2 got 0005 deny"]),
    ]
}
