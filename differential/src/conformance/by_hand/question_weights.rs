//! Which set is asked for where credentials have weights.

use super::draft::{first_round, written, Draft};
use super::{POLICY_A, POLICY_B};
use crate::conformance::case::{request, Case, Sentence};

const PREFERRED: Sentence = request(
    "The preferred set has the least total weight, then the fewest credentials, then the smallest number.",
);
const UNNAMED: Sentence = request("unnamed ones weigh 1");

pub fn cases() -> Vec<Case> {
    [
        sessions(),
        sums(),
        ties(),
        weight_0(),
        weight_1(),
        weight_15(),
        elsewhere(),
    ]
    .concat()
}

/// By 0 and 1, or by 2; with these weights.
fn pair_or_one(name: &'static str, weights: &str) -> Draft {
    let words = format!("16 if 0, 1; 16 if 2; disclosure 0 to 2 always; {weights}");
    first_round(name, PREFERRED, &words)
}

/// The heavier way is asked for last.
fn sessions() -> Vec<Case> {
    let heavier = format!("{POLICY_B}; weight 0 is 3");
    vec![
        pair_or_one("question-weight", "weight 2 is 3")
            .plays(16, &[0x0000, 0x0000, 0x0004])
            .prints(&[
                "round 1 got 0000 ask 0003",
                "round 2 got 0000 ask 0004",
                "round 3 got 0004 grant",
            ]),
        // the holder of case (j), asked for 2 and 3 first
        written("question-weight-policy-b", PREFERRED, &heavier)
            .plays(16, &[0x0000, 0x000c])
            .prints(&["round 1 got 0000 ask 000c", "round 2 got 000c grant"]),
    ]
}

/// 8 and 8 are 16, three times 5 are 15; four that weigh nothing are less than one that weighs 2.
fn sums() -> Vec<Case> {
    let sixteen = "16 if 0, 1; 16 if 2 to 4; disclosure 0 to 4 always; \
        weight 0, 1 is 8; weight 2 to 4 is 5";
    let wide = "16 if 8; 16 if 9 to 12; disclosure 0 to 15 always; \
        weight 8 is 2; weight 9 to 12 is 0";
    vec![
        first_round("question-weight-sum", PREFERRED, sixteen)
            .prints(&["round 1 got 0000 ask 001c"]),
        first_round("question-weight-wide", PREFERRED, wide).prints(&["round 1 got 0000 ask 1e00"]),
    ]
}

/// Equal weights: by size, and of equal size by number.
fn ties() -> Vec<Case> {
    let number = "16 if 0, 3; 16 if 1, 2; disclosure 0 to 3 always; weight 0, 2 is 2";
    vec![
        pair_or_one("question-weight-tie-size", "weight 2 is 2")
            .prints(&["round 1 got 0000 ask 0004"]),
        first_round("question-weight-tie-number", PREFERRED, number)
            .prints(&["round 1 got 0000 ask 0006"]),
    ]
}

fn weight_0() -> Vec<Case> {
    let spare = "16 if 0; disclosure 0, 1 always; weight 1 is 0";
    let three = "16 if 0; 16 if 1 to 3; disclosure 0 to 3 always; weight 1 to 3 is 0";
    vec![
        // 1 weighs nothing, and is not asked for beside 0
        first_round("question-weight-0-spare", PREFERRED, spare)
            .prints(&["round 1 got 0000 ask 0001"]),
        // three that weigh nothing before one that weighs 1
        first_round("question-weight-0-three", PREFERRED, three)
            .prints(&["round 1 got 0000 ask 000e"]),
    ]
}

/// A weight of 1 changes nothing.
fn weight_1() -> Vec<Case> {
    let named = format!("{POLICY_A}; weight 0 to 2 is 1");
    vec![written("question-weight-1-policy-a", UNNAMED, &named)
        .plays(16, &[0x0000, 0x0000, 0x0003])
        .prints(&[
            "round 1 got 0000 ask 0004",
            "round 2 got 0000 ask 0003",
            "round 3 got 0003 grant",
        ])]
}

/// 15 beside fifteen that weigh as much together, and beside fourteen that weigh 14.
fn weight_15() -> Vec<Case> {
    let fifteen = "16 if 15; 16 if 0 to 14; disclosure 0 to 15 always; weight 15 is 15";
    let fourteen = "16 if 15; 16 if 0 to 13; disclosure 0 to 15 always; weight 15 is 15";
    vec![
        first_round("question-weight-15-as-heavy", UNNAMED, fifteen)
            .prints(&["round 1 got 0000 ask 8000"]),
        first_round("question-weight-15-heavier", UNNAMED, fourteen)
            .prints(&["round 1 got 0000 ask 3fff"]),
    ]
}

/// What is shown weighs nothing any more, and a weight makes nothing askable.
fn elsewhere() -> Vec<Case> {
    vec![
        pair_or_one("question-weight-of-shown", "weight 0 is 15; weight 2 is 2")
            .plays(16, &[0x0001, 0x0002])
            .prints(&["round 1 got 0001 ask 0002", "round 2 got 0002 grant"]),
        first_round("question-weight-alone", PREFERRED, "16 if 0; weight 0 is 0")
            .prints(&["round 1 got 0000 deny"]),
    ]
}
