//! Which set is asked for where no credential has a weight, and what may be asked for.

use super::draft::{first_round, written};
use crate::conformance::case::{request, scope, Case, Sentence};

const PREFERRED: Sentence = request(
    "The preferred set has the least total weight, then the fewest credentials, then the smallest number.",
);
const CLOSED: Sentence = scope(
    "The disclosable set of shown credentials P is the least set that holds P and is closed under \
     the disclosure rules.",
);
const MISSING: Sentence = scope(
    "among subsets of D that with P unlock the request, the preferred one is asked and becomes Q",
);

/// By three credentials, or by two others.
const TRIPLE_OR_PAIR: &str = "16 if 0 to 2; 16 if 3, 4; disclosure 0 to 4 always";

pub fn cases() -> Vec<Case> {
    [
        fewest(),
        smallest(),
        wide(),
        wide_ties(),
        shown(),
        nothing(),
        opened(),
        closed_over(),
    ]
    .concat()
}

/// By size first: 0003 is a smaller number than 0004, and 0007 than 0018.
fn fewest() -> Vec<Case> {
    let slip = scope(
        "Taking a question's set that cannot be made smaller as the one with fewest credentials.",
    );
    let pair_or_one = "16 if 0, 1; 16 if 2; disclosure 0 to 2 always";
    vec![
        first_round("question-fewest", PREFERRED, pair_or_one)
            .prints(&["round 1 got 0000 ask 0004"]),
        first_round("question-fewest-two", slip, TRIPLE_OR_PAIR)
            .prints(&["round 1 got 0000 ask 0018"]),
    ]
}

/// Of as many the smallest number, whatever comes first in the file.
fn smallest() -> Vec<Case> {
    let one = "16 if 3; 16 if 1; 16 if 2; disclosure 3, 2, 1 always";
    let pair = "16 if 0, 5; 16 if 1, 2; disclosure 0, 1, 2, 5 always";
    vec![
        first_round("question-smallest", PREFERRED, one).prints(&["round 1 got 0000 ask 0002"]),
        // 0021 has the smallest member, and 0006 is the smaller number
        first_round("question-smallest-two", PREFERRED, pair)
            .prints(&["round 1 got 0000 ask 0006"]),
    ]
}

/// Much to choose from.
fn wide() -> Vec<Case> {
    let middle = "16 if 7, 8; disclosure 0 to 15 always";
    let all = "16 if 0 to 15; disclosure 0 to 15 always";
    let gap = "16 if 12, 15; disclosure 0 to 2, 4 to 15 always";
    vec![
        written("question-two-bytes", MISSING, middle)
            .plays(16, &[0x0000, 0x0180])
            .prints(&["round 1 got 0000 ask 0180", "round 2 got 0180 grant"]),
        written("question-all-sixteen", MISSING, all)
            .plays(16, &[0x0000, 0xffff])
            .prints(&["round 1 got 0000 ask ffff", "round 2 got ffff grant"]),
        // 3 may not be asked for
        first_round("question-gap", MISSING, gap).prints(&["round 1 got 0000 ask 9000"]),
    ]
}

/// 0120 before 0208, 0300 before 0401, 0007 before 0308.
fn wide_ties() -> Vec<Case> {
    let low_and_high = "16 if 3, 9; 16 if 5, 8; disclosure 0 to 15 always";
    let high = "16 if 0, 10; 16 if 8, 9; disclosure 0 to 15 always";
    let low = "16 if 3, 8, 9; 16 if 0 to 2; disclosure 0 to 15 always";
    vec![
        first_round("question-wide-smallest", PREFERRED, low_and_high)
            .prints(&["round 1 got 0000 ask 0120"]),
        first_round("question-wide-smallest-high", PREFERRED, high)
            .prints(&["round 1 got 0000 ask 0300"]),
        first_round("question-wide-smallest-low", PREFERRED, low)
            .prints(&["round 1 got 0000 ask 0007"]),
    ]
}

/// Only what is missing is asked for, and for the service requested.
fn shown() -> Vec<Case> {
    let pair = "16 if 0, 1; disclosure 0, 1 always";
    let two_services = "16 if 0; 17 if 1; disclosure 0, 1 always";
    vec![
        written("question-shown", MISSING, pair)
            .plays(16, &[0x0001])
            .prints(&["round 1 got 0001 ask 0002"]),
        // beside 0 and 1 it is 2 alone that is fewer
        written("question-shown-fewest", MISSING, TRIPLE_OR_PAIR)
            .plays(16, &[0x0003])
            .prints(&["round 1 got 0003 ask 0004"]),
        written("question-of-17", MISSING, two_services)
            .plays(17, &[0x0000, 0x0002])
            .prints(&["round 1 got 0000 ask 0002", "round 2 got 0002 grant"]),
    ]
}

/// Nothing that may be asked for is enough.
fn nothing() -> Vec<Case> {
    let askable = scope("A credential is askable if it heads some disclosure rule.");
    let none = scope("if there is none, deny, closed");
    let half = "16 if 0, 1; disclosure 0 always";
    vec![
        first_round("question-nothing-askable", askable, "16 if 0")
            .prints(&["round 1 got 0000 deny"]),
        first_round("question-half-askable", none, half).prints(&["round 1 got 0000 deny"]),
    ]
}

/// 0 may be asked for once 1 is shown, and nobody asks for 1.
fn opened() -> Vec<Case> {
    let by_1 = "16 if 0; disclosure 0 if 1";
    let by_0 = "16 if 0; disclosure 0 if 0";
    vec![
        first_round("question-not-opened", CLOSED, by_1).prints(&["round 1 got 0000 deny"]),
        written("question-opened", CLOSED, by_1)
            .plays(16, &[0x0002, 0x0001])
            .prints(&["round 1 got 0002 ask 0001", "round 2 got 0001 grant"]),
        first_round("question-opened-by-itself", CLOSED, by_0).prints(&["round 1 got 0000 deny"]),
    ]
}

/// What may be asked for opens others before it is shown.
fn closed_over() -> Vec<Case> {
    let chain = "16 if 2; disclosure 2 if 1; disclosure 1 if 0; disclosure 0 always";
    let pair = "16 if 0, 1; disclosure 1 if 0; disclosure 0 always";
    let both = "16 if 2; disclosure 2 if 0, 1; disclosure 0 always";
    vec![
        // 2 alone, and nothing of what opens it
        written("question-through-others", CLOSED, chain)
            .plays(16, &[0x0000, 0x0004])
            .prints(&["round 1 got 0000 ask 0004", "round 2 got 0004 grant"]),
        // 1 in one question with 0, which opens it
        first_round("question-with-its-opener", CLOSED, pair)
            .prints(&["round 1 got 0000 ask 0003"]),
        // 2 needs 1 as well
        first_round("question-half-opened", CLOSED, both).prints(&["round 1 got 0000 deny"]),
        written("question-other-half-shown", CLOSED, both)
            .plays(16, &[0x0002])
            .prints(&["round 1 got 0002 ask 0004"]),
    ]
}
