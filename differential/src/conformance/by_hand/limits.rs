//! What a board gets wrong that has too little room: rules, bodies, passes, weights, rounds.

use super::draft::{bytes, first_round, written};
use crate::conformance::case::{request, scope, Case, Sentence};

const LEAST: Sentence = scope(
    "The disclosable set of shown credentials P is the least set that holds P and is closed under the disclosure rules.",
);
const UNLOCKS: Sentence = scope("C unlocks service r if r is in the model and 63 is not.");
const WEIGHT: Sentence = request(
    "The preferred set has the least total weight, then the fewest credentials, then the smallest number.",
);
const NINE: Sentence = scope("all are until the session closes, and then each is refused 9");
const PLACE: Sentence = scope("record k is the part that begins at byte 18 times k");
const RECORDS: Sentence =
    scope("2-byte little-endian records: first the request, then one shown set a round.");

/// A breach rule for each of nine credentials.
const NINE_BREACHES: &str = "16 always; 63 if 0; 63 if 1; 63 if 2; 63 if 3; 63 if 4; 63 if 5; \
    63 if 6; 63 if 7; 63 if 8";

pub fn cases() -> Vec<Case> {
    [
        bodies(),
        rules(),
        passes(),
        breaches(),
        weights(),
        rounds(),
        ends(),
    ]
    .concat()
}

/// Disclosure bodies of three and of fifteen credentials.
fn bodies() -> Vec<Case> {
    let three = "16 if 3; disclosure 0 to 2 always; disclosure 3 if 0, 1, 2";
    let fifteen = "16 if 15; disclosure 0 to 14 always; disclosure 15 if 0 to 14";
    vec![
        first_round("limit-disclosure-of-3", LEAST, three).prints(&["round 1 got 0000 ask 0008"]),
        first_round("limit-disclosure-of-15", LEAST, fifteen)
            .prints(&["round 1 got 0000 ask 8000"]),
    ]
}

/// The last of many disclosure rules, and of five for one credential, decides.
fn rules() -> Vec<Case> {
    let seventeen = "16 if 15; disclosure 0 to 14 if 15; disclosure 0 always; disclosure 15 always";
    let idle = vec!["disclosure 0 to 13 if 14"; 7].join("; ");
    let most = format!(
        "16 if 15; disclosure 0 to 14 if 15; {idle}; disclosure 1 to 13 if 14; disclosure 15 always"
    );
    let five =
        "16 if 5; disclosure 5 if 0; disclosure 5 if 1; disclosure 5 if 2; disclosure 5 if 3; \
        disclosure 5 always";
    let ask = ["round 1 got 0000 ask 8000"];
    vec![
        first_round("limit-17-disclosures", LEAST, seventeen).prints(&ask),
        first_round("limit-127-disclosures", LEAST, &most).prints(&ask),
        first_round("limit-5-disclosures-of-one", LEAST, five)
            .prints(&["round 1 got 0000 ask 0020"]),
    ]
}

/// Each credential by the one before it, the records the other way round.
fn passes() -> Vec<Case> {
    let steps: Vec<String> = (1..16)
        .rev()
        .map(|k| format!("disclosure {k} if {}", k - 1))
        .collect();
    let chain = format!("16 if 15; {}; disclosure 0 always", steps.join("; "));
    vec![first_round("limit-disclosure-steps", LEAST, &chain).prints(&["round 1 got 0000 ask 8000"])]
}

/// The ninth rule of the breach mark.
fn breaches() -> Vec<Case> {
    vec![written("limit-breach-rules", UNLOCKS, NINE_BREACHES)
        .plays(16, &[0x0100])
        .prints(&["round 1 got 0100 deny"])]
}

/// Totals of 74 and 75, of 224 and 225, of 105 and 135; sizes of 15 and 16.
fn weights() -> Vec<Case> {
    let tens =
        "16 if 0 to 4; 16 if 5 to 9; disclosure 0 to 9 always; weight 0 to 8 is 15; weight 9 is 14";
    let most =
        "16 if 0 to 14; 16 if 0 to 13, 15; disclosure 0 to 15 always; weight 0 to 14 is 15; \
        weight 15 is 14";
    let signed = "16 if 0 to 8; 16 if 9 to 15; disclosure 0 to 15 always; weight 0 to 15 is 15";
    let sizes = "16 if 0 to 14; disclosure 0 to 15 always; weight 15 is 0";
    vec![
        first_round("limit-total-of-75", WEIGHT, tens).prints(&["round 1 got 0000 ask 03e0"]),
        first_round("limit-total-of-225", WEIGHT, most).prints(&["round 1 got 0000 ask bfff"]),
        first_round("limit-total-of-135", WEIGHT, signed).prints(&["round 1 got 0000 ask fe00"]),
        first_round("limit-size-of-15", WEIGHT, sizes).prints(&["round 1 got 0000 ask 7fff"]),
    ]
}

/// One round and so many after it.
fn rounds() -> Vec<Case> {
    let after = |name, count: usize| {
        let lines = [&["round 1 got 0000 deny"][..], &vec!["refused 9"; count]].concat();
        bytes(name, NINE, &[])
            .plays(16, &vec![0; count + 1])
            .prints(&lines)
    };
    vec![
        after("limit-33-rounds", 32),
        after("limit-129-rounds", 128),
        after("limit-600-rounds", 599),
    ]
}

/// A file that ends in a line feed, and an input with one after a carriage return.
fn ends() -> Vec<Case> {
    vec![
        first_round("limit-last-byte-0a", PLACE, "16 if not 57, not 59")
            .prints(&["round 1 got 0000 grant"]),
        written("limit-input-0d-0a", RECORDS, "16 if 0, 2, 3, 9, 11")
            .reads(&[0x10, 0x00, 0x0d, 0x0a])
            .prints(&["round 1 got 0a0d grant"]),
        written("limit-request-10-1a", RECORDS, "16 if 1, 3, 4")
            .reads(&[0x10, 0x00, 0x1a, 0x00])
            .prints(&["round 1 got 001a grant"]),
    ]
}
