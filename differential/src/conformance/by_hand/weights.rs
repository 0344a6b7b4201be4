//! Weights: 12 and 13 on both sides of each edge.

use super::draft::{bytes, first_round, Draft};
use super::EITHER;
use crate::conformance::case::{request, Case, Sentence};
use crate::plain::policy::Record;
use crate::policies::{encode, weight};

const GIVEN: Sentence = request(
    "A record of kind 3 gives a credential (head) a weight 0 to 15 in its positive set's number",
);
const TWELVE: Sentence = request("12, weight above 15 or negated set not empty");
const THIRTEEN: Sentence =
    request("13, a second weight for one credential, even by an equal record come twice");

pub fn cases() -> Vec<Case> {
    [given(), above(), negated(), second(), far_apart()].concat()
}

/// Either of 0 and 1 lets in, and these weights stand from record 4 on.
fn either(name: &'static str, tests: Sentence, weights: &str) -> Draft {
    first_round(name, tests, &format!("{EITHER}; {weights}"))
}

fn given() -> Vec<Case> {
    vec![
        either("weight-0", GIVEN, "weight 1 is 0").prints(&["round 1 got 0000 ask 0002"]),
        either("weight-15", GIVEN, "weight 0 is 15; weight 1 is 14")
            .prints(&["round 1 got 0000 ask 0002"]),
    ]
}

/// 256 is 0 in its low byte, and 2 to the 63 is the set of atom 63.
fn above() -> Vec<Case> {
    let highest = format!("weight 1 is {}", 1u64 << 63);
    vec![
        either("weight-16", TWELVE, "weight 1 is 16").prints(&["refused 12 at 4"]),
        either("weight-255", TWELVE, "weight 1 is 255").prints(&["refused 12 at 4"]),
        either("weight-256", TWELVE, "weight 1 is 256").prints(&["refused 12 at 4"]),
        either("weight-2-to-63", TWELVE, &highest).prints(&["refused 12 at 4"]),
    ]
}

fn negated() -> Vec<Case> {
    let record = |negative| Record {
        negative,
        ..weight(1, 1)
    };
    vec![
        bytes("weight-not-0", TWELVE, &encode(&[record(1)]))
            .plays(16, &[0x0000])
            .prints(&["refused 12 at 0"]),
        bytes("weight-not-63", TWELVE, &encode(&[record(1 << 63)]))
            .plays(16, &[0x0000])
            .prints(&["refused 12 at 0"]),
    ]
}

fn second() -> Vec<Case> {
    let (equal, other) = (
        "weight 1 is 2; weight 1 is 2",
        "weight 1 is 2; weight 1 is 3",
    );
    let zero = "weight 1 is 0; weight 1 is 0";
    vec![
        either("weight-twice-equal", THIRTEEN, equal).prints(&["refused 13 at 5"]),
        either("weight-twice-other", THIRTEEN, other).prints(&["refused 13 at 5"]),
        either("weight-twice-0", THIRTEEN, zero).prints(&["refused 13 at 5"]),
    ]
}

/// The first and the last of 128 records; a weight for each of the sixteen, and one more.
fn far_apart() -> Vec<Case> {
    let last = format!(
        "weight 15 is 3; {}weight 15 is 4",
        "17 always; ".repeat(126)
    );
    let sixteen = "weight 0 to 15 is 15; 16 if 3; disclosure 3 always";
    let seventeen = "weight 0 to 15 is 15; weight 0 is 15";
    vec![
        first_round("weight-far-apart", THIRTEEN, &last).prints(&["refused 13 at 127"]),
        first_round("weight-all-sixteen", THIRTEEN, sixteen).prints(&["round 1 got 0000 ask 0008"]),
        first_round("weight-seventeenth", THIRTEEN, seventeen).prints(&["refused 13 at 16"]),
    ]
}
