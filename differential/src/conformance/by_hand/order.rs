//! The order of refusals.

use super::draft::{bytes, first_round, Draft};
use super::words::policy;
use crate::conformance::case::{request, scope, Case, Sentence};
use crate::plain::policy::Record;
use crate::policies::{access, encode};

const FIRST: Sentence = scope(
    "Only the first that applies is given, in number order, save that records are tested in turn",
);
const WEIGHTS: Sentence =
    request("is tested by 12 and 13 instead of 5 and 6, wherever a policy is tested");
const SIX: Sentence = request(
    "is given exactly then, after all records passed the rest, with the count of records as its number",
);

pub fn cases() -> Vec<Case> {
    [lengths(), in_turn(), in_one(), six()].concat()
}

/// A policy in words and then these bytes, request 16, and a round that shows nothing.
fn then(name: &'static str, tests: Sentence, words: &str, last: &[u8]) -> Draft {
    let records = encode(&policy(words));
    bytes(name, tests, &[&records, last].concat()).plays(16, &[0x0000])
}

/// 1 and 2 come before all records; zeros have the kind 0.
fn lengths() -> Vec<Case> {
    vec![
        bytes("order-1-before-2", FIRST, &[0; 2305])
            .plays(16, &[0x0000])
            .prints(&["refused 1 at 128"]),
        bytes("order-2-before-3", FIRST, &[0; 37])
            .plays(16, &[0x0000])
            .prints(&["refused 2 at 2"]),
    ]
}

/// A higher number at an earlier record comes first, 13 too.
fn in_turn() -> Vec<Case> {
    let head = "16 always; 15 always";
    let twice = "weight 0 is 1; weight 0 is 1";
    vec![
        then("order-5-at-0-3-at-1", FIRST, "16 if 63", &[0; 18]).prints(&["refused 5 at 0"]),
        then("order-4-at-1-3-at-2", FIRST, head, &[0; 18]).prints(&["refused 4 at 1"]),
        then("order-13-at-1-3-at-2", WEIGHTS, twice, &[0; 18]).prints(&["refused 13 at 1"]),
        first_round("order-12-at-0-5-at-1", WEIGHTS, "weight 0 is 16; 16 if 63")
            .prints(&["refused 12 at 0"]),
    ]
}

/// One record with several faults.
fn in_one() -> Vec<Case> {
    let unknown = Record {
        kind: 4,
        ..access(255, 1 << 63, 1 << 63)
    };
    let second = "weight 0 is 1; weight 0 is 16";
    vec![
        bytes("order-3-before-4", FIRST, &encode(&[unknown]))
            .plays(16, &[0x0000])
            .prints(&["refused 3 at 0"]),
        first_round("order-4-before-5", FIRST, "15 if 63").prints(&["refused 4 at 0"]),
        first_round("order-4-before-12", WEIGHTS, "weight 16 is 16").prints(&["refused 4 at 0"]),
        first_round("order-12-before-13", WEIGHTS, second).prints(&["refused 12 at 1"]),
    ]
}

/// 6 comes after every other test of every record.
fn six() -> Vec<Case> {
    let head = "17 if not 17; disclosure 16 always";
    let body = "17 if not 17; 16 always; 16 if not 63";
    let twice = "17 if not 17; weight 0 is 1; weight 0 is 1";
    vec![
        then("order-3-before-6", SIX, "17 if not 17", &[0; 18]).prints(&["refused 3 at 1"]),
        first_round("order-4-before-6", SIX, head).prints(&["refused 4 at 1"]),
        first_round("order-5-before-6", SIX, body).prints(&["refused 5 at 2"]),
        first_round("order-12-before-6", SIX, "17 if not 17; weight 0 is 16")
            .prints(&["refused 12 at 1"]),
        first_round("order-13-before-6", SIX, twice).prints(&["refused 13 at 2"]),
    ]
}
