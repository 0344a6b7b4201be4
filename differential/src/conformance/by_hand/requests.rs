//! Requests: 7 on both sides of each edge, by themselves and under policies that are refused.

use super::draft::{bytes, written};
use super::POLICY_A;
use crate::conformance::case::{scope, Case, Sentence};

const SEVEN: Sentence = scope("7: request outside 16 to 62, at opening or in a round.");
const FIRST: Sentence =
    scope("A refused policy or request ends the output, the policy being tested first");

pub fn cases() -> Vec<Case> {
    [low(), high(), first(), first_of_weights()].concat()
}

fn low() -> Vec<Case> {
    vec![
        written("request-0", SEVEN, POLICY_A)
            .plays(0, &[0x0000])
            .prints(&["refused 7"]),
        written("request-15", SEVEN, POLICY_A)
            .plays(15, &[0x8000])
            .prints(&["refused 7"]),
        written("request-16", SEVEN, POLICY_A)
            .plays(16, &[0x0000])
            .prints(&["round 1 got 0000 ask 0004"]),
        // unheard of
        written("request-62", SEVEN, POLICY_A)
            .plays(62, &[0x0000])
            .prints(&["round 1 got 0000 deny"]),
    ]
}

/// 63 may be a head, and is no request; 272 has 16 in its low byte.
fn high() -> Vec<Case> {
    vec![
        written("request-63", SEVEN, "63 always")
            .plays(63, &[0x0000])
            .prints(&["refused 7"]),
        written("request-64", SEVEN, "16 always")
            .plays(64, &[0x0000])
            .prints(&["refused 7"]),
        written("request-272", SEVEN, "16 always")
            .plays(272, &[0x0000])
            .prints(&["refused 7"]),
        written("request-65535", SEVEN, "16 always")
            .plays(65535, &[0x0000])
            .prints(&["refused 7"]),
    ]
}

fn first() -> Vec<Case> {
    vec![
        bytes("request-0-after-1", FIRST, &[0; 2305])
            .plays(0, &[0x0000])
            .prints(&["refused 1 at 128"]),
        bytes("request-15-after-2", FIRST, &[0; 17])
            .plays(15, &[0x0000])
            .prints(&["refused 2 at 0"]),
        bytes("request-16-after-3", FIRST, &[0; 18])
            .plays(16, &[0x0000, 0x0000])
            .prints(&["refused 3 at 0"]),
        written("request-62-after-4", FIRST, "15 always")
            .plays(62, &[0x0000, 0x0000, 0x0000])
            .prints(&["refused 4 at 0"]),
        written("request-63-after-5", FIRST, "16 if 63")
            .plays(63, &[0x0000])
            .prints(&["refused 5 at 0"]),
        written("request-64-after-6", FIRST, "17 if not 17")
            .plays(64, &[0x0000])
            .prints(&["refused 6 at 1"]),
    ]
}

/// 12 and 13 are the policy's too, and come before 7.
fn first_of_weights() -> Vec<Case> {
    let twice = "weight 0 is 1; weight 0 is 1";
    vec![
        written("request-272-after-12", FIRST, "weight 0 is 16")
            .plays(272, &[0x0000])
            .prints(&["refused 12 at 0"]),
        written("request-65535-after-13", FIRST, twice)
            .plays(65535, &[0x0000])
            .prints(&["refused 13 at 1"]),
        // one line, however many rounds were to come
        written("request-15-ends", FIRST, "16 always")
            .plays(15, &[0x0000, 0x0000, 0x0000])
            .prints(&["refused 7"]),
    ]
}
