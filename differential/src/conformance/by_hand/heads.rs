//! Heads: 4 on both sides of each edge, for each kind.

use super::draft::{first_round, written};
use crate::conformance::case::{request, scope, Case};

pub fn cases() -> Vec<Case> {
    [access(), disclosure(), weight()].concat()
}

/// 64 is 0 in its low six bits, and 255 is 63.
fn access() -> Vec<Case> {
    let head = scope("An access head is 16 to 63.");
    vec![
        first_round("head-access-15", head, "15 always").prints(&["refused 4 at 0"]),
        written("head-access-16", head, "16 always")
            .plays(16, &[0xffff])
            .prints(&["round 1 got ffff grant"]),
        written("head-access-62", head, "62 always")
            .plays(62, &[0x0000])
            .prints(&["round 1 got 0000 grant"]),
        // accepted, and always a breach
        first_round("head-access-63", head, "63 always; 16 always")
            .prints(&["round 1 got 0000 deny"]),
        first_round("head-access-64", head, "64 always").prints(&["refused 4 at 0"]),
        first_round("head-access-255", head, "255 always").prints(&["refused 4 at 0"]),
    ]
}

fn disclosure() -> Vec<Case> {
    let head = scope("A disclosure head is 0 to 15");
    vec![
        first_round("head-disclosure-0", head, "disclosure 0 always; 16 if 0")
            .prints(&["round 1 got 0000 ask 0001"]),
        first_round("head-disclosure-15", head, "disclosure 15 always; 16 if 15")
            .prints(&["round 1 got 0000 ask 8000"]),
        first_round("head-disclosure-16", head, "disclosure 16 always").prints(&["refused 4 at 0"]),
        first_round("head-disclosure-63", head, "disclosure 63 always").prints(&["refused 4 at 0"]),
    ]
}

/// What has no weight weighs 1.
fn weight() -> Vec<Case> {
    let head = request("has heads 0 to 15 by 4");
    let first = "weight 0 is 2; 16 if 0; 16 if 1; disclosure 0, 1 always";
    let last = "weight 15 is 0; 16 if 14; 16 if 15; disclosure 14, 15 always";
    vec![
        first_round("head-weight-0", head, first).prints(&["round 1 got 0000 ask 0002"]),
        first_round("head-weight-15", head, last).prints(&["round 1 got 0000 ask 8000"]),
        first_round("head-weight-16", head, "weight 16 is 1").prints(&["refused 4 at 0"]),
    ]
}
