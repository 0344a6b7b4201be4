//! Bodies: 5 on both sides of each edge.

use super::draft::{first_round, written};
use crate::conformance::case::{scope, Case};

pub fn cases() -> Vec<Case> {
    [access(), disclosure()].concat()
}

fn access() -> Vec<Case> {
    let body = scope("Atom 63 stands in no body.");
    vec![
        first_round("body-63", body, "16 if 63").prints(&["refused 5 at 0"]),
        first_round("body-not-63", body, "16 if not 63").prints(&["refused 5 at 0"]),
        written("body-62", body, "16 if 62; 62 if 0")
            .plays(16, &[0x0001])
            .prints(&["round 1 got 0001 grant"]),
        written("body-not-62", body, "16 if not 62; 62 if 0")
            .plays(16, &[0x0001])
            .prints(&["round 1 got 0001 deny"]),
    ]
}

fn disclosure() -> Vec<Case> {
    let body =
        scope("A disclosure head is 0 to 15 and its body has only credentials, none negated.");
    let by_15 = "16 if 0; disclosure 0 if 15";
    vec![
        written("body-disclosure-15", body, by_15)
            .plays(16, &[0x8000, 0x0001])
            .prints(&["round 1 got 8000 ask 0001", "round 2 got 0001 grant"]),
        first_round("body-disclosure-16", body, "disclosure 0 if 16").prints(&["refused 5 at 0"]),
        first_round("body-disclosure-63", body, "disclosure 0 if 1, 63")
            .prints(&["refused 5 at 0"]),
        first_round("body-disclosure-not-0", body, "disclosure 1 if not 0")
            .prints(&["refused 5 at 0"]),
        first_round("body-disclosure-not-63", body, "disclosure 1 if not 63")
            .prints(&["refused 5 at 0"]),
    ]
}
