//! Rounds after grant or deny.

use super::draft::written;
use super::EITHER;
use crate::conformance::case::{scope, Case, Sentence};

const EACH: Sentence = scope("all are until the session closes, and then each is refused 9");

pub fn cases() -> Vec<Case> {
    [one(), several(), many()].concat()
}

fn one() -> Vec<Case> {
    let nine = scope("9: round in a sound closed session.");
    vec![written("closing-grant", nine, "16 always")
        .plays(16, &[0x0000, 0x0000])
        .prints(&["round 1 got 0000 grant", "refused 9"])]
}

/// What would have been enough comes too late, and no session is opened anew.
fn several() -> Vec<Case> {
    vec![
        written("closing-shown-too-late", EACH, "16 if 0")
            .plays(16, &[0x0000, 0x0001, 0xffff, 0x0000])
            .prints(&[
                "round 1 got 0000 deny",
                "refused 9",
                "refused 9",
                "refused 9",
            ]),
        written("closing-after-questions", EACH, EITHER)
            .plays(16, &[0x0000, 0x0000, 0x0000, 0x0001, 0x0002])
            .prints(&[
                "round 1 got 0000 ask 0001",
                "round 2 got 0000 ask 0002",
                "round 3 got 0000 deny",
                "refused 9",
                "refused 9",
            ]),
    ]
}

/// A line for each of twenty records left.
fn many() -> Vec<Case> {
    let lines = [&["round 1 got 0001 grant"][..], &["refused 9"; 20]].concat();
    vec![written("closing-twenty", EACH, "16 if 0")
        .plays(16, &[0x0001; 21])
        .prints(&lines)]
}
