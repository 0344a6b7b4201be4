//! What is left after a refusal, by hand: the sessions go on as before.

use super::sentences::LEFT;
use super::steps::{by_hand, open, round, two_services};
use crate::conformance::case::Case;
use crate::marked::policy_a;

/// 15: the session goes on with its request and its rounds.
fn after_fifteen() -> Case {
    let steps = [
        (open(12, 1, 17), "12 opened"),
        (open(12, 2, 16), "12 refused 15"),
        (round(12, 0), "12 round 1 got 0000 ask 0002"),
        (open(12, 2, 16), "12 refused 15"),
        (open(12, 1, 16), "12 refused 15"),
        (round(12, 2), "12 round 2 got 0002 grant"),
        (round(12, 2), "12 refused 9"),
    ];
    by_hand("left-by-15", LEFT, two_services(), &steps)
}

/// 15: the session is still its owner's, and counts against no other.
fn owner_after_fifteen() -> Case {
    let steps = [
        (open(12, 1, 16), "12 opened"),
        (open(12, 2, 16), "12 refused 15"),
        (open(20, 2, 16), "20 opened"),
        (open(21, 2, 16), "21 opened"),
        (open(22, 2, 16), "22 opened"),
        (open(23, 2, 16), "23 opened"),
        (open(24, 2, 16), "24 refused 16"),
        (open(30, 1, 16), "30 opened"),
        (open(31, 1, 16), "31 opened"),
        (open(32, 1, 16), "32 opened"),
        (open(33, 1, 16), "33 refused 16"),
        (round(12, 4), "12 round 1 got 0004 grant"),
        (open(24, 2, 16), "24 refused 16"),
        (open(33, 1, 16), "33 opened"),
    ];
    by_hand("owner-left-by-15", LEFT, policy_a(), &steps)
}

/// 16: an empty slot is still empty, a closed one still closed.
fn after_sixteen() -> Case {
    let steps = [
        (open(0, 7, 16), "0 opened"),
        (round(0, 4), "0 round 1 got 0004 grant"),
        (open(1, 7, 16), "1 opened"),
        (open(2, 7, 16), "2 opened"),
        (open(3, 7, 16), "3 opened"),
        (open(4, 7, 16), "4 opened"),
        (open(0, 7, 16), "0 refused 16"),
        (round(0, 0), "0 refused 9"),
        (open(5, 7, 16), "5 refused 16"),
        (round(5, 0), "5 refused 8"),
        (round(1, 0), "1 round 1 got 0000 ask 0004"),
        (open(0, 8, 16), "0 opened"),
        (open(5, 8, 16), "5 opened"),
    ];
    by_hand("left-by-16", LEFT, policy_a(), &steps)
}

/// 7: at an empty slot, a waiting one and a closed one.
fn after_seven() -> Case {
    let steps = [
        (open(15, 3, 15), "15 refused 7"),
        (round(15, 0), "15 refused 8"),
        (open(15, 3, 16), "15 opened"),
        (round(15, 0), "15 round 1 got 0000 ask 0004"),
        (open(15, 3, 63), "15 refused 7"),
        (round(15, 0), "15 round 2 got 0000 ask 0003"),
        (round(15, 3), "15 round 3 got 0003 grant"),
        (open(15, 3, 0), "15 refused 7"),
        (round(15, 0), "15 refused 9"),
    ];
    by_hand("left-by-7", LEFT, policy_a(), &steps)
}

/// 14, of openings and rounds: no slot is written.
fn after_fourteen() -> Case {
    let steps = [
        (open(0, 1, 16), "0 opened"),
        (open(63, 1, 16), "63 opened"),
        (round(0, 0), "0 round 1 got 0000 ask 0004"),
        (open(64, 2, 16), "64 refused 14"),
        (round(64, 4), "64 refused 14"),
        (open(127, 2, 16), "127 refused 14"),
        (round(127, 4), "127 refused 14"),
        (round(0, 0), "0 round 2 got 0000 ask 0003"),
        (round(63, 0), "63 round 1 got 0000 ask 0004"),
        (round(1, 0), "1 refused 8"),
        (round(62, 0), "62 refused 8"),
    ];
    by_hand("left-by-14", LEFT, policy_a(), &steps)
}

/// 8: the slot is still empty, and may be taken.
fn after_eight() -> Case {
    let steps = [
        (round(7, 4), "7 refused 8"),
        (round(7, 4), "7 refused 8"),
        (open(7, 1, 16), "7 opened"),
        (round(8, 4), "8 refused 8"),
        (round(7, 0), "7 round 1 got 0000 ask 0004"),
        (round(8, 0), "8 refused 8"),
        (round(7, 0), "7 round 2 got 0000 ask 0003"),
    ];
    by_hand("left-by-8", LEFT, policy_a(), &steps)
}

/// 9: the slot is still closed, neither empty nor opened again; the owner's other sessions go on.
fn after_nine() -> Case {
    let steps = [
        (open(7, 1, 16), "7 opened"),
        (open(8, 1, 16), "8 opened"),
        (round(8, 0), "8 round 1 got 0000 ask 0004"),
        (round(7, 5), "7 round 1 got 0005 deny"),
        (round(7, 3), "7 refused 9"),
        (round(7, 3), "7 refused 9"),
        (round(8, 0), "8 round 2 got 0000 ask 0003"),
        (open(7, 1, 16), "7 opened"),
        (round(7, 3), "7 round 1 got 0003 grant"),
        (round(8, 3), "8 round 3 got 0003 grant"),
    ];
    by_hand("left-by-9", LEFT, policy_a(), &steps)
}

pub fn cases() -> Vec<Case> {
    vec![
        after_fifteen(),
        owner_after_fifteen(),
        after_sixteen(),
        after_seven(),
        after_fourteen(),
        after_eight(),
        after_nine(),
    ]
}
