//! Which refusal comes first, by hand: of openings, and of rounds.

use super::sentences::{NINE, OPENING_TESTS, ROUND_TESTS};
use super::steps::{by_hand, open, preview, round, Steps};
use crate::conformance::case::Case;
use crate::marked::policy_a;
use crate::plain::policy::Record;
use crate::policies::{access, encode, weight};

/// 7 where the slot's number is past the end, too.
fn seven_fourteen() -> Case {
    let steps = [
        (open(64, 1, 15), "64 refused 7"),
        (open(64, 1, 16), "64 refused 14"),
        (open(255, 1, 63), "255 refused 7"),
        (open(255, 1, 62), "255 refused 14"),
        (open(100, 1, 0xffff), "100 refused 7"),
    ];
    by_hand("7-before-14", OPENING_TESTS, policy_a(), &steps)
}

/// 7 where the slot is held, fresh or waiting, too.
fn seven_fifteen() -> Case {
    let steps = [
        (open(9, 1, 16), "9 opened"),
        (open(9, 1, 63), "9 refused 7"),
        (open(9, 1, 62), "9 refused 15"),
        (round(9, 0), "9 round 1 got 0000 ask 0004"),
        (open(9, 2, 15), "9 refused 7"),
        (open(9, 2, 16), "9 refused 15"),
        (round(9, 4), "9 round 2 got 0004 grant"),
    ];
    by_hand("7-before-15", OPENING_TESTS, policy_a(), &steps)
}

/// An owner's four sessions at slots 0 to 3.
const FOUR_OPENED: Steps<4> = [
    ([1, 0, 7, 16, 0], "0 opened"),
    ([1, 1, 7, 16, 0], "1 opened"),
    ([1, 2, 7, 16, 0], "2 opened"),
    ([1, 3, 7, 16, 0], "3 opened"),
];

/// 7 where the owner has four, too.
fn seven_sixteen() -> Case {
    let more = [
        (open(4, 7, 0), "4 refused 7"),
        (open(4, 7, 16), "4 refused 16"),
        (open(0, 7, 63), "0 refused 7"),
        (open(64, 7, 63), "64 refused 7"),
    ];
    let steps = [&FOUR_OPENED[..], &more].concat();
    by_hand("7-before-16", OPENING_TESTS, policy_a(), &steps)
}

/// 14 also where the lower bits of the number are those of a slot that is held.
fn fourteen_fifteen() -> Case {
    let steps = [
        (open(0, 1, 16), "0 opened"),
        (open(63, 1, 16), "63 opened"),
        (open(64, 1, 16), "64 refused 14"),
        (open(0, 1, 16), "0 refused 15"),
        (open(127, 2, 16), "127 refused 14"),
        (open(63, 2, 16), "63 refused 15"),
        (open(128, 1, 16), "128 refused 14"),
        (open(255, 2, 16), "255 refused 14"),
    ];
    by_hand("14-before-15", OPENING_TESTS, policy_a(), &steps)
}

/// 14 where the owner has four, too.
fn fourteen_sixteen() -> Case {
    let more = [
        (open(64, 7, 16), "64 refused 14"),
        (open(63, 7, 16), "63 refused 16"),
        (open(255, 7, 16), "255 refused 14"),
        (round(1, 0), "1 round 1 got 0000 ask 0004"),
        (open(65, 7, 16), "65 refused 14"),
    ];
    let steps = [&FOUR_OPENED[..], &more].concat();
    by_hand("14-before-16", OPENING_TESTS, policy_a(), &steps)
}

/// 15 where the owner has four, too, in the slot named or in others.
fn fifteen_sixteen() -> Case {
    let more = [
        (open(0, 7, 16), "0 refused 15"),
        (round(3, 0), "3 round 1 got 0000 ask 0004"),
        (open(3, 7, 16), "3 refused 15"),
        (open(20, 8, 16), "20 opened"),
        (open(20, 7, 16), "20 refused 15"),
        (round(20, 4), "20 round 1 got 0004 grant"),
        (open(20, 7, 16), "20 refused 16"),
    ];
    let steps = [&FOUR_OPENED[..], &more].concat();
    by_hand("15-before-16", OPENING_TESTS, policy_a(), &steps)
}

/// The policy's refusal where the slot's number is past the end, too.
fn policy_fourteen() -> Case {
    let kind = Record {
        kind: 4,
        ..access(16, 1, 0)
    };
    let steps = [
        (round(64, 0), "64 refused 3 at 1"),
        (preview(64, 0), "64 preview refused 3 at 1"),
        (open(64, 1, 16), "64 refused 14"),
        (round(255, 1), "255 refused 3 at 1"),
        (preview(255, 1), "255 preview refused 3 at 1"),
    ];
    let policy = encode(&[access(16, 0, 0), kind]);
    by_hand("policy-before-14", ROUND_TESTS, policy, &steps)
}

/// The policy's refusal where the slot is empty, too.
fn policy_empty() -> Case {
    let steps = [
        (round(6, 0), "6 refused 12 at 0"),
        (preview(6, 0), "6 preview refused 12 at 0"),
        (open(6, 1, 16), "6 opened"),
        (round(6, 0), "6 refused 12 at 0"),
        (preview(6, 0), "6 preview refused 12 at 0"),
        (round(7, 0), "7 refused 12 at 0"),
    ];
    let policy = encode(&[weight(3, 16), access(16, 0, 0)]);
    by_hand("policy-before-8", ROUND_TESTS, policy, &steps)
}

/// 14 past the end, where no session is either; 8 at an empty slot, which is not closed.
fn fourteen_eight() -> Case {
    let steps = [
        (round(63, 0), "63 refused 8"),
        (round(64, 0), "64 refused 14"),
        (round(0, 0xffff), "0 refused 8"),
        (round(128, 0xffff), "128 refused 14"),
        (open(0, 1, 16), "0 opened"),
        (round(0, 5), "0 round 1 got 0005 deny"),
        (round(0, 5), "0 refused 9"),
        (round(1, 5), "1 refused 8"),
        (round(64, 5), "64 refused 14"),
    ];
    by_hand("14-before-8-and-9", ROUND_TESTS, policy_a(), &steps)
}

/// Rounds after a grant and after a deny, as many as come.
fn after_closing() -> Case {
    let steps = [
        (open(2, 1, 16), "2 opened"),
        (open(3, 1, 16), "3 opened"),
        (round(2, 4), "2 round 1 got 0004 grant"),
        (round(2, 4), "2 refused 9"),
        (round(3, 0xffff), "3 round 1 got ffff deny"),
        (round(3, 4), "3 refused 9"),
        (round(2, 0), "2 refused 9"),
        (round(3, 0), "3 refused 9"),
        (open(2, 1, 16), "2 opened"),
        (round(2, 0), "2 round 1 got 0000 ask 0004"),
        (round(3, 0), "3 refused 9"),
    ];
    by_hand("rounds-after-closing", NINE, policy_a(), &steps)
}

pub fn cases() -> Vec<Case> {
    vec![
        seven_fourteen(),
        seven_fifteen(),
        seven_sixteen(),
        fourteen_fifteen(),
        fourteen_sixteen(),
        fifteen_sixteen(),
        policy_fourteen(),
        policy_empty(),
        fourteen_eight(),
        after_closing(),
    ]
}
