//! Rounds at one slot, by hand: the neighbours stay as they are, and the client's bounds hold from one opening to the next.

use super::sentences::{BOUNDS, OWN_ROUND};
use super::steps::{any_of, by_hand, open, round, round_by, two_services};
use crate::conformance::case::Case;
use crate::marked::{policy_a, policy_b};

/// Three slots next to each other, each at another round.
fn in_turn() -> Case {
    let steps = [
        (open(4, 1, 16), "4 opened"),
        (open(5, 2, 16), "5 opened"),
        (open(6, 3, 16), "6 opened"),
        (round(5, 0), "5 round 1 got 0000 ask 0004"),
        (round(4, 1), "4 round 1 got 0001 ask 0002"),
        (round(5, 0), "5 round 2 got 0000 ask 0003"),
        (round(6, 8), "6 round 1 got 0008 ask 0003"),
        (round(4, 2), "4 round 2 got 0002 grant"),
        (round(5, 1), "5 round 3 got 0001 deny"),
        (round(6, 3), "6 round 2 got 0003 grant"),
    ];
    by_hand("three-slots-in-turn", OWN_ROUND, policy_a(), &steps)
}

/// Two sessions of one owner; a round is that of the slot named, not of the owner's first.
fn one_owner() -> Case {
    let steps = [
        (open(20, 1, 16), "20 opened"),
        (open(30, 1, 16), "30 opened"),
        (round(30, 0), "30 round 1 got 0000 ask 0004"),
        (round(30, 0), "30 round 2 got 0000 ask 0003"),
        (round(20, 0), "20 round 1 got 0000 ask 0004"),
        (round(30, 3), "30 round 3 got 0003 grant"),
        (round(20, 4), "20 round 2 got 0004 grant"),
        (round(30, 0), "30 refused 9"),
    ];
    by_hand("two-slots-of-one-owner", OWN_ROUND, policy_a(), &steps)
}

/// Slots beside it that are empty stay empty.
fn empty_beside() -> Case {
    let steps = [
        (open(33, 1, 16), "33 opened"),
        (round(32, 0), "32 refused 8"),
        (round(34, 0), "34 refused 8"),
        (round(33, 0), "33 round 1 got 0000 ask 0004"),
        (round(34, 4), "34 refused 8"),
        (round(33, 4), "33 round 2 got 0004 grant"),
        (round(32, 4), "32 refused 8"),
        (round(34, 4), "34 refused 8"),
        (open(34, 2, 16), "34 opened"),
        (open(32, 2, 16), "32 opened"),
    ];
    by_hand("empty-slots-beside", OWN_ROUND, policy_a(), &steps)
}

/// Slots beside it that are closed stay closed, and a grant lets nobody else in.
fn closed_beside() -> Case {
    let steps = [
        (open(61, 1, 16), "61 opened"),
        (open(62, 1, 16), "62 opened"),
        (open(63, 1, 16), "63 opened"),
        (round(61, 5), "61 round 1 got 0005 deny"),
        (round(62, 4), "62 round 1 got 0004 grant"),
        (round(63, 0), "63 round 1 got 0000 ask 0004"),
        (round(61, 4), "61 refused 9"),
        (round(63, 5), "63 round 2 got 0005 deny"),
        (round(62, 4), "62 refused 9"),
        (open(62, 2, 16), "62 opened"),
        (round(63, 4), "63 refused 9"),
        (round(61, 4), "61 refused 9"),
    ];
    by_hand("closed-slots-beside", OWN_ROUND, policy_a(), &steps)
}

/// Each slot has its own request.
fn requests() -> Case {
    let steps = [
        (open(0, 1, 16), "0 opened"),
        (open(1, 1, 17), "1 opened"),
        (round(0, 0), "0 round 1 got 0000 ask 0001"),
        (round(1, 0), "1 round 1 got 0000 ask 0002"),
        (round(0, 2), "0 round 2 got 0002 deny"),
        (round(1, 2), "1 round 2 got 0002 grant"),
    ];
    by_hand("two-requests", OWN_ROUND, two_services(), &steps)
}

/// The owner in a round's record is not looked at.
fn unread_owner() -> Case {
    let steps = [
        (open(8, 9, 16), "8 opened"),
        (round_by(77, 8, 0), "8 round 1 got 0000 ask 0004"),
        (round_by(255, 9, 0), "9 refused 8"),
        (round_by(9, 8, 0), "8 round 2 got 0000 ask 0003"),
        (open(9, 77, 16), "9 opened"),
        (round_by(77, 8, 3), "8 round 3 got 0003 grant"),
        (round_by(9, 9, 4), "9 round 1 got 0004 grant"),
    ];
    by_hand("owner-of-a-round-unread", OWN_ROUND, policy_a(), &steps)
}

/// d is 4: nothing is asked twice, and deny comes by round d + 1; after the next opening all over again.
fn by_askable() -> Case {
    let session = [
        (open(17, 6, 16), "17 opened"),
        (round(17, 0), "17 round 1 got 0000 ask 0001"),
        (open(17, 6, 16), "17 refused 15"),
        (round(17, 0), "17 round 2 got 0000 ask 0002"),
        (round(17, 0), "17 round 3 got 0000 ask 0004"),
        (open(17, 8, 16), "17 refused 15"),
        (round(17, 0), "17 round 4 got 0000 ask 0008"),
        (round(17, 0), "17 round 5 got 0000 deny"),
        (round(17, 0), "17 refused 9"),
    ];
    let steps = [session, session].concat();
    by_hand("bound-d-plus-1", BOUNDS, any_of(4), &steps)
}

/// A client that holds 3 and lacks 0 to 2 has grant by round 2 + u, here 5; after the next opening all over again.
fn by_lacked() -> Case {
    let session = [
        (open(40, 1, 16), "40 opened"),
        (round(40, 0), "40 round 1 got 0000 ask 0001"),
        (round(40, 0), "40 round 2 got 0000 ask 0002"),
        (open(40, 1, 63), "40 refused 7"),
        (round(40, 0), "40 round 3 got 0000 ask 0004"),
        (round(40, 0), "40 round 4 got 0000 ask 0008"),
        (round(40, 8), "40 round 5 got 0008 grant"),
    ];
    let steps = [session, session].concat();
    by_hand("bound-2-plus-u", BOUNDS, any_of(4), &steps)
}

/// The holder of 0, 2 and 3 under policy B is denied, as often as it opens.
fn denied_holder() -> Case {
    let session = [
        (open(3, 1, 16), "3 opened"),
        (round(3, 0), "3 round 1 got 0000 ask 0003"),
        (round(3, 1), "3 round 2 got 0001 deny"),
        (round(3, 12), "3 refused 9"),
    ];
    let open_otherwise = [
        (open(3, 1, 16), "3 opened"),
        (round(3, 12), "3 round 1 got 000c grant"),
    ];
    let steps = [&session[..], &session, &open_otherwise].concat();
    by_hand("policy-b-opened-again", BOUNDS, policy_b(), &steps)
}

/// Seventeen rounds, the most there are.
fn longest() -> Case {
    let mut steps = vec![(open(63, 1, 16), "63 opened".to_string())];
    let asked = (0..16).map(|k| format!("63 round {} got 0000 ask {:04x}", k + 1, 1 << k));
    steps.extend(asked.map(|line| (round(63, 0), line)));
    steps.push((round(63, 0), "63 round 17 got 0000 deny".to_string()));
    steps.push((round(63, 0), "63 refused 9".to_string()));
    steps.push((open(63, 1, 16), "63 opened".to_string()));
    steps.push((round(63, 0), "63 round 1 got 0000 ask 0001".to_string()));
    by_hand("seventeen-rounds", BOUNDS, any_of(16), &steps)
}

pub fn cases() -> Vec<Case> {
    vec![
        in_turn(),
        one_owner(),
        empty_beside(),
        closed_beside(),
        requests(),
        unread_owner(),
        by_askable(),
        by_lacked(),
        denied_holder(),
        longest(),
    ]
}
