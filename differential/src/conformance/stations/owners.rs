//! Owners and their four sessions, by hand: the fifth, what counts against an owner, and when there is room again.

use super::sentences::{FOUR, SIXTEEN};
use super::steps::{by_hand, open, round};
use crate::conformance::case::Case;
use crate::marked::policy_a;

fn fifth() -> Case {
    let steps = [
        (open(0, 7, 16), "0 opened"),
        (open(21, 7, 16), "21 opened"),
        (open(42, 7, 16), "42 opened"),
        (open(63, 7, 16), "63 opened"),
        (open(1, 7, 16), "1 refused 16"),
        (open(22, 7, 16), "22 refused 16"),
        (open(62, 7, 16), "62 refused 16"),
        (open(1, 8, 16), "1 opened"),
    ];
    by_hand("fifth-session", SIXTEEN, policy_a(), &steps)
}

/// Fresh and waiting ones count alike; a round leaves them with their owner.
fn waiting() -> Case {
    let steps = [
        (open(10, 7, 16), "10 opened"),
        (open(11, 7, 16), "11 opened"),
        (round(10, 0), "10 round 1 got 0000 ask 0004"),
        (open(12, 7, 16), "12 opened"),
        (round(11, 1), "11 round 1 got 0001 ask 0002"),
        (open(13, 7, 16), "13 opened"),
        (open(14, 7, 16), "14 refused 16"),
        (round(12, 0), "12 round 1 got 0000 ask 0004"),
        (round(13, 8), "13 round 1 got 0008 ask 0003"),
        (open(14, 7, 16), "14 refused 16"),
        (open(9, 7, 16), "9 refused 16"),
        (open(9, 0, 16), "9 opened"),
    ];
    by_hand("waiting-sessions-count", SIXTEEN, policy_a(), &steps)
}

fn owner_zero() -> Case {
    let steps = [
        (open(4, 0, 16), "4 opened"),
        (open(5, 0, 16), "5 opened"),
        (open(6, 0, 16), "6 opened"),
        (open(7, 0, 16), "7 opened"),
        (open(8, 0, 16), "8 refused 16"),
        (open(8, 1, 16), "8 opened"),
        (round(5, 3), "5 round 1 got 0003 grant"),
        (open(9, 0, 16), "9 opened"),
        (open(5, 0, 16), "5 refused 16"),
    ];
    by_hand("owner-0", SIXTEEN, policy_a(), &steps)
}

fn owner_255() -> Case {
    let steps = [
        (open(60, 255, 16), "60 opened"),
        (open(61, 255, 16), "61 opened"),
        (open(62, 255, 16), "62 opened"),
        (open(63, 255, 16), "63 opened"),
        (open(0, 255, 16), "0 refused 16"),
        (open(0, 127, 16), "0 opened"),
        (open(1, 0, 16), "1 opened"),
        (round(63, 5), "63 round 1 got 0005 deny"),
        (open(2, 255, 16), "2 opened"),
        (open(63, 255, 16), "63 refused 16"),
    ];
    by_hand("owner-255", SIXTEEN, policy_a(), &steps)
}

/// Two owners in turn; neither counts against the other.
fn apart() -> Case {
    let steps = [
        (open(0, 1, 16), "0 opened"),
        (open(1, 2, 16), "1 opened"),
        (open(2, 1, 16), "2 opened"),
        (open(3, 2, 16), "3 opened"),
        (open(4, 1, 16), "4 opened"),
        (open(5, 2, 16), "5 opened"),
        (open(6, 1, 16), "6 opened"),
        (open(7, 1, 16), "7 refused 16"),
        (open(7, 2, 16), "7 opened"),
        (open(8, 2, 16), "8 refused 16"),
        (round(0, 4), "0 round 1 got 0004 grant"),
        (open(8, 2, 16), "8 refused 16"),
        (open(8, 1, 16), "8 opened"),
    ];
    by_hand("two-owners-apart", SIXTEEN, policy_a(), &steps)
}

fn after_grant() -> Case {
    let steps = [
        (open(0, 7, 16), "0 opened"),
        (open(1, 7, 16), "1 opened"),
        (open(2, 7, 16), "2 opened"),
        (open(3, 7, 16), "3 opened"),
        (open(40, 7, 16), "40 refused 16"),
        (round(2, 0), "2 round 1 got 0000 ask 0004"),
        (open(40, 7, 16), "40 refused 16"),
        (round(2, 4), "2 round 2 got 0004 grant"),
        (open(40, 7, 16), "40 opened"),
        (open(41, 7, 16), "41 refused 16"),
    ];
    by_hand("fifth-after-a-grant", FOUR, policy_a(), &steps)
}

fn after_deny() -> Case {
    let steps = [
        (open(0, 7, 16), "0 opened"),
        (open(1, 7, 16), "1 opened"),
        (open(2, 7, 16), "2 opened"),
        (open(3, 7, 16), "3 opened"),
        (open(40, 7, 16), "40 refused 16"),
        (round(3, 5), "3 round 1 got 0005 deny"),
        (open(40, 7, 16), "40 opened"),
        (open(3, 7, 16), "3 refused 16"),
        (round(0, 0xffff), "0 round 1 got ffff deny"),
        (open(3, 7, 16), "3 opened"),
    ];
    by_hand("fifth-after-a-deny", FOUR, policy_a(), &steps)
}

/// The closed one of four, taken over by its own owner.
fn own_slot() -> Case {
    let steps = [
        (open(30, 7, 16), "30 opened"),
        (open(31, 7, 16), "31 opened"),
        (open(32, 7, 16), "32 opened"),
        (open(33, 7, 16), "33 opened"),
        (round(31, 3), "31 round 1 got 0003 grant"),
        (open(31, 7, 16), "31 opened"),
        (open(34, 7, 16), "34 refused 16"),
        (round(31, 0), "31 round 1 got 0000 ask 0004"),
        (open(34, 7, 16), "34 refused 16"),
    ];
    by_hand("closed-one-taken-by-its-owner", FOUR, policy_a(), &steps)
}

/// With the slot the session is another owner's, and counts against that one.
fn changed_hands() -> Case {
    let steps = [
        (open(50, 7, 16), "50 opened"),
        (round(50, 4), "50 round 1 got 0004 grant"),
        (open(50, 8, 16), "50 opened"),
        (open(51, 8, 16), "51 opened"),
        (open(52, 8, 16), "52 opened"),
        (open(53, 8, 16), "53 opened"),
        (open(54, 8, 16), "54 refused 16"),
        (open(54, 7, 16), "54 opened"),
        (open(55, 7, 16), "55 opened"),
        (open(56, 7, 16), "56 opened"),
        (open(57, 7, 16), "57 opened"),
        (open(58, 7, 16), "58 refused 16"),
    ];
    by_hand("slot-changes-hands", FOUR, policy_a(), &steps)
}

/// However many are closed, four more may be opened.
fn closed_ones() -> Case {
    let steps = [
        (open(0, 7, 16), "0 opened"),
        (round(0, 4), "0 round 1 got 0004 grant"),
        (open(1, 7, 16), "1 opened"),
        (round(1, 5), "1 round 1 got 0005 deny"),
        (open(2, 7, 16), "2 opened"),
        (round(2, 3), "2 round 1 got 0003 grant"),
        (open(3, 7, 16), "3 opened"),
        (round(3, 0xffff), "3 round 1 got ffff deny"),
        (open(4, 7, 16), "4 opened"),
        (open(5, 7, 16), "5 opened"),
        (open(6, 7, 16), "6 opened"),
        (open(0, 7, 16), "0 opened"),
        (open(1, 7, 16), "1 refused 16"),
        (open(7, 7, 16), "7 refused 16"),
    ];
    by_hand("closed-sessions-do-not-count", FOUR, policy_a(), &steps)
}

/// Refused openings count for nothing.
fn refused_ones() -> Case {
    let steps = [
        (open(0, 1, 16), "0 opened"),
        (open(0, 7, 16), "0 refused 15"),
        (open(64, 7, 16), "64 refused 14"),
        (open(2, 7, 15), "2 refused 7"),
        (open(0, 7, 16), "0 refused 15"),
        (open(255, 7, 16), "255 refused 14"),
        (open(2, 7, 16), "2 opened"),
        (open(3, 7, 16), "3 opened"),
        (open(4, 7, 16), "4 opened"),
        (open(5, 7, 16), "5 opened"),
        (open(6, 7, 16), "6 refused 16"),
        (open(6, 1, 16), "6 opened"),
    ];
    by_hand("refused-openings-do-not-count", FOUR, policy_a(), &steps)
}

pub fn cases() -> Vec<Case> {
    vec![
        fifth(),
        waiting(),
        owner_zero(),
        owner_255(),
        apart(),
        after_grant(),
        after_deny(),
        own_slot(),
        changed_hands(),
        closed_ones(),
        refused_ones(),
    ]
}
