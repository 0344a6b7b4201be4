//! Openings by hand: at empty and closed slots, at slots whose session is unfinished, at the ends of the list, and what a new
//! opening starts with.

use super::sentences::{FIFTEEN, FOURTEEN, FRESH, SEVEN, SLOTS, TAKES};
use super::steps::{by_hand, open, preview, round, two_services};
use crate::conformance::case::Case;
use crate::marked::policy_a;

fn empty() -> Case {
    let steps = [
        (open(3, 7, 16), "3 opened"),
        (round(3, 0), "3 round 1 got 0000 ask 0004"),
        (open(11, 7, 16), "11 opened"),
        (round(3, 0), "3 round 2 got 0000 ask 0003"),
        (round(11, 4), "11 round 1 got 0004 grant"),
        (round(3, 3), "3 round 3 got 0003 grant"),
    ];
    by_hand("empty-slot-opened", TAKES, policy_a(), &steps)
}

fn granted_same() -> Case {
    let steps = [
        (open(5, 1, 16), "5 opened"),
        (round(5, 4), "5 round 1 got 0004 grant"),
        (open(5, 1, 16), "5 opened"),
        (round(5, 0), "5 round 1 got 0000 ask 0004"),
        (open(5, 1, 16), "5 refused 15"),
        (round(5, 4), "5 round 2 got 0004 grant"),
    ];
    by_hand("granted-slot-same-owner", TAKES, policy_a(), &steps)
}

fn granted_other() -> Case {
    let steps = [
        (open(5, 1, 16), "5 opened"),
        (round(5, 3), "5 round 1 got 0003 grant"),
        (open(5, 2, 16), "5 opened"),
        (round(5, 0), "5 round 1 got 0000 ask 0004"),
        (open(5, 1, 16), "5 refused 15"),
        (round(5, 5), "5 round 2 got 0005 deny"),
    ];
    by_hand("granted-slot-other-owner", TAKES, policy_a(), &steps)
}

fn denied_same() -> Case {
    let steps = [
        (open(62, 9, 16), "62 opened"),
        (round(62, 5), "62 round 1 got 0005 deny"),
        (open(62, 9, 16), "62 opened"),
        (round(62, 1), "62 round 1 got 0001 ask 0002"),
        (round(62, 2), "62 round 2 got 0002 grant"),
        (open(62, 9, 16), "62 opened"),
    ];
    by_hand("denied-slot-same-owner", TAKES, policy_a(), &steps)
}

fn denied_other() -> Case {
    let steps = [
        (open(62, 9, 16), "62 opened"),
        (round(62, 0xffff), "62 round 1 got ffff deny"),
        (open(62, 0, 16), "62 opened"),
        (round(62, 8), "62 round 1 got 0008 ask 0003"),
        (round(62, 1), "62 round 2 got 0001 deny"),
        (open(62, 255, 16), "62 opened"),
        (round(62, 4), "62 round 1 got 0004 grant"),
    ];
    by_hand("denied-slot-other-owner", TAKES, policy_a(), &steps)
}

fn fresh_held() -> Case {
    let steps = [
        (open(8, 1, 16), "8 opened"),
        (open(8, 1, 16), "8 refused 15"),
        (open(8, 2, 16), "8 refused 15"),
        (open(8, 0, 17), "8 refused 15"),
        (round(8, 0), "8 round 1 got 0000 ask 0004"),
    ];
    by_hand("fresh-slot-refused", FIFTEEN, policy_a(), &steps)
}

fn waiting_held() -> Case {
    let steps = [
        (open(8, 1, 16), "8 opened"),
        (round(8, 0), "8 round 1 got 0000 ask 0004"),
        (open(8, 1, 16), "8 refused 15"),
        (open(8, 2, 16), "8 refused 15"),
        (round(8, 0), "8 round 2 got 0000 ask 0003"),
        (open(8, 255, 16), "8 refused 15"),
        (round(8, 3), "8 round 3 got 0003 grant"),
        (open(8, 255, 16), "8 opened"),
    ];
    by_hand("waiting-slot-refused", FIFTEEN, policy_a(), &steps)
}

fn ends() -> Case {
    let steps = [
        (open(0, 1, 16), "0 opened"),
        (open(63, 1, 16), "63 opened"),
        (open(64, 1, 16), "64 refused 14"),
        (open(255, 1, 16), "255 refused 14"),
        (round(63, 0), "63 round 1 got 0000 ask 0004"),
        (round(64, 0), "64 refused 14"),
        (round(0, 4), "0 round 1 got 0004 grant"),
        (round(255, 0), "255 refused 14"),
        (preview(63, 4), "63 preview round 2 got 0004 grant"),
        (preview(64, 4), "64 preview refused 14"),
        (round(63, 4), "63 round 2 got 0004 grant"),
    ];
    by_hand("ends-of-the-list", FOURTEEN, policy_a(), &steps)
}

/// Numbers that are those of slots in six or seven bits.
fn cut() -> Case {
    let steps = [
        (open(64, 1, 16), "64 refused 14"),
        (open(127, 1, 16), "127 refused 14"),
        (open(128, 1, 16), "128 refused 14"),
        (open(191, 1, 16), "191 refused 14"),
        (open(192, 1, 16), "192 refused 14"),
        (open(255, 1, 16), "255 refused 14"),
        (round(0, 0), "0 refused 8"),
        (round(63, 0), "63 refused 8"),
        (open(63, 1, 16), "63 opened"),
        (round(127, 4), "127 refused 14"),
        (preview(191, 4), "191 preview refused 14"),
        (round(255, 4), "255 refused 14"),
        (round(63, 0), "63 round 1 got 0000 ask 0004"),
    ];
    by_hand("numbers-cut-to-six-bits", FOURTEEN, policy_a(), &steps)
}

/// Sixteen owners with four sessions each.
fn every_slot() -> Case {
    let slots = || 0..64u8;
    let mut steps: Vec<([u8; 5], String)> = slots()
        .map(|slot| (open(slot, slot / 4, 16), format!("{slot} opened")))
        .collect();
    steps.extend([
        (round(0, 4), "0 round 1 got 0004 grant".to_string()),
        (round(63, 5), "63 round 1 got 0005 deny".to_string()),
        (open(31, 7, 16), "31 refused 15".to_string()),
        (open(63, 7, 16), "63 refused 16".to_string()),
        (open(0, 15, 16), "0 opened".to_string()),
        (open(63, 0, 16), "63 opened".to_string()),
    ]);
    by_hand("every-slot-opened", SLOTS, policy_a(), &steps)
}

/// What the last session was shown counts no more.
fn shown_anew() -> Case {
    let steps = [
        (open(20, 4, 16), "20 opened"),
        (round(20, 1), "20 round 1 got 0001 ask 0002"),
        (round(20, 2), "20 round 2 got 0002 grant"),
        (open(20, 4, 16), "20 opened"),
        (round(20, 2), "20 round 1 got 0002 ask 0001"),
        (round(20, 1), "20 round 2 got 0001 grant"),
        (open(20, 5, 16), "20 opened"),
        (round(20, 4), "20 round 1 got 0004 grant"),
    ];
    by_hand("shown-set-starts-anew", FRESH, policy_a(), &steps)
}

/// What the last session declined may be asked for again, and rounds are counted from 1.
fn declined_anew() -> Case {
    let steps = [
        (open(20, 4, 16), "20 opened"),
        (round(20, 0), "20 round 1 got 0000 ask 0004"),
        (round(20, 0), "20 round 2 got 0000 ask 0003"),
        (round(20, 0), "20 round 3 got 0000 deny"),
        (open(20, 4, 16), "20 opened"),
        (round(20, 0), "20 round 1 got 0000 ask 0004"),
        (round(20, 0), "20 round 2 got 0000 ask 0003"),
        (round(20, 3), "20 round 3 got 0003 grant"),
    ];
    by_hand("declined-set-starts-anew", FRESH, policy_a(), &steps)
}

fn request_anew() -> Case {
    let steps = [
        (open(1, 4, 16), "1 opened"),
        (round(1, 1), "1 round 1 got 0001 grant"),
        (open(1, 4, 17), "1 opened"),
        (round(1, 1), "1 round 1 got 0001 ask 0002"),
        (round(1, 0), "1 round 2 got 0000 deny"),
        (open(1, 4, 16), "1 opened"),
        (round(1, 2), "1 round 1 got 0002 ask 0001"),
        (round(1, 1), "1 round 2 got 0001 grant"),
    ];
    by_hand("request-starts-anew", FRESH, two_services(), &steps)
}

/// 15 and 63 are no services; nor are numbers whose lower byte is one.
fn requests() -> Case {
    let steps = [
        (open(2, 1, 0), "2 refused 7"),
        (open(2, 1, 15), "2 refused 7"),
        (open(2, 1, 63), "2 refused 7"),
        (open(2, 1, 0x0110), "2 refused 7"),
        (open(2, 1, 0xffff), "2 refused 7"),
        (round(2, 0), "2 refused 8"),
        (open(2, 1, 16), "2 opened"),
        (open(3, 1, 62), "3 opened"),
        (round(3, 0), "3 round 1 got 0000 deny"),
        (round(2, 0), "2 round 1 got 0000 ask 0004"),
    ];
    by_hand("requests-at-the-edges", SEVEN, policy_a(), &steps)
}

pub fn cases() -> Vec<Case> {
    vec![
        empty(),
        granted_same(),
        granted_other(),
        denied_same(),
        denied_other(),
        fresh_held(),
        waiting_held(),
        ends(),
        cut(),
        every_slot(),
        shown_anew(),
        declined_anew(),
        request_anew(),
        requests(),
    ]
}
