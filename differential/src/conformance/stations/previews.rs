//! Previews by hand: of each ending and each refusal, the round afterwards, and a list that is left as it is.

use super::sentences::{DISPLAYS, NONE_GIVEN, SAME_ROUND};
use super::steps::{by_hand, open, preview, preview_by, round, two_services};
use crate::conformance::case::Case;
use crate::marked::policy_a;
use crate::policies::{access, encode};

/// What a first round would answer to each of these sets.
fn of_fresh() -> Case {
    let steps = [
        (open(7, 1, 16), "7 opened"),
        (preview(7, 0), "7 preview round 1 got 0000 ask 0004"),
        (preview(7, 1), "7 preview round 1 got 0001 ask 0002"),
        (preview(7, 3), "7 preview round 1 got 0003 grant"),
        (preview(7, 4), "7 preview round 1 got 0004 grant"),
        (preview(7, 5), "7 preview round 1 got 0005 deny"),
        (preview(7, 8), "7 preview round 1 got 0008 ask 0003"),
        (preview(7, 0x8000), "7 preview round 1 got 8000 ask 0004"),
        (preview(7, 0xffff), "7 preview round 1 got ffff deny"),
        (round(7, 0x8000), "7 round 1 got 8000 ask 0004"),
    ];
    by_hand("previews-of-a-fresh-session", DISPLAYS, policy_a(), &steps)
}

/// And a later round, what was asked for declined or not.
fn of_waiting() -> Case {
    let steps = [
        (open(7, 1, 16), "7 opened"),
        (round(7, 0), "7 round 1 got 0000 ask 0004"),
        (preview(7, 0), "7 preview round 2 got 0000 ask 0003"),
        (preview(7, 1), "7 preview round 2 got 0001 ask 0002"),
        (preview(7, 3), "7 preview round 2 got 0003 grant"),
        (preview(7, 4), "7 preview round 2 got 0004 grant"),
        (preview(7, 5), "7 preview round 2 got 0005 deny"),
        (round(7, 1), "7 round 2 got 0001 ask 0002"),
        (preview(7, 0), "7 preview round 3 got 0000 deny"),
        (preview(7, 2), "7 preview round 3 got 0002 grant"),
        (round(7, 0), "7 round 3 got 0000 deny"),
    ];
    by_hand(
        "previews-of-a-waiting-session",
        DISPLAYS,
        policy_a(),
        &steps,
    )
}

/// Document 01's three rounds, each previewed.
fn then_round() -> Case {
    let steps = [
        (open(63, 1, 16), "63 opened"),
        (preview(63, 0), "63 preview round 1 got 0000 ask 0004"),
        (round(63, 0), "63 round 1 got 0000 ask 0004"),
        (preview(63, 0), "63 preview round 2 got 0000 ask 0003"),
        (round(63, 0), "63 round 2 got 0000 ask 0003"),
        (preview(63, 3), "63 preview round 3 got 0003 grant"),
        (round(63, 3), "63 round 3 got 0003 grant"),
        (preview(63, 3), "63 preview refused 9"),
        (round(63, 3), "63 refused 9"),
    ];
    by_hand("each-round-previewed", SAME_ROUND, policy_a(), &steps)
}

/// The same preview again and again: no round is counted, nothing is shown or declined by it.
fn again() -> Case {
    let nothing = (preview(2, 0), "2 preview round 1 got 0000 ask 0004");
    let declined = (preview(2, 0), "2 preview round 2 got 0000 ask 0003");
    let steps = [
        (open(2, 1, 16), "2 opened"),
        nothing,
        nothing,
        nothing,
        (preview(2, 1), "2 preview round 1 got 0001 ask 0002"),
        nothing,
        (round(2, 0), "2 round 1 got 0000 ask 0004"),
        declined,
        declined,
        (round(2, 4), "2 round 2 got 0004 grant"),
    ];
    by_hand("previews-change-nothing", SAME_ROUND, policy_a(), &steps)
}

/// One set previewed and another sent.
fn another_set() -> Case {
    let steps = [
        (open(2, 1, 16), "2 opened"),
        (preview(2, 4), "2 preview round 1 got 0004 grant"),
        (round(2, 8), "2 round 1 got 0008 ask 0003"),
        (preview(2, 5), "2 preview round 2 got 0005 deny"),
        (round(2, 3), "2 round 2 got 0003 grant"),
        (open(2, 1, 16), "2 opened"),
        (preview(2, 3), "2 preview round 1 got 0003 grant"),
        (round(2, 5), "2 round 1 got 0005 deny"),
    ];
    by_hand("preview-of-another-set", SAME_ROUND, policy_a(), &steps)
}

/// What happens at other slots, a fifth session and one closed among it, changes no preview.
fn elsewhere() -> Case {
    let steps = [
        (open(10, 1, 16), "10 opened"),
        (preview(10, 1), "10 preview round 1 got 0001 ask 0002"),
        (open(11, 1, 16), "11 opened"),
        (open(9, 1, 16), "9 opened"),
        (open(8, 1, 16), "8 opened"),
        (open(7, 1, 16), "7 refused 16"),
        (round(11, 4), "11 round 1 got 0004 grant"),
        (round(9, 0), "9 round 1 got 0000 ask 0004"),
        (preview(9, 5), "9 preview round 2 got 0005 deny"),
        (round(10, 1), "10 round 1 got 0001 ask 0002"),
        (open(11, 2, 16), "11 opened"),
        (round(9, 5), "9 round 2 got 0005 deny"),
    ];
    by_hand("preview-and-round-later", SAME_ROUND, policy_a(), &steps)
}

/// A grant or deny that is only previewed ends no session, and makes no room for a fifth.
fn ends_nothing() -> Case {
    let steps = [
        (open(0, 7, 16), "0 opened"),
        (open(1, 7, 16), "1 opened"),
        (open(2, 7, 16), "2 opened"),
        (open(3, 7, 16), "3 opened"),
        (preview(0, 4), "0 preview round 1 got 0004 grant"),
        (preview(1, 5), "1 preview round 1 got 0005 deny"),
        (open(4, 7, 16), "4 refused 16"),
        (open(0, 8, 16), "0 refused 15"),
        (open(1, 8, 16), "1 refused 15"),
        (round(0, 4), "0 round 1 got 0004 grant"),
        (open(4, 7, 16), "4 opened"),
    ];
    by_hand(
        "previewed-endings-end-nothing",
        SAME_ROUND,
        policy_a(),
        &steps,
    )
}

/// Previews at a closed slot, granted or denied; it is still closed.
fn of_closed() -> Case {
    let steps = [
        (open(5, 1, 16), "5 opened"),
        (round(5, 4), "5 round 1 got 0004 grant"),
        (preview(5, 4), "5 preview refused 9"),
        (preview(5, 0), "5 preview refused 9"),
        (round(5, 0), "5 refused 9"),
        (open(5, 1, 16), "5 opened"),
        (round(5, 5), "5 round 1 got 0005 deny"),
        (preview(5, 4), "5 preview refused 9"),
        (round(5, 4), "5 refused 9"),
    ];
    by_hand(
        "previews-of-a-closed-session",
        SAME_ROUND,
        policy_a(),
        &steps,
    )
}

/// A slot that is taken over has previews of its new session.
fn taken_over() -> Case {
    let steps = [
        (open(5, 1, 16), "5 opened"),
        (preview(5, 0), "5 preview round 1 got 0000 ask 0001"),
        (round(5, 1), "5 round 1 got 0001 grant"),
        (preview(5, 0), "5 preview refused 9"),
        (open(5, 2, 17), "5 opened"),
        (preview(5, 0), "5 preview round 1 got 0000 ask 0002"),
        (preview(5, 1), "5 preview round 1 got 0001 ask 0002"),
        (preview(5, 2), "5 preview round 1 got 0002 grant"),
        (round(5, 0), "5 round 1 got 0000 ask 0002"),
    ];
    by_hand(
        "previews-of-a-slot-taken-over",
        SAME_ROUND,
        two_services(),
        &steps,
    )
}

/// Previews are of the slot named: not of slot 0, nor of the one beside it.
fn slot_named() -> Case {
    let steps = [
        (open(0, 1, 16), "0 opened"),
        (open(1, 1, 17), "1 opened"),
        (open(2, 2, 16), "2 opened"),
        (round(2, 2), "2 round 1 got 0002 ask 0001"),
        (preview(0, 0), "0 preview round 1 got 0000 ask 0001"),
        (preview(1, 0), "1 preview round 1 got 0000 ask 0002"),
        (preview(2, 0), "2 preview round 2 got 0000 deny"),
        (preview(3, 0), "3 preview refused 8"),
        (round(1, 0), "1 round 1 got 0000 ask 0002"),
        (preview(1, 0), "1 preview round 2 got 0000 deny"),
        (preview(0, 0), "0 preview round 1 got 0000 ask 0001"),
    ];
    by_hand(
        "preview-of-the-slot-named",
        SAME_ROUND,
        two_services(),
        &steps,
    )
}

/// The owner in a preview's record is not looked at.
fn unread_owner() -> Case {
    let steps = [
        (open(8, 1, 16), "8 opened"),
        (preview_by(1, 8, 0), "8 preview round 1 got 0000 ask 0004"),
        (preview_by(255, 8, 4), "8 preview round 1 got 0004 grant"),
        (preview_by(1, 9, 16), "9 preview refused 8"),
        (round(9, 0), "9 refused 8"),
        (preview_by(77, 8, 5), "8 preview round 1 got 0005 deny"),
        (round(8, 0), "8 round 1 got 0000 ask 0004"),
    ];
    by_hand("owner-of-a-preview-unread", SAME_ROUND, policy_a(), &steps)
}

/// Under a refused policy every preview has its refusal, whatever the slot.
fn policy_refused() -> Case {
    let steps = [
        (preview(0, 0), "0 preview refused 6 at 1"),
        (open(0, 1, 16), "0 opened"),
        (preview(0, 0), "0 preview refused 6 at 1"),
        (round(0, 0), "0 refused 6 at 1"),
        (preview(63, 4), "63 preview refused 6 at 1"),
        (preview(64, 4), "64 preview refused 6 at 1"),
        (preview(255, 4), "255 preview refused 6 at 1"),
        (open(0, 1, 16), "0 refused 15"),
    ];
    let policy = encode(&[access(17, 0, 1 << 17)]);
    by_hand(
        "previews-under-a-refused-policy",
        SAME_ROUND,
        policy,
        &steps,
    )
}

/// A preview at an empty slot opens nothing.
fn of_empty() -> Case {
    let steps = [
        (preview(7, 0), "7 preview refused 8"),
        (round(7, 16), "7 refused 8"),
        (preview(7, 16), "7 preview refused 8"),
        (open(7, 1, 16), "7 opened"),
        (preview(7, 16), "7 preview round 1 got 0010 ask 0004"),
        (preview(6, 0), "6 preview refused 8"),
        (preview(8, 0), "8 preview refused 8"),
        (round(7, 0), "7 round 1 got 0000 ask 0004"),
    ];
    by_hand("previews-of-an-empty-slot", NONE_GIVEN, policy_a(), &steps)
}

/// Past the end, whatever stands in the slots within.
fn past_end() -> Case {
    let steps = [
        (preview(64, 0), "64 preview refused 14"),
        (preview(255, 0), "255 preview refused 14"),
        (open(0, 1, 16), "0 opened"),
        (open(63, 1, 16), "63 opened"),
        (preview(64, 4), "64 preview refused 14"),
        (preview(127, 4), "127 preview refused 14"),
        (preview(192, 4), "192 preview refused 14"),
        (preview(63, 4), "63 preview round 1 got 0004 grant"),
        (preview(0, 4), "0 preview round 1 got 0004 grant"),
        (round(63, 0), "63 round 1 got 0000 ask 0004"),
    ];
    by_hand("previews-past-the-end", NONE_GIVEN, policy_a(), &steps)
}

pub fn cases() -> Vec<Case> {
    vec![
        of_fresh(),
        of_waiting(),
        then_round(),
        again(),
        another_set(),
        elsewhere(),
        ends_nothing(),
        of_closed(),
        taken_over(),
        slot_named(),
        unread_owner(),
        policy_refused(),
        of_empty(),
        past_end(),
    ]
}
