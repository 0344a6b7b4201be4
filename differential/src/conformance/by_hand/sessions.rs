//! Sessions of several rounds.

use super::draft::written;
use super::{EITHER, POLICY_A, POLICY_B};
use crate::conformance::case::{scope, Case, Sentence};

const SHOWN: Sentence = scope("P becomes P with p");
const DECLINED: Sentence = scope("N becomes N with those of Q not in p (Q is empty when fresh)");
const SLIP: Sentence = scope(
    "Asking again for what was declined, or forgetting a decline when another credential is shown.",
);
const BOTH: Sentence =
    scope("A credential declined and later shown counts as shown and stays in N.");
const LONGEST: Sentence = scope("The longest sessions have 17 rounds.");

/// What the longest sessions ask for: each credential that lets in by itself.
const ASKED: [&str; 16] = [
    "round 1 got 0000 ask 0001",
    "round 2 got 0000 ask 0002",
    "round 3 got 0000 ask 0004",
    "round 4 got 0000 ask 0008",
    "round 5 got 0000 ask 0010",
    "round 6 got 0000 ask 0020",
    "round 7 got 0000 ask 0040",
    "round 8 got 0000 ask 0080",
    "round 9 got 0000 ask 0100",
    "round 10 got 0000 ask 0200",
    "round 11 got 0000 ask 0400",
    "round 12 got 0000 ask 0800",
    "round 13 got 0000 ask 1000",
    "round 14 got 0000 ask 2000",
    "round 15 got 0000 ask 4000",
    "round 16 got 0000 ask 8000",
];

pub fn cases() -> Vec<Case> {
    [
        declined(),
        declined_of_examples(),
        not_forgotten(),
        parts(),
        later_shown(),
        opened_through_declined(),
        opened_step_by_step(),
        kept(),
        unasked(),
        got(),
        longest(),
    ]
    .concat()
}

fn declined() -> Vec<Case> {
    vec![written("session-declined", DECLINED, EITHER)
        .plays(16, &[0x0000, 0x0000, 0x0000])
        .prints(&[
            "round 1 got 0000 ask 0001",
            "round 2 got 0000 ask 0002",
            "round 3 got 0000 deny",
        ])]
}

/// Policies A and B with clients who do not show what is asked for.
fn declined_of_examples() -> Vec<Case> {
    vec![
        written("session-a-all-declined", DECLINED, POLICY_A)
            .plays(16, &[0x0000, 0x0000, 0x0000])
            .prints(&[
                "round 1 got 0000 ask 0004",
                "round 2 got 0000 ask 0003",
                "round 3 got 0000 deny",
            ]),
        written("session-b-declined", DECLINED, POLICY_B)
            .plays(16, &[0x0000, 0x0000, 0x000c])
            .prints(&[
                "round 1 got 0000 ask 0003",
                "round 2 got 0000 ask 000c",
                "round 3 got 000c grant",
            ]),
    ]
}

/// What was declined is not asked for again, by itself or with others, whatever else is shown.
fn not_forgotten() -> Vec<Case> {
    let three = "16 if 0, 1; 16 if 0, 2; 16 if 3; disclosure 0 to 3 always";
    vec![
        written("session-decline-kept", SLIP, EITHER)
            .plays(16, &[0x0000, 0x0020, 0x0040])
            .prints(&[
                "round 1 got 0000 ask 0001",
                "round 2 got 0020 ask 0002",
                "round 3 got 0040 deny",
            ]),
        // 0 is declined, and so 0 and 2 are not asked for
        written("session-decline-in-other-set", SLIP, three)
            .plays(16, &[0x0000, 0x0000, 0x0002])
            .prints(&[
                "round 1 got 0000 ask 0008",
                "round 2 got 0000 ask 0003",
                "round 3 got 0002 deny",
            ]),
    ]
}

/// A part of the question is shown, the rest declined.
fn parts() -> Vec<Case> {
    let ways = "16 if 0, 1; 16 if 0, 2; disclosure 0 to 2 always";
    vec![
        written("session-part-shown", DECLINED, ways)
            .plays(16, &[0x0000, 0x0001, 0x0004])
            .prints(&[
                "round 1 got 0000 ask 0003",
                "round 2 got 0001 ask 0004",
                "round 3 got 0004 grant",
            ]),
        written("session-other-part-shown", DECLINED, ways)
            .plays(16, &[0x0000, 0x0002])
            .prints(&["round 1 got 0000 ask 0003", "round 2 got 0002 deny"]),
    ]
}

fn later_shown() -> Vec<Case> {
    let single_or_pair = "16 if 0; 16 if 1, 2; disclosure 0 to 2 always";
    let without_4 = "16 if 0, not 4; 16 if 0, 2; 16 if 1; disclosure 0 to 2 always";
    vec![
        written("session-declined-later-enough", BOTH, single_or_pair)
            .plays(16, &[0x0000, 0x0000, 0x0001])
            .prints(&[
                "round 1 got 0000 ask 0001",
                "round 2 got 0000 ask 0006",
                "round 3 got 0001 grant",
            ]),
        // 2, declined at first, is a breach with 0
        written("session-declined-later-breach", BOTH, POLICY_A)
            .plays(16, &[0x0000, 0x0000, 0x0007])
            .prints(&[
                "round 1 got 0000 ask 0004",
                "round 2 got 0000 ask 0003",
                "round 3 got 0007 deny",
            ]),
        // since 4 was shown 0 is not enough, and only 2 is missing beside it
        written("session-declined-later-asked-with", BOTH, without_4)
            .plays(16, &[0x0000, 0x0010, 0x0001, 0x0004])
            .prints(&[
                "round 1 got 0000 ask 0001",
                "round 2 got 0010 ask 0002",
                "round 3 got 0001 ask 0004",
                "round 4 got 0004 grant",
            ]),
    ]
}

/// What is declined opens others all the same: it is taken out of the closed set.
fn opened_through_declined() -> Vec<Case> {
    let after = scope("D is the disclosable set of P without P and without N");
    let slip = scope(
        "Taking declined credentials out before the disclosure rules are closed over, not after.",
    );
    let two = "16 if 0; 16 if 1; disclosure 1 if 0; disclosure 0 always";
    vec![
        written("session-opened-through-declined", slip, two)
            .plays(16, &[0x0000, 0x0000, 0x0002])
            .prints(&[
                "round 1 got 0000 ask 0001",
                "round 2 got 0000 ask 0002",
                "round 3 got 0002 grant",
            ]),
        // 1 is shown and 0, which opens it, is declined
        written("session-a-opener-declined", after, POLICY_A)
            .plays(16, &[0x0000, 0x0000, 0x0002])
            .prints(&[
                "round 1 got 0000 ask 0004",
                "round 2 got 0000 ask 0003",
                "round 3 got 0002 deny",
            ]),
    ]
}

/// What nobody asks for opens others once it is shown.
fn opened_step_by_step() -> Vec<Case> {
    let after = scope("D is the disclosable set of P without P and without N");
    let one = "16 if 0; 16 if 2; disclosure 0 always; disclosure 2 if 1";
    let two = "16 if 0; 16 if 1; disclosure 0 if 10; disclosure 1 if 10, 11";
    vec![
        written("session-opened-in-round-2", after, one)
            .plays(16, &[0x0000, 0x0002, 0x0004])
            .prints(&[
                "round 1 got 0000 ask 0001",
                "round 2 got 0002 ask 0004",
                "round 3 got 0004 grant",
            ]),
        // 1 needs both, of which 10 was shown a round before
        written("session-opened-step-by-step", after, two)
            .plays(16, &[0x0400, 0x0800, 0x0000])
            .prints(&[
                "round 1 got 0400 ask 0001",
                "round 2 got 0800 ask 0002",
                "round 3 got 0000 deny",
            ]),
    ]
}

/// What was shown need not be shown again.
fn kept() -> Vec<Case> {
    let two = "16 if 0, 1; disclosure 0, 1 always";
    let three = "16 if 0, 5, 6; 16 if 1; 16 if 2; disclosure 1, 2 always";
    vec![
        written("session-shown-kept", SHOWN, two)
            .plays(16, &[0x0001, 0x0002])
            .prints(&["round 1 got 0001 ask 0002", "round 2 got 0002 grant"]),
        // 5, 6 and 0 in three rounds, while 1 and 2 are declined
        written("session-shown-in-three-rounds", SHOWN, three)
            .plays(16, &[0x0020, 0x0040, 0x0001])
            .prints(&[
                "round 1 got 0020 ask 0002",
                "round 2 got 0040 ask 0004",
                "round 3 got 0001 grant",
            ]),
    ]
}

/// What was asked for, or what is enough without having been asked for.
fn unasked() -> Vec<Case> {
    let by_7 = "16 if 0; 16 if 7; disclosure 0 always";
    vec![
        written("session-a-asked-shown", SHOWN, POLICY_A)
            .plays(16, &[0x0000, 0x0004])
            .prints(&["round 1 got 0000 ask 0004", "round 2 got 0004 grant"]),
        // 7 is neither asked for nor askable
        written("session-unasked-enough", SHOWN, by_7)
            .plays(16, &[0x0000, 0x0080])
            .prints(&["round 1 got 0000 ask 0001", "round 2 got 0080 grant"]),
    ]
}

/// Printed is what the round was shown, neither all that was shown nor only what is new.
fn got() -> Vec<Case> {
    let digits = scope("the shown set p as four lower-case hexadecimal digits");
    let three = "16 if 0 to 2; disclosure 0 to 2 always";
    vec![
        written("session-got-without-earlier", digits, three)
            .plays(16, &[0x0001, 0x0006])
            .prints(&["round 1 got 0001 ask 0006", "round 2 got 0006 grant"]),
        written("session-got-with-earlier", digits, three)
            .plays(16, &[0x0001, 0x0007])
            .prints(&["round 1 got 0001 ask 0006", "round 2 got 0007 grant"]),
    ]
}

/// Sixteen questions, and then an end of either kind; the last client goes on.
fn longest() -> Vec<Case> {
    let ways: Vec<String> = (0..16).map(|k| format!("16 if {k}")).collect();
    let words = format!("{}; disclosure 0 to 15 always", ways.join("; "));
    let last_shown = [&[0x0000; 16][..], &[0x8000]].concat();
    let denied = [&ASKED[..], &["round 17 got 0000 deny"]].concat();
    let granted = [&ASKED[..], &["round 17 got 8000 grant"]].concat();
    let refused = [&denied[..], &["refused 9", "refused 9"]].concat();
    vec![
        written("session-longest-deny", LONGEST, &words)
            .plays(16, &[0x0000; 17])
            .prints(&denied),
        written("session-longest-grant", LONGEST, &words)
            .plays(16, &last_shown)
            .prints(&granted),
        written("session-longest-and-on", LONGEST, &words)
            .plays(16, &[0x0000; 19])
            .prints(&refused),
    ]
}
