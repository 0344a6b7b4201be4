//! Levels: which policies are refused 6, and with which number.

use super::draft::{first_round, written};
use crate::conformance::case::{request, Case, Sentence};

const SIX: Sentence = request(
    "Number 6 now says that no choice of a whole number as each atom's level gives each access head \
     at least its positive atoms' level and more than its negated atoms' level",
);
const COUNT: Sentence = request(
    "is given exactly then, after all records passed the rest, with the count of records as its number",
);

pub fn cases() -> Vec<Case> {
    [
        loops(),
        two_sided(),
        positive(),
        no_loop(),
        long(),
        counted(),
    ]
    .concat()
}

/// "not" in a loop of one rule, of two and of three; wherever else it stands.
fn loops() -> Vec<Case> {
    vec![
        first_round("level-own-not", SIX, "17 if not 17").prints(&["refused 6 at 1"]),
        first_round("level-not-each-other", SIX, "17 if not 18; 18 if not 17")
            .prints(&["refused 6 at 2"]),
        first_round("level-one-not", SIX, "20 if 0, not 21; 21 if 22; 22 if 20")
            .prints(&["refused 6 at 3"]),
        // 16 and 17 have one level by the first two rules
        first_round("level-not-in-loop", SIX, "16 if 17; 17 if 16; 17 if not 16")
            .prints(&["refused 6 at 3"]),
        // the second rule for 17 does not mend the first
        first_round("level-first-of-two", SIX, "17 if not 17; 17 always")
            .prints(&["refused 6 at 2"]),
        // nobody requests 17, and 18 never holds
        first_round("level-out-of-reach", SIX, "16 always; 17 if 18, not 17")
            .prints(&["refused 6 at 2"]),
    ]
}

/// Rules that never apply take part too.
fn two_sided() -> Vec<Case> {
    vec![
        first_round("level-two-sided-own", SIX, "17 if 17, not 17").prints(&["refused 6 at 1"]),
        first_round("level-two-sided-loop", SIX, "17 if 18, not 18; 18 if 17")
            .prints(&["refused 6 at 2"]),
    ]
}

/// Loops without "not" have levels, and nothing in them holds by itself.
fn positive() -> Vec<Case> {
    let entered = "16 if 17; 17 if 16; 17 if 0; disclosure 0 always";
    vec![
        first_round("level-positive-own", SIX, "16 if 16").prints(&["round 1 got 0000 deny"]),
        first_round("level-positive-loop", SIX, "16 if 17; 17 if 16")
            .prints(&["round 1 got 0000 deny"]),
        written("level-positive-loop-entered", SIX, entered)
            .plays(16, &[0x0000, 0x0001])
            .prints(&["round 1 got 0000 ask 0001", "round 2 got 0001 grant"]),
    ]
}

/// No loop, or none through "not".
fn no_loop() -> Vec<Case> {
    let cut = "20 if 0, not 21; 21 if 22; 22 always";
    let two = "16 if 17; 17 if 16; 18 if 19; 19 if 18; 18 if not 16";
    let disclosure = "16 if 0; disclosure 0 if 1; disclosure 1 if 0";
    vec![
        // 22 and so 21 hold, and 20 does not
        written("level-loop-cut", SIX, cut)
            .plays(20, &[0x0001])
            .prints(&["round 1 got 0001 deny"]),
        // "not" from one loop to another
        written("level-two-loops", SIX, two)
            .plays(19, &[0x0000])
            .prints(&["round 1 got 0000 grant"]),
        // disclosure rules have no levels
        written("level-disclosure-loop", SIX, disclosure)
            .plays(16, &[0x0002])
            .prints(&["round 1 got 0002 ask 0001"]),
    ]
}

/// "16 if 17", "17 if 18" and so on to "61 if 62", or with "not".
pub fn to_62(not: &str) -> String {
    let rules: Vec<String> = (16..62)
        .map(|head| format!("{head} if {not}{}", head + 1))
        .collect();
    rules.join("; ")
}

/// All derived atoms in one loop, or each one level above the next.
fn long() -> Vec<Case> {
    let loop_of_not = format!("{}; 62 if not 16", to_62(""));
    let entered = format!("{}; 62 if 16; 40 if 0", to_62(""));
    vec![
        first_round("level-loop-of-47", SIX, &loop_of_not).prints(&["refused 6 at 47"]),
        // from 40 on 16 holds, then 62, and so 41
        written("level-positive-loop-of-47", SIX, &entered)
            .plays(41, &[0x0001])
            .prints(&["round 1 got 0001 grant"]),
        // 62 does not hold, 61 does, 60 does not, and so on: those with odd numbers hold
        written("level-chain-of-nots-17", SIX, &to_62("not "))
            .plays(17, &[0x0000])
            .prints(&["round 1 got 0000 grant"]),
        written("level-chain-of-nots-16", SIX, &to_62("not "))
            .plays(16, &[0x0000])
            .prints(&["round 1 got 0000 deny"]),
    ]
}

/// The number is that of all records, whatever their kind, and wherever the loop stands.
fn counted() -> Vec<Case> {
    let kinds = "17 if not 17; disclosure 0 always; weight 0 is 1";
    let far_apart = format!("17 if not 18; {}18 if 17", "16 always; ".repeat(126));
    vec![
        first_round("level-count-of-kinds", COUNT, kinds).prints(&["refused 6 at 3"]),
        first_round("level-count-of-128", COUNT, &far_apart).prints(&["refused 6 at 128"]),
    ]
}
