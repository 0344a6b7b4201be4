//! Bodies with several atoms, of which one decides: by the levels, and in the model.

use super::draft::{first_round, written};
use crate::conformance::case::{request, scope, Case, Sentence};

const SIX: Sentence = request(
    "no choice of a whole number as each atom's level gives each access head at least its positive atoms' level and more than its negated atoms' level",
);
const STRUCK: Sentence = scope(
    "For a candidate set M, strike each rule that negates an atom of M, then drop the negated parts of the others.",
);

pub fn cases() -> Vec<Case> {
    [
        negated_loops(),
        positive_loops(),
        two_sided(),
        negated(),
        positive(),
        many(),
    ]
    .concat()
}

/// A loop through one "not" of several, or beside other atoms.
fn negated_loops() -> Vec<Case> {
    let six = ["refused 6 at 2"];
    vec![
        first_round(
            "crowded-loop-higher-not",
            SIX,
            "16 if not 17, not 18; 18 if 16",
        )
        .prints(&six),
        first_round(
            "crowded-loop-lower-not",
            SIX,
            "16 if not 17, not 18; 17 if 16",
        )
        .prints(&six),
        first_round(
            "crowded-loop-middle-not",
            SIX,
            "16 if not 17 to 21; 19 if 16",
        )
        .prints(&six),
        first_round(
            "crowded-loop-not-beside",
            SIX,
            "16 if not 0, not 17; 17 if 16",
        )
        .prints(&six),
        first_round(
            "crowded-loop-not-of-46",
            SIX,
            "16 if not 17 to 62; 40 if 16",
        )
        .prints(&six),
    ]
}

/// The same through one of several that must hold.
fn positive_loops() -> Vec<Case> {
    let six = ["refused 6 at 2"];
    vec![
        first_round(
            "crowded-loop-beside-not",
            SIX,
            "16 if 17, not 0; 17 if not 16",
        )
        .prints(&six),
        first_round("crowded-loop-lower", SIX, "16 if 17, 18; 17 if not 16").prints(&six),
        first_round("crowded-loop-higher", SIX, "16 if 17, 18; 18 if not 16").prints(&six),
        first_round("crowded-loop-middle", SIX, "16 if 17 to 19; 18 if not 16").prints(&six),
        first_round("crowded-loop-unheard", SIX, "16 if 17, 40; 17 if not 16").prints(&six),
    ]
}

/// A rule that never applies has levels to keep all the same.
fn two_sided() -> Vec<Case> {
    let loops = "16 if 17, 0, not 0; 17 if not 16";
    vec![
        first_round("crowded-two-sided-own", SIX, "16 if 0, not 0, not 16")
            .prints(&["refused 6 at 1"]),
        first_round("crowded-two-sided-loop", SIX, loops).prints(&["refused 6 at 2"]),
    ]
}

/// One of several that must not hold does.
fn negated() -> Vec<Case> {
    let deny = ["round 1 got 0000 deny"];
    let beside = "16 if 17, not 0; 17 if not 18; 18 if not 19; 19 always";
    vec![
        first_round(
            "crowded-higher-not",
            STRUCK,
            "16 if not 17, not 18; 18 if not 19",
        )
        .prints(&deny),
        first_round(
            "crowded-lower-not",
            STRUCK,
            "16 if not 17, not 18; 17 if not 19",
        )
        .prints(&deny),
        first_round("crowded-beside-not", STRUCK, beside).prints(&["round 1 got 0000 grant"]),
        written("crowded-first-and-last-not", STRUCK, "16 if not 0, not 62")
            .plays(16, &[0x0001])
            .prints(&["round 1 got 0001 deny"]),
        written("crowded-sixth-not", STRUCK, "16 if not 0 to 5")
            .plays(16, &[0x0020])
            .prints(&["round 1 got 0020 deny"]),
        written("crowded-sixteenth-not", STRUCK, "16 if not 0 to 15")
            .plays(16, &[0x8000])
            .prints(&["round 1 got 8000 deny"]),
    ]
}

/// One of several that must hold is levels above the others.
fn positive() -> Vec<Case> {
    vec![
        first_round(
            "crowded-lower",
            STRUCK,
            "16 if 17, 18; 17 if not 19; 18 always",
        )
        .prints(&["round 1 got 0000 grant"]),
        first_round(
            "crowded-higher",
            STRUCK,
            "16 if 17, 18; 18 if not 19; 17 always",
        )
        .prints(&["round 1 got 0000 grant"]),
    ]
}

/// Bodies of 46 atoms.
fn many() -> Vec<Case> {
    let deny = ["round 1 got 0000 deny"];
    vec![
        first_round("crowded-not-of-46", STRUCK, "16 if not 17 to 62; 62 always").prints(&deny),
        first_round(
            "crowded-body-of-46",
            STRUCK,
            "16 if 17 to 62; 17 to 61 always",
        )
        .prints(&deny),
        first_round(
            "crowded-body-of-46-held",
            STRUCK,
            "16 if 17 to 62; 17 to 62 always",
        )
        .prints(&["round 1 got 0000 grant"]),
    ]
}
