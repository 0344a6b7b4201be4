//! The shapes of drawn lists: a name, the sentence that is tested, the policies, how a list is drawn, and what has to come up.

use super::super::events::Event;
use super::super::sentences::{
    DISPLAYS, FIFTEEN, FOUR, FOURTEEN, NINE, NONE_GIVEN, OWN_ROUND, ROUND_TESTS, SAME_ROUND, SEVEN,
    SIXTEEN, SLOTS, TAKES,
};
use super::draft::Draft;
use super::{fits, previews, refusals, sessions};
use crate::conformance::case::Sentence;
use crate::plain::session::Verdict;

/// Which policies a list is drawn under.
#[derive(Clone, Copy, PartialEq, Eq, Debug)]
pub enum Under {
    Small,
    Long,
    Refused,
}

pub struct Shape {
    pub name: &'static str,
    pub tests: Sentence,
    pub under: Under,
    pub draw: fn(&mut Draft),
    pub fits: fn(&[Event]) -> bool,
}

/// A shape under small policies.
const fn shape(
    name: &'static str,
    tests: Sentence,
    draw: fn(&mut Draft),
    fits: fn(&[Event]) -> bool,
) -> Shape {
    Shape {
        name,
        tests,
        under: Under::Small,
        draw,
        fits,
    }
}

impl Shape {
    const fn under(self, under: Under) -> Shape {
        Shape { under, ..self }
    }
}

/// Refusals of openings.
const OPENINGS: [Shape; 4] = [
    shape("opening-7", SEVEN, refusals::opening_seven, |events| {
        fits::opening_refused(events, 7)
    }),
    shape(
        "opening-14",
        FOURTEEN,
        refusals::opening_fourteen,
        |events| fits::opening_refused(events, 14),
    ),
    shape("opening-15", FIFTEEN, refusals::opening_fifteen, |events| {
        fits::opening_refused(events, 15)
    }),
    shape("opening-16", SIXTEEN, refusals::opening_sixteen, |events| {
        fits::opening_refused(events, 16)
    }),
];

/// Refusals of rounds.
const ROUNDS: [Shape; 4] = [
    shape(
        "round-policy",
        ROUND_TESTS,
        refusals::rounds_under_refused,
        fits::rounds_refused_by_policy,
    )
    .under(Under::Refused),
    shape(
        "round-14",
        ROUND_TESTS,
        refusals::round_fourteen,
        |events| fits::round_refused(events, 14),
    ),
    shape("round-8", ROUND_TESTS, refusals::round_eight, |events| {
        fits::round_refused(events, 8)
    }),
    shape("round-9", NINE, refusals::round_nine, |events| {
        fits::round_refused(events, 9)
    }),
];

/// Refusals of previews.
const PREVIEWS: [Shape; 4] = [
    shape(
        "preview-policy",
        SAME_ROUND,
        refusals::previews_under_refused,
        fits::previews_refused_by_policy,
    )
    .under(Under::Refused),
    shape("preview-9", SAME_ROUND, refusals::preview_nine, |events| {
        fits::preview_refused(events, 9)
    }),
    shape(
        "preview-14",
        NONE_GIVEN,
        refusals::preview_fourteen,
        |events| fits::preview_refused(events, 14),
    ),
    shape("preview-8", NONE_GIVEN, refusals::preview_eight, |events| {
        fits::preview_refused(events, 8)
    }),
];

/// Previews and the rounds after them; previews of each ending.
const PREVIEWED: [Shape; 5] = [
    shape(
        "preview-then-round",
        SAME_ROUND,
        previews::round_at_once,
        fits::rounds_at_once,
    ),
    shape(
        "preview-round-later",
        SAME_ROUND,
        previews::round_later,
        fits::rounds_later,
    ),
    shape(
        "preview-grant",
        DISPLAYS,
        previews::of_grants,
        fits::previews_grant,
    ),
    shape(
        "preview-deny",
        DISPLAYS,
        previews::of_denials,
        fits::previews_deny,
    ),
    shape(
        "preview-ask",
        DISPLAYS,
        previews::of_questions,
        fits::previews_ask,
    ),
];

/// Slots that are taken over.
const TAKEN: [Shape; 4] = [
    shape("granted-same", TAKES, sessions::granted_same, |events| {
        fits::taken_over(events, Verdict::Grant, true)
    }),
    shape("granted-other", TAKES, sessions::granted_other, |events| {
        fits::taken_over(events, Verdict::Grant, false)
    }),
    shape("denied-same", TAKES, sessions::denied_same, |events| {
        fits::taken_over(events, Verdict::Deny, true)
    }),
    shape("denied-other", TAKES, sessions::denied_other, |events| {
        fits::taken_over(events, Verdict::Deny, false)
    }),
];

/// Owners, slots and sessions.
const SESSIONS: [Shape; 4] = [
    shape(
        "fifth-once-closed",
        FOUR,
        sessions::fifth_once_closed,
        fits::fifth_once_closed,
    ),
    shape(
        "four-owners",
        FOUR,
        sessions::four_owners,
        fits::four_owners,
    ),
    shape("all-slots", SLOTS, sessions::every_slot, fits::every_slot),
    shape("in-turn", OWN_ROUND, sessions::in_turn, fits::in_turn).under(Under::Long),
];

/// All of them.
pub fn shapes() -> Vec<Shape> {
    let all = [OPENINGS, ROUNDS, PREVIEWS, TAKEN, SESSIONS];
    let mut shapes: Vec<Shape> = all.into_iter().flatten().collect();
    shapes.extend(PREVIEWED);
    shapes
}
