//! Declines: what is asked and not shown, shown later, or shown unasked.

use super::long::{many_ways, SERVICE};
use super::play::{session, Client};
use super::Shape;
use crate::clients::Manner;
use crate::conformance::case::{scope, Run, Sentence};
use crate::conformance::facts::{Facts, Round};
use crate::plain::session::ending;
use crate::policies::talkative;
use crate::random::Random;
use crate::requests;

const JOINS: Sentence = scope("N becomes N with those of Q not in p (Q is empty when fresh)");
const WITHOUT: Sentence = scope("D is the disclosable set of P without P and without N");
const LATER: Sentence =
    scope("A credential declined and later shown counts as shown and stays in N.");
const SHOWN: Sentence = scope("P becomes P with p");

/// A client that declines much.
fn reluctant(random: &mut Random) -> Run {
    let (records, request) = match random.one_in(3) {
        true => (many_ways(random), SERVICE.into()),
        false => {
            let records = talkative(random);
            let request = requests::request(random, &records);
            (records, request)
        }
    };
    let late = Manner::Late(random.range(3, 6));
    let manner = random.pick(&[
        Manner::PartOfAsked,
        Manner::PartOfAsked,
        Manner::Again,
        Manner::Random,
        Manner::Nothing,
        late,
    ]);
    session(random, &records, request, Client { manner, after: 0 })
}

/// Each round with the one before it.
fn pairs(facts: &Facts) -> impl Iterator<Item = (&Round, &Round)> {
    facts.rounds.iter().zip(facts.rounds.iter().skip(1))
}

/// What would come if nothing had been declined.
fn turned(facts: &Facts, round: &Round) -> bool {
    let (request, shown) = (round.after.request, round.after.shown);
    let rules = facts.rules.as_ref();
    rules.is_some_and(|rules| ending(rules, request, shown, 0) != round.ending)
}

fn in_part(facts: &Facts) -> bool {
    pairs(facts).any(|(before, round)| {
        let asked = before.asked();
        asked & round.p != 0 && asked & !round.p != 0 && turned(facts, round)
    })
}

fn not_again(facts: &Facts) -> bool {
    facts.rounds.iter().any(|round| turned(facts, round))
}

/// Something is shown, and what was declined before counts nevertheless.
fn remembered(facts: &Facts) -> bool {
    pairs(facts)
        .any(|(before, round)| round.p != 0 && before.after.declined != 0 && turned(facts, round))
}

/// Shown after it was declined in an earlier round, and the session goes on or is granted.
fn later(facts: &Facts) -> bool {
    pairs(facts).any(|(before, round)| round.p & before.after.declined != 0)
}

/// Granted by something that had been declined.
fn later_granted(facts: &Facts) -> bool {
    facts.granted() && later(facts)
}

/// Something shown that was not asked for, in a later round than the first.
fn unasked(facts: &Facts) -> bool {
    pairs(facts).any(|(before, round)| round.p & !before.asked() & !before.after.shown != 0)
}

/// Shown again.
fn again(facts: &Facts) -> bool {
    let twice = pairs(facts).any(|(before, round)| round.p & before.after.shown != 0);
    twice && facts.rounds.len() > 2
}

pub fn shapes() -> Vec<Shape> {
    vec![
        Shape::new("declined-in-part", JOINS, 20, reluctant, in_part),
        Shape::new("declined-not-again", WITHOUT, 20, reluctant, not_again),
        Shape::new("declined-remembered", JOINS, 20, reluctant, remembered),
        Shape::new("declined-later-shown", LATER, 20, reluctant, later),
        Shape::new(
            "declined-later-granted",
            LATER,
            20,
            reluctant,
            later_granted,
        ),
        Shape::new("shown-unasked", SHOWN, 20, reluctant, unasked),
        Shape::new("shown-again", SHOWN, 20, reluctant, again),
    ]
}
