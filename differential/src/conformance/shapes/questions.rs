//! Questions of every size, and ties; sets that unlock laid so that a search may take the wrong one.

use super::play::{any_session, shown, Client};
use super::Shape;
use crate::candidates::members;
use crate::clients::Manner;
use crate::conformance::case::{scope, Run, Sentence};
use crate::conformance::facts::{Facts, Round};
use crate::plain::model::unlocks;
use crate::plain::policy::Record;
use crate::plain::weights::by_preference;
use crate::policies::{encode, talkative};
use crate::questions::shapes::{Shape as Lie, SHAPES};
use crate::questions::{asking, weighed};
use crate::random::Random;

const FEWEST: Sentence = scope(
    "The preferred set has the fewest credentials, counted as one bits; among those, the smallest as a number.",
);
const SMALLEST: Sentence = scope("among those, the smallest as a number");
const ASKED: Sentence = scope(
    "among subsets of D that with P unlock the request, the preferred one is asked and becomes Q",
);

/// A client that shows these at first, and then all that is asked, nothing of it, or what it holds.
fn opening_with(random: &mut Random, records: &[Record], request: u16, first: u16) -> Run {
    let some = random.word();
    let holding = random.pick(&[0xffff, first, some]);
    let manner = Manner::Cooperative { holding, first };
    let most = random.range(1, 4);
    let client = Client { manner, after: 0 };
    let shown = shown(random, &encode(records), request, client, most);
    Run::of(records, request, &shown)
}

/// A session with a question of this size, or so.
fn sized(random: &mut Random, size: usize) -> Run {
    let most = random.pick(&[size, 16.min(size + 2), 16.min(size + 5)]);
    let lie = random.pick(&SHAPES);
    let (mut records, request, first) = asking(random, lie, most, size);
    if random.one_in(4) {
        records.extend(weighed(random));
    }
    opening_with(random, &records, request, first)
}

/// A question among more than eight, by this shape.
fn laid(random: &mut Random, lie: Lie, weights: bool) -> Run {
    let count = random.range(9, 16);
    let size = random.range(1, count);
    let (mut records, request, first) = asking(random, lie, count, size);
    if weights {
        records.extend(weighed(random));
    }
    opening_with(random, &records, request, first)
}

fn any(random: &mut Random) -> Run {
    let records = talkative(random);
    any_session(random, &records)
}

/// The sets that unlock beside what is shown, by size and number.
fn unlocking(facts: &Facts, round: &Round) -> Vec<u16> {
    let Some(rules) = &facts.rules else {
        return Vec::new();
    };
    let mut sets = by_preference(&[1; 16], round.may_ask);
    let request = round.after.request;
    sets.retain(|set| unlocks(&rules.levels, request, round.after.shown | set));
    sets
}

fn unweighed(facts: &Facts) -> bool {
    facts
        .rules
        .as_ref()
        .is_some_and(|rules| rules.weights.is_empty())
}

/// Of what may be asked so few that all sets can be tried.
fn few(round: &Round) -> bool {
    round.asked() != 0 && round.may_ask.count_ones() <= 9
}

/// Whether several sets of the fewest credentials unlock.
fn tied(facts: &Facts, round: &Round) -> bool {
    let fewest = round.asked().count_ones();
    let sets = unlocking(facts, round);
    sets.iter().filter(|set| set.count_ones() == fewest).count() > 1
}

/// Whether a set unlocks that has more credentials, none of which can be left out.
fn irreducible(facts: &Facts, round: &Round) -> bool {
    let sets = unlocking(facts, round);
    let kept = |set: u16| {
        members(set)
            .into_iter()
            .all(|one| !sets.contains(&(set & !one)))
    };
    let more = |set: &u16| set.count_ones() > round.asked().count_ones();
    sets.iter().filter(|set| more(set)).any(|set| kept(*set))
}

/// The laid shapes, with weights and without.
fn laid_shapes() -> Vec<Shape> {
    let mut shapes = Vec::new();
    for (lie, name) in
        SHAPES
            .into_iter()
            .zip(["lone", "ties", "larger", "across", "cheapest", "last-block"])
    {
        for weights in [false, true] {
            let end = if weights { "-weighed" } else { "" };
            let draw = move |random: &mut Random| laid(random, lie, weights);
            let is = move |facts: &Facts| {
                let wide = |round: &Round| round.may_ask.count_ones() > 8;
                unweighed(facts) != weights
                    && facts
                        .rounds
                        .iter()
                        .any(|round| round.asked() != 0 && wide(round))
            };
            shapes.push(Shape::new(format!("wide-{name}{end}"), ASKED, 20, draw, is));
        }
    }
    shapes
}

pub fn shapes() -> Vec<Shape> {
    let of_size = |size: usize| {
        Shape::new(
            format!("question-of-{size:02}"),
            ASKED,
            20,
            move |random| sized(random, size),
            move |facts| {
                let sizes = facts.rounds.iter().map(|round| round.asked().count_ones());
                sizes.max() == Some(size as u32)
            },
        )
    };
    let mut shapes: Vec<Shape> = (1..=16).map(of_size).collect();
    shapes.push(Shape::new("tie", SMALLEST, 30, any, |facts| {
        let tie = |round: &Round| few(round) && tied(facts, round);
        unweighed(facts) && facts.rounds.iter().any(tie)
    }));
    shapes.push(Shape::new("fewest", FEWEST, 30, any, |facts| {
        let larger = |round: &Round| few(round) && irreducible(facts, round);
        unweighed(facts) && facts.rounds.iter().any(larger)
    }));
    shapes.extend(laid_shapes());
    shapes
}
