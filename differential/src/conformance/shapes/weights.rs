//! Weights (document 02, R-2): questions that they decide.

use super::play::{any_session, anyone, session};
use super::Shape;
use crate::conformance::case::{request, Run, Sentence};
use crate::conformance::facts::{Facts, Round};
use crate::plain::disclosure::{askable, disclosable};
use crate::plain::model::unlocks;
use crate::plain::policy::{Policy, Record};
use crate::plain::weights::{by_preference, total_weight, weights};
use crate::policies::{access, disclosure, some, talkative, weight};
use crate::random::Random;
use crate::requests::named;
use crate::weighing;
use crate::weight_counts::classes;

const LEAST: Sentence = request(
    "The preferred set has the least total weight, then the fewest credentials, then the smallest number.",
);
const GIVES: Sentence = request(
    "A record of kind 3 gives a credential (head) a weight 0 to 15 in its positive set's number; unnamed ones weigh 1.",
);

/// The classes of `weight_counts`, each with a name and its sentence.
const CLASSES: [(&str, Sentence); 10] = [
    ("other", LEAST),
    ("larger", LEAST),
    ("size-settles", LEAST),
    ("number-settles", LEAST),
    ("smaller-number-heavier", LEAST),
    ("of-none", GIVES),
    ("total-of-none", GIVES),
    ("of-fifteen", GIVES),
    ("unnamed", GIVES),
    ("past-the-first", LEAST),
];

/// A policy in which credentials that the rules name, or all, have weights.
fn weighed(random: &mut Random) -> Vec<Record> {
    let mut records = talkative(random);
    records.retain(|record| record.kind != 3);
    let weights = weighing::weights(random);
    let spoken = named(&records);
    let heads = match random.below(4) {
        0 => 0xffff,
        1 => random.credentials(spoken),
        _ => spoken,
    };
    for k in (0..16u8).filter(|k| heads >> k & 1 == 1) {
        let place = random.below(records.len() + 1);
        records.insert(place, weight(k, weights[usize::from(k)].into()));
    }
    records
}

fn any(random: &mut Random) -> Run {
    let records = weighed(random);
    any_session(random, &records)
}

/// Whether a question of a session is so, by the rules of its policy.
fn asks(facts: &Facts, is: impl Fn(&Policy, &Round) -> bool) -> bool {
    let Some(rules) = facts
        .rules
        .as_ref()
        .filter(|rules| !rules.weights.is_empty())
    else {
        return false;
    };
    let mut questions = facts.rounds.iter().filter(|round| round.asked() != 0);
    questions.any(|round| is(rules, round))
}

fn in_class(place: usize, facts: &Facts) -> bool {
    asks(facts, |rules, round| {
        let sets = (round.may_ask, round.asked());
        classes(&facts.policy, rules, &round.after, sets)[place]
    })
}

/// More in all than one credential can weigh.
fn heavy(facts: &Facts) -> bool {
    asks(facts, |rules, round| {
        total_weight(&weights(&rules.weights), round.asked()) > 15
    })
}

/// Denied, and a credential has a weight that no disclosure rule gives.
fn undisclosed(facts: &Facts) -> bool {
    let Some(rules) = &facts.rules else {
        return false;
    };
    let named = rules
        .weights
        .iter()
        .fold(0, |set, record| set | 1u16 << record.head);
    let hidden = |round: &Round| {
        let disclosed = disclosable(&rules.disclosure, round.after.shown);
        named & !disclosed & !askable(&rules.disclosure) != 0
    };
    facts.denied() && facts.rounds.iter().any(hidden)
}

/// A policy that names all and discloses few.
fn hiding(random: &mut Random) -> Run {
    let mut records = weighed(random);
    records.retain(|record| record.kind != 2 || random.one_in(2));
    any_session(random, &records)
}

/// Two ways in that weigh the same, the larger of which has the smaller number.
fn light_and_large(random: &mut Random) -> Run {
    let count = random.range(4, 8);
    let mut credentials = some(random, count, 0, 15);
    credentials.sort_unstable();
    let highest = credentials[count - 1];
    let low = &credentials[..random.range(2, count - 1)];
    let service = random.range(16, 62) as u8;
    let many = low.iter().fold(0, |set, k| set | 1u64 << k);
    let mut records: Vec<Record> = credentials.iter().map(|k| disclosure(*k, 0)).collect();
    records.push(access(service, many, 0));
    records.push(access(service, 1 << highest, 0));
    let each: Vec<u8> = low.iter().map(|_| random.below(4) as u8).collect();
    let weights = low.iter().zip(&each);
    records.extend(weights.map(|(k, w)| weight(*k, u64::from(*w))));
    let total: u8 = each.iter().sum();
    records.push(weight(highest, u64::from(total.min(15))));
    random.shuffle(&mut records);
    any_service(random, &records, service)
}

/// Two ways in of many heavy credentials each.
fn heavy_ways(random: &mut Random) -> Run {
    let count = random.range(10, 16);
    let credentials = some(random, count, 0, 15);
    let service = random.range(16, 62) as u8;
    let mut records: Vec<Record> = Vec::new();
    for k in &credentials {
        records.push(disclosure(*k, 0));
        records.push(weight(*k, random.range(10, 15) as u64));
    }
    let (one, other) = credentials.split_at(random.range(count / 2 - 1, count / 2 + 1));
    let set = |part: &[u8]| part.iter().fold(0, |set, k| set | 1u64 << k);
    records.push(access(service, set(one), 0));
    records.push(access(service, set(other), 0));
    random.shuffle(&mut records);
    any_service(random, &records, service)
}

fn any_service(random: &mut Random, records: &[Record], service: u8) -> Run {
    let client = anyone(random);
    session(random, records, service.into(), client)
}

/// A question of so much in all and more.
fn of_total(facts: &Facts, least: u32) -> bool {
    asks(facts, |rules, round| {
        total_weight(&weights(&rules.weights), round.asked()) >= least
    })
}

/// Whether of equal weight the smallest number would be another than the one with the fewest.
fn size_over_number(facts: &Facts) -> bool {
    asks(facts, |rules, round| {
        let weights = weights(&rules.weights);
        let (request, shown) = (round.after.request, round.after.shown);
        let as_light = |set: &u16| {
            let light = total_weight(&weights, *set) == total_weight(&weights, round.asked());
            light && *set < round.asked() && unlocks(&rules.levels, request, shown | set)
        };
        let few = round.may_ask.count_ones() <= 9;
        few && by_preference(&weights, round.may_ask).iter().any(as_light)
    })
}

/// A question that weights decide, with a credential of 8 to 15 in it.
fn high(facts: &Facts) -> bool {
    in_class(0, facts) && asks(facts, |_, round| round.asked() & 0xff00 != 0)
}

pub fn shapes() -> Vec<Shape> {
    let classed = CLASSES.iter().enumerate().map(|(place, (name, tests))| {
        Shape::new(format!("weight-{name}"), *tests, 20, any, move |facts| {
            in_class(place, facts)
        })
    });
    let mut shapes: Vec<Shape> = classed.collect();
    shapes.push(Shape::new("weight-above-fifteen", LEAST, 20, any, heavy));
    shapes.push(Shape::new("weight-of-high", GIVES, 20, any, high));
    shapes.push(Shape::new(
        "weight-undisclosed",
        GIVES,
        20,
        hiding,
        undisclosed,
    ));
    for least in [64, 80] {
        let name = format!("weight-total-{least}");
        let is = move |facts: &Facts| of_total(facts, least);
        shapes.push(Shape::new(name, LEAST, 20, heavy_ways, is).of_at_most(40));
    }
    let settles = "weight-size-over-number";
    shapes.push(Shape::new(
        settles,
        LEAST,
        20,
        light_and_large,
        size_over_number,
    ));
    shapes
}
