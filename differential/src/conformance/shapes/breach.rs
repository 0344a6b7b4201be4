//! The breach mark: no grant, and no question, where it comes up.

use super::play::any_session;
use super::Shape;
use crate::conformance::case::{scope, Run, Sentence};
use crate::conformance::facts::{Facts, Round};
use crate::plain::model::model;
use crate::plain::policy::{Policy, Record};
use crate::plain::weights::{by_preference, weights};
use crate::policies::{access, draw, talkative};
use crate::random::Random;
use crate::requests::named;

const UNLOCKS: Sentence = scope("C unlocks service r if r is in the model and 63 is not.");

/// Rules for the breach mark beside others: by credentials, by the lack of one, or by a role.
fn breaching(random: &mut Random) -> Run {
    let mut records = talkative(random);
    let spoken = named(&records);
    let credentials: Vec<u8> = (0..16).filter(|k| spoken >> k & 1 == 1).collect();
    let roles: Vec<u8> = records
        .iter()
        .filter(|r| r.kind == 1)
        .map(|r| r.head)
        .collect();
    for _ in 0..random.range(1, 3) {
        let size = random.pick(&[1, 2, 2, 2, 3]);
        let body = draw(random, &credentials, size);
        let not = draw(random, &credentials, 1) & !body;
        let role = match roles.is_empty() {
            true => 0,
            false => 1u64 << random.pick(&roles) & !(1 << 63),
        };
        let rule = match random.below(6) {
            0 => access(63, body, not),
            1 => access(63, body | role, 0),
            _ => access(63, body, 0),
        };
        let place = random.below(records.len() + 1);
        records.insert(place, rule);
    }
    any_session(random, &records)
}

fn holds(rules: &Policy, request: u16, set: u16) -> bool {
    model(&rules.levels, set) >> request & 1 == 1
}

/// Whether the service is in the model of what is shown, and the mark too.
fn spoilt(facts: &Facts, round: &Round) -> bool {
    let rules = facts.rules.as_ref();
    round.breach && rules.is_some_and(|r| holds(r, round.after.request, round.after.shown))
}

/// Whether another set would be asked, or one at all, if the mark were not read.
fn turned(facts: &Facts, round: &Round) -> bool {
    let Some(rules) = &facts.rules else {
        return false;
    };
    let (request, shown) = (round.after.request, round.after.shown);
    if round.may_ask.count_ones() > 9 || holds(rules, request, shown) {
        return false;
    }
    let sets = by_preference(&weights(&rules.weights), round.may_ask);
    let unread = sets
        .into_iter()
        .find(|set| holds(rules, request, shown | set));
    unread.unwrap_or(0) != round.asked()
}

/// Rules for the mark and nothing else that bears on the service.
fn alone(random: &mut Random) -> Run {
    let service = random.range(16, 62) as u8;
    let body = 1u64 << random.below(16);
    let other = 1u64 << random.below(16);
    let mut records: Vec<Record> = vec![access(service, body, 0), access(63, other, 0)];
    if random.one_in(2) {
        records.push(access(63, 0, body));
    }
    random.shuffle(&mut records);
    let shown = [(body | other) as u16, random.word(), body as u16];
    let first = random.pick(&shown);
    Run::of(&records, service.into(), &[first, 0])
}

pub fn shapes() -> Vec<Shape> {
    let any = |facts: &Facts, is: fn(&Facts, &Round) -> bool| {
        facts.rounds.iter().any(|round| is(facts, round))
    };
    vec![
        Shape::new("breach-shown", UNLOCKS, 30, breaching, move |facts| {
            any(facts, spoilt)
        }),
        Shape::new("breach-asked", UNLOCKS, 30, breaching, move |facts| {
            any(facts, turned)
        }),
        Shape::new("breach-alone", UNLOCKS, 20, alone, move |facts| {
            any(facts, spoilt)
        }),
    ]
}
