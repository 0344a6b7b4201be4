//! Disclosure: through other credentials, step by step, and what is never disclosed.

use super::play::{session, Client};
use super::Shape;
use crate::clients::Manner;
use crate::conformance::case::{scope, Run, Sentence};
use crate::conformance::facts::{Facts, Round};
use crate::plain::disclosure::{askable, disclosable};
use crate::plain::model::unlocks;
use crate::plain::policy::Record;
use crate::policies::{access, disclosure, draw, some};
use crate::random::Random;

const LEAST: Sentence = scope(
    "The disclosable set of shown credentials P is the least set that holds P and is closed under the disclosure rules.",
);
const WITHOUT: Sentence = scope("D is the disclosable set of P without P and without N");

/// A rule for each credential, by some of those before it; now and then one has none.
fn chained(random: &mut Random, credentials: &[u8]) -> Vec<Record> {
    let mut rules = Vec::new();
    for (place, head) in credentials.iter().enumerate() {
        let size = random.pick(&[0, 1, 1, 1, 2]);
        let body = draw(random, &credentials[..place], size);
        if !random.one_in(10) {
            rules.push(disclosure(*head, body));
        }
    }
    rules
}

/// Credentials each disclosed by others, in chains and steps; several ways in.
fn stepwise(random: &mut Random) -> Run {
    let count = random.range(3, 8);
    let credentials = some(random, count, 0, 15);
    let service = random.range(16, 62) as u8;
    let mut records = chained(random, &credentials);
    for _ in 0..random.range(2, 5) {
        let size = random.range(1, 3);
        records.push(access(service, draw(random, &credentials, size), 0));
    }
    match random.below(3) {
        0 => records.reverse(),
        1 => random.shuffle(&mut records),
        _ => {}
    }
    let late = Manner::Late(random.range(2, 4));
    let manner = random.pick(&[
        Manner::PartOfAsked,
        Manner::PartOfAsked,
        Manner::Random,
        Manner::Again,
        late,
        Manner::Nothing,
    ]);
    let client = Client { manner, after: 0 };
    session(random, &records, service.into(), client)
}

/// A chain, its records the last first, and at its end a rule with a long body; before them rules that come too late.
fn crowded(random: &mut Random) -> Run {
    let count = random.range(5, 16);
    let credentials = some(random, count, 0, 15);
    let (last, before) = (credentials[count - 1], &credentials[..count - 1]);
    let service = random.range(16, 62) as u8;
    let mut records = vec![access(service, 1 << last, 0)];
    let size = random.range(0, 30);
    for _ in 0..size {
        let body = 1 << last | draw(random, before, 1);
        records.push(disclosure(random.pick(before), body));
    }
    let long = random.range(1, before.len());
    let body = before[before.len() - long..]
        .iter()
        .fold(0, |set, k| set | 1u64 << k);
    let mut chain = vec![disclosure(last, body), disclosure(before[0], 0)];
    chain.extend(
        before
            .windows(2)
            .map(|pair| disclosure(pair[1], 1 << pair[0])),
    );
    chain.reverse();
    records.extend(chain);
    let manner = random.pick(&[Manner::AllAsked, Manner::Nothing, Manner::Late(3)]);
    let client = Client { manner, after: 0 };
    session(random, &records, service.into(), client)
}

/// What is asked is disclosed by a body of three and more.
fn by_many(facts: &Facts) -> bool {
    any(facts, |rules, round| {
        let short = |rule: &&Record| rule.positive.count_ones() < 3;
        let kept: Vec<Record> = rules.iter().filter(short).copied().collect();
        round.asked() & !disclosable(&kept, round.after.shown) != 0
    })
}

/// What is asked is disclosed by a rule past the sixteenth.
fn by_late(facts: &Facts) -> bool {
    any(facts, |rules, round| {
        let first = &rules[..rules.len().min(16)];
        round.asked() & !disclosable(first, round.after.shown) != 0
    })
}

/// What is asked takes more than eight passes.
fn by_passes(facts: &Facts) -> bool {
    any(facts, |rules, round| {
        let passed = (0..8).fold(round.after.shown, |set, _| in_one_pass(rules, set));
        round.asked() & !passed != 0
    })
}

/// One pass over the rules, in the order of the records.
fn in_one_pass(rules: &[Record], shown: u16) -> u16 {
    rules.iter().fold(shown, |set, rule| {
        let holds = rule.positive & !u64::from(set) == 0;
        set | u16::from(holds) << rule.head
    })
}

fn any(facts: &Facts, is: impl Fn(&[Record], &Round) -> bool) -> bool {
    let Some(rules) = &facts.rules else {
        return false;
    };
    let mut rounds = facts.rounds.iter();
    rounds.any(|round| is(&rules.disclosure, round))
}

/// What is asked takes more than one pass.
fn through_others(facts: &Facts) -> bool {
    any(facts, |rules, round| {
        round.asked() & !in_one_pass(rules, round.after.shown) != 0
    })
}

/// What is asked was not disclosable in round 1.
fn step_by_step(facts: &Facts) -> bool {
    let Some(first) = facts.rounds.first() else {
        return false;
    };
    any(facts, |rules, round| {
        round.asked() & !disclosable(rules, first.after.shown) != 0
    })
}

/// What is asked is disclosed through a declined one.
fn through_declined(facts: &Facts) -> bool {
    any(facts, |rules, round| {
        let declined = round.after.declined;
        let kept: Vec<Record> = rules
            .iter()
            .filter(|rule| declined >> rule.head & 1 == 0)
            .copied()
            .collect();
        round.asked() & !disclosable(&kept, round.after.shown) != 0
    })
}

/// Denied, though all that is askable would unlock, or one that no rule discloses.
fn closed_off(facts: &Facts) -> bool {
    let Some(rules) = &facts.rules else {
        return false;
    };
    let open = |round: &Round| {
        let all = askable(&rules.disclosure) & !round.after.declined;
        unlocks(&rules.levels, round.after.request, round.after.shown | all)
    };
    facts.denied() && facts.rounds.last().is_some_and(open)
}

/// Denied, though a credential that heads no rule would unlock.
fn never_disclosed(facts: &Facts) -> bool {
    let Some(rules) = &facts.rules else {
        return false;
    };
    let open = |round: &Round| unlocks(&rules.levels, round.after.request, 0xffff);
    facts.denied() && facts.rounds.last().is_some_and(open)
}

pub fn shapes() -> Vec<Shape> {
    vec![
        Shape::new(
            "disclosed-through-others",
            LEAST,
            30,
            stepwise,
            through_others,
        ),
        Shape::new("disclosed-step-by-step", LEAST, 30, stepwise, step_by_step),
        Shape::new(
            "disclosed-through-declined",
            WITHOUT,
            20,
            stepwise,
            through_declined,
        ),
        Shape::new("disclosed-not-yet", LEAST, 20, stepwise, closed_off),
        Shape::new("disclosed-never", LEAST, 20, stepwise, never_disclosed),
        Shape::new("disclosed-by-many", LEAST, 20, crowded, by_many).of_at_most(60),
        Shape::new("disclosed-by-late-rule", LEAST, 20, crowded, by_late).of_at_most(60),
        Shape::new("disclosed-by-passes", LEAST, 20, crowded, by_passes).of_at_most(60),
    ]
}
