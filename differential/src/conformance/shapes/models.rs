//! The model: chains, "not", rules that never apply, services that roles give.

use super::play::{any_session, session, Client};
use super::Shape;
use crate::clients::Manner;
use crate::conformance::case::{scope, Run, Sentence};
use crate::conformance::facts::Facts;
use crate::leveling::renumber;
use crate::plain::levels::levels;
use crate::plain::policy::{Policy, Record};
use crate::plain::session::ending;
use crate::policies::{accepted, access, disclosure, draw, some};
use crate::random::Random;

const STABLE: Sentence = scope(
    "M is stable if it equals the least set that holds C and is closed under what remains (000 and 002 rest on this).",
);
const STRUCK: Sentence = scope(
    "For a candidate set M, strike each rule that negates an atom of M, then drop the negated parts of the others.",
);
const SIDES: Sentence =
    scope("An atom may stand on both sides of a body; that rule never applies.");
const EMPTY: Sentence = scope("An empty body always applies.");

fn any(random: &mut Random) -> Run {
    let records = accepted(random);
    any_session(random, &records)
}

/// "not" over roles in two or more storeys: each role by credentials, or by the lack of the one below.
fn storeys(random: &mut Random) -> Run {
    let count = random.range(2, 6);
    let credentials = some(random, count, 0, 15);
    let roles = random.range(2, 7);
    let atoms = some(random, roles, 16, 62);
    let mut records: Vec<Record> = credentials.iter().map(|k| disclosure(*k, 0)).collect();
    for (place, atom) in atoms.iter().enumerate() {
        let below = draw(random, &atoms[..place], 1);
        let size = random.pick(&[0, 1, 1]);
        let body = draw(random, &credentials, size);
        let not = draw(random, &credentials, 1) & !body;
        records.push(match random.below(4) {
            0 => access(*atom, body, not),
            1 => access(*atom, body | below, 0),
            _ => access(*atom, body, below),
        });
    }
    renumber(random, &mut records);
    random.shuffle(&mut records);
    let heads: Vec<u8> = records
        .iter()
        .filter(|r| r.kind == 1)
        .map(|r| r.head)
        .collect();
    let request = random.pick(&heads).into();
    let manner = random.pick(&[Manner::Random, Manner::PartOfAsked, Manner::AllAsked]);
    session(random, &records, request, Client { manner, after: 0 })
}

/// Roles with several atoms on each side of their bodies, one over the other.
fn crowded(random: &mut Random) -> Run {
    let credentials = some(random, 4, 0, 15);
    let count = random.range(5, 9);
    let atoms = some(random, count, 16, 62);
    let mut records: Vec<Record> = credentials.iter().map(|k| disclosure(*k, 0)).collect();
    for (place, atom) in atoms.iter().enumerate() {
        let sizes: [usize; 3] = std::array::from_fn(|_| random.pick(&[0, 1, 2, 3]));
        let held = draw(random, &atoms[..place], sizes[0]);
        let not = draw(random, &atoms[..place], sizes[1]);
        let size = random.pick(&[0, 0, 1]);
        let (shown, absent) = (
            draw(random, &credentials, size),
            draw(random, &credentials, size),
        );
        records.push(access(*atom, held | shown, (not | absent) & !held & !shown));
        if sizes[2] == 0 {
            records.push(access(*atom, draw(random, &credentials, 1), 0));
        }
    }
    random.shuffle(&mut records);
    let manner = random.pick(&[Manner::Random, Manner::PartOfAsked, Manner::AllAsked]);
    let request = atoms[count - 1].into();
    session(random, &records, request, Client { manner, after: 0 })
}

/// The lowest or the highest member of a set.
fn end(set: u64, highest: bool) -> u64 {
    match (set, highest) {
        (0, _) => 0,
        (_, true) => 1 << (63 - set.leading_zeros()),
        (_, false) => 1 << set.trailing_zeros(),
    }
}

/// Of several atoms that must not hold, only one end read.
fn one_not(facts: &Facts, highest: bool) -> bool {
    otherwise(facts, |rule| {
        Some(Record {
            negative: end(rule.negative, highest),
            ..*rule
        })
    })
}

/// Of several that must hold, only one end read.
fn one_held(facts: &Facts, highest: bool) -> bool {
    otherwise(facts, |rule| {
        Some(Record {
            positive: end(rule.positive, highest),
            ..*rule
        })
    })
}

/// A rule with an atom on both sides, which would change something if it applied.
fn two_sided(random: &mut Random) -> Run {
    let service = random.range(16, 62) as u8;
    let (one, other) = (random.below(16) as u8, random.below(16) as u8);
    let role = random.range(16, 62) as u8;
    let mut records = vec![
        disclosure(one, 0),
        disclosure(other, 0),
        access(service, 1 << one, 1 << one),
        access(service, 1 << one | 1 << other, 0),
    ];
    match random.below(4) {
        0 if role != service => {
            records.push(access(role, 0, 0));
            records.push(access(service, 1 << role, 1 << role));
        }
        1 => records.push(access(63, 1 << other, 1 << other)),
        _ => {}
    }
    random.shuffle(&mut records);
    let manner = random.pick(&[Manner::AllAsked, Manner::PartOfAsked, Manner::Random]);
    session(
        random,
        &records,
        service.into(),
        Client { manner, after: 0 },
    )
}

/// A chain of rules, the service at its end, its records the last first or in any order; in a loop the first follows from the last.
fn long_chain(random: &mut Random, looped: bool) -> Run {
    let length = random.range(7, 18);
    let atoms = some(random, length, 16, 62);
    let first = random.below(16) as u8;
    let other = random.below(16) as u8;
    let mut records = vec![access(atoms[0], 1 << first, 0)];
    for pair in atoms.windows(2) {
        records.push(access(pair[1], 1 << pair[0], 0));
    }
    let last = atoms[length - 1];
    match looped {
        true => records.push(access(atoms[0], 1 << last, 0)),
        false => records.push(access(last, 1 << other, 1 << first)),
    }
    records.push(disclosure(first, 0));
    records.push(disclosure(other, 1 << other));
    match random.one_in(3) {
        true => random.shuffle(&mut records),
        false => records.reverse(),
    }
    let manner = random.pick(&[Manner::AllAsked, Manner::Late(3), Manner::Nothing]);
    session(random, &records, last.into(), Client { manner, after: 0 })
}

/// Whether six passes over the rules, in the order of the records, do not give all of a round's model.
fn many_passes(facts: &Facts) -> bool {
    let Some(rules) = &facts.rules else {
        return false;
    };
    let pass = |set: u64| {
        rules.access.iter().fold(set, |set, rule| {
            let holds = rule.positive & !set == 0 && rule.negative & set == 0;
            set | u64::from(holds) << rule.head
        })
    };
    facts.rounds.iter().any(|round| {
        let shown = round.after.shown | round.asked();
        let passed = (0..6).fold(u64::from(shown), |set, _| pass(set));
        pass(passed) != passed
    })
}

/// Whether the endings would be others with other rules.
fn otherwise(facts: &Facts, change: impl Fn(&Record) -> Option<Record>) -> bool {
    let Some(rules) = &facts.rules else {
        return false;
    };
    let access: Vec<Record> = rules.access.iter().filter_map(change).collect();
    let Some(levels) = levels(&access) else {
        return false;
    };
    let changed = Policy {
        access,
        levels,
        ..rules.clone()
    };
    facts.rounds.iter().any(|round| {
        let after = &round.after;
        ending(&changed, after.request, after.shown, after.declined) != round.ending
    })
}

/// Two-sided rules taken as if the "not" were not there.
fn sides_matter(facts: &Facts) -> bool {
    otherwise(facts, |rule| {
        Some(Record {
            negative: rule.negative & !rule.positive,
            ..*rule
        })
    })
}

/// Rules with a "not" left out.
fn nots_matter(facts: &Facts) -> bool {
    otherwise(facts, |rule| (rule.negative == 0).then_some(*rule))
}

/// The derived atoms taken out of bodies.
fn chains_matter(facts: &Facts) -> bool {
    otherwise(facts, |rule| {
        let derived = (rule.positive | rule.negative) >> 16;
        (derived == 0).then_some(*rule)
    })
}

fn empty_matters(facts: &Facts) -> bool {
    otherwise(facts, |rule| {
        (rule.positive | rule.negative != 0).then_some(*rule)
    })
}

/// A grant after a question.
fn granted_after(facts: &Facts) -> bool {
    facts.granted() && facts.rounds.iter().any(|round| round.asked() != 0)
}

pub fn shapes() -> Vec<Shape> {
    let chain = |random: &mut Random| long_chain(random, false);
    let ring = |random: &mut Random| long_chain(random, true);
    vec![
        Shape::new("model-not", STRUCK, 30, storeys, nots_matter),
        Shape::new("model-chain", STABLE, 30, any, chains_matter),
        Shape::new("model-long-chain", STABLE, 20, chain, many_passes),
        Shape::new("model-long-loop", STABLE, 20, ring, many_passes),
        Shape::new("model-two-sided", SIDES, 20, two_sided, sides_matter),
        Shape::new("model-empty-body", EMPTY, 20, any, empty_matters),
        Shape::new("model-not-lowest", STRUCK, 20, crowded, |f| {
            one_not(f, true)
        }),
        Shape::new("model-not-highest", STRUCK, 20, crowded, |f| {
            one_not(f, false)
        }),
        Shape::new("model-held-lowest", STABLE, 20, crowded, |f| {
            one_held(f, true)
        }),
        Shape::new("model-held-highest", STABLE, 20, crowded, |f| {
            one_held(f, false)
        }),
        Shape::new("model-granted-after", STABLE, 20, storeys, granted_after),
    ]
}
