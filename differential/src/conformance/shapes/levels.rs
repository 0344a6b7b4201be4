//! Levels (document 02, R-4): policies that have them, in sessions that read them, and policies that have none.

use super::play::{any_session, session, Client};
use super::Shape;
use crate::clients::Manner;
use crate::conformance::case::{request, File, Run, Sentence};
use crate::conformance::facts::Facts;
use crate::damage::damaged;
use crate::level_counts::{accepted, refused};
use crate::leveling::{broken, chain, dense, loops, renumber, scatter, tiny, tower};
use crate::plain::levels::choice;
use crate::plain::policy::{Record, ACCESS};
use crate::policies::{self, access, disclosure, draw, weight};
use crate::random::Random;

const FINDS: Sentence = request("The gate finds levels itself.");
const SIX: Sentence = request(
    "Number 6 now says that no choice of a whole number as each atom's level gives each access head at least its positive atoms' level and more than its negated atoms' level, and is given exactly then, after all records passed the rest, with the count of records as its number.",
);
const MODELS: Sentence = request("Policies accepted before keep their models.");

/// The classes of accepted policies in `level_counts`, by name.
const ACCEPTED: [&str; 8] = [
    "not-by-number",
    "by-number",
    "loop",
    "long-loop",
    "loop-negated-above",
    "loop-two-sided",
    "ten-nots",
    "most-nots",
];

/// The classes of those that are refused 6.
const REFUSED: [&str; 10] = [
    "of-one",
    "of-two",
    "of-three",
    "of-few",
    "of-many",
    "one-not-among-others",
    "two-sided",
    "one-record",
    "full",
    "other-kinds-last",
];

/// A policy of loops, towers, chains or long bodies, numbered in any way.
fn levelled(random: &mut Random) -> Vec<Record> {
    let mut records = match random.below(5) {
        0 | 1 => loops(random),
        2 => tower(random),
        3 => chain(random),
        _ => dense(random),
    };
    renumber(random, &mut records);
    records
}

/// A session for one of the heads, the client showing something in most rounds.
fn read(random: &mut Random) -> Run {
    let records = match random.one_in(5) {
        true => policies::accepted(random),
        false => levelled(random),
    };
    let heads: Vec<u8> = records.iter().map(|record| record.head).collect();
    let services: Vec<u8> = heads.into_iter().filter(|h| (16..63).contains(h)).collect();
    if services.is_empty() {
        return any_session(random, &records);
    }
    let manner = random.pick(&[Manner::Random, Manner::PartOfAsked, Manner::AllAsked]);
    let request = random.pick(&services).into();
    session(random, &records, request, Client { manner, after: 0 })
}

/// Rules that no levels keep, by themselves or among others.
fn unlevelled(random: &mut Random) -> Run {
    let rules = broken(random);
    let mut records = match random.below(4) {
        0 => Vec::new(),
        1 => vec![disclosure(0, 0), weight(1, 2)],
        2 => tiny(random),
        _ => policies::talkative(random),
    };
    records.truncate(30);
    match random.below(4) {
        0 => records = [rules, records].concat(),
        1 => records.extend(rules),
        _ => scatter(random, &mut records, rules),
    }
    Run::of(&records, 16, &[random.word()])
}

/// A loop through "not" whose bodies have other atoms beside those of the loop, on both sides.
fn crowded(random: &mut Random) -> Run {
    let mut records = broken(random);
    for record in &mut records {
        let others: [usize; 2] = std::array::from_fn(|_| random.pick(&[0, 1, 2, 4]));
        let atoms: Vec<u8> = (0..63).collect();
        record.positive |= draw(random, &atoms, others[0]);
        record.negative |= draw(random, &atoms, others[1]);
    }
    Run::of(&records, 16, &[random.word()])
}

/// Whether only one "not" of several makes a loop, or one of several that must hold leads on.
fn one_of_several(facts: &Facts) -> bool {
    let rules = access_rules(&facts.records);
    let lowest = |set: u64| set & set.wrapping_neg();
    let highest = |set: u64| {
        if set == 0 {
            0
        } else {
            1 << (63 - set.leading_zeros())
        }
    };
    let kept = |change: &dyn Fn(&Record) -> Record| {
        let others: Vec<Record> = rules.iter().map(change).collect();
        choice(&others).is_some()
    };
    let negative = |r: &Record, negative: u64| Record { negative, ..*r };
    let positive = |r: &Record, positive: u64| Record { positive, ..*r };
    facts.refused == 6
        && (kept(&|r| negative(r, lowest(r.negative)))
            || kept(&|r| negative(r, highest(r.negative))))
        && (kept(&|r| positive(r, lowest(r.positive)))
            || kept(&|r| positive(r, highest(r.positive))))
}

/// A loop through "not" in a full policy.
fn full(random: &mut Random) -> Run {
    let rules = broken(random);
    let place = random.pick(&[0, 128 - rules.len()]);
    let mut records = vec![access(16, 1, 2); 128 - rules.len()];
    records.splice(place..place, rules);
    Run::of(&records, 16, &[0])
}

fn access_rules(records: &[Record]) -> Vec<Record> {
    let is = |r: &&Record| r.kind == ACCESS && (16..64).contains(&r.head);
    records.iter().filter(is).copied().collect()
}

/// No levels, and another refusal that comes first.
fn beside(number: u8, facts: &Facts) -> bool {
    facts.refused == number && choice(&access_rules(&facts.records)).is_none()
}

fn damaged_run(random: &mut Random) -> Run {
    Run {
        file: File::Bytes(damaged(random)),
        input: vec![16, 0, 0, 0],
    }
}

fn accepted_shapes() -> Vec<Shape> {
    let shape = |(place, name): (usize, &&str)| {
        let tests = if place == 1 { MODELS } else { FINDS };
        let is = move |facts: &Facts| {
            let rules = facts.rules.as_ref();
            let classed = rules.is_some_and(|rules| accepted(&rules.access)[place]);
            classed && !facts.rounds.is_empty()
        };
        Shape::new(format!("levels-{name}"), tests, 20, read, is).of_any_length()
    };
    ACCEPTED.iter().enumerate().map(shape).collect()
}

fn refused_shapes() -> Vec<Shape> {
    let shape = |(place, name): (usize, &&str)| {
        let full_only = *name == "full";
        let draw = move |random: &mut Random| match full_only {
            true => full(random),
            false => unlevelled(random),
        };
        let is = move |facts: &Facts| {
            let rules = access_rules(&facts.records);
            facts.refused == 6 && refused(&facts.records, &rules)[place]
        };
        let shape = Shape::new(format!("no-levels-{name}"), SIX, 20, draw, is);
        if full_only || *name == "of-many" {
            shape.of_any_length()
        } else {
            shape
        }
    };
    REFUSED.iter().enumerate().map(shape).collect()
}

pub fn shapes() -> Vec<Shape> {
    let mut shapes = accepted_shapes();
    shapes.extend(refused_shapes());
    let among = "no-levels-one-of-several";
    shapes.push(Shape::new(among, SIX, 20, crowded, one_of_several).of_any_length());
    for number in [1, 2, 3, 4, 5, 12, 13] {
        let name = format!("no-levels-beside-{number}");
        let is = move |facts: &Facts| beside(number, facts);
        let shape = Shape::new(name, SIX, 20, damaged_run, is);
        shapes.push(if number == 1 {
            shape.of_any_length()
        } else {
            shape
        });
    }
    shapes
}
