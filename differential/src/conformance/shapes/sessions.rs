//! Sessions of every length, and past their close.

use super::long::{longest, many_ways, singles, SERVICE};
use super::play::{after, session, shown, Client};
use super::Shape;
use crate::clients::Manner;
use crate::conformance::case::{scope, Run, Sentence};
use crate::plain::policy::Record;
use crate::policies::encode;
use crate::random::Random;
use crate::weighing::weigh;

/// "The longest sessions have 17 rounds."
const LONGEST: usize = 17;

/// Sixteen rules, sixteen disclosures, some weights.
const MOST_RECORDS: usize = 40;

const GRANT: Sentence = scope("if P unlocks the request, grant, closed");
const DENY: Sentence = scope("if there is none, deny, closed");
const WAITING: Sentence = scope(
    "among subsets of D that with P unlock the request, the preferred one is asked and becomes Q",
);
const LAST: Sentence = scope("The longest sessions have 17 rounds.");
const BEYOND: Sentence = scope("a round after closing prints \"refused 9\" for each record left");

/// A policy with about so many to ask for, one after the other, and its service.
fn policy(random: &mut Random, askable: usize) -> (Vec<Record>, u16) {
    let most = askable.clamp(1, 16);
    let (mut records, service) = match random.below(4) {
        0 => (longest(most as u8), 16),
        1 if most > 7 => (many_ways(random), SERVICE.into()),
        _ => (singles(random, most as u8), SERVICE.into()),
    };
    weigh(random, &mut records);
    (records, service)
}

/// A client that has grant in round k, or so.
fn granted(random: &mut Random, k: usize) -> Run {
    let askable = random.range(k.saturating_sub(1), 16.min(k + 2));
    let (records, service) = policy(random, askable);
    let manner = match k {
        1 => random.pick(&[Manner::Random, Manner::Everything]),
        _ => random.pick(&[Manner::Late(k), Manner::Late(k), Manner::PartOfAsked]),
    };
    let after = after(random);
    session(random, &records, service, Client { manner, after })
}

/// A client that is denied in round k, or so.
fn denied(random: &mut Random, k: usize) -> Run {
    let (mut records, service) = policy(random, k.saturating_sub(1));
    if k == 1 {
        records.retain(|record| record.kind != 2);
    }
    let manner = random.pick(&[Manner::Nothing, Manner::Nothing, Manner::PartOfAsked]);
    let after = after(random);
    session(random, &records, service, Client { manner, after })
}

/// A client that breaks off after round k.
fn left(random: &mut Random, k: usize) -> Run {
    let askable = random.range(k.min(16), 16);
    let (records, service) = policy(random, askable);
    let manner = random.pick(&[Manner::Nothing, Manner::PartOfAsked]);
    let client = Client { manner, after: 0 };
    let shown = shown(random, &encode(&records), service, client, k);
    Run::of(&records, service, &shown)
}

/// A client that goes on after the close.
fn beyond(random: &mut Random) -> Run {
    let askable = random.range(0, 6);
    let (records, service) = policy(random, askable);
    let after = random.pick(&[1, 2, 3, 5, 13]);
    let late = Manner::Late(random.range(2, 5));
    let manner = random.pick(&[Manner::Nothing, Manner::Random, late, Manner::Everything]);
    session(random, &records, service, Client { manner, after })
}

/// A client that goes on for long.
fn far_beyond(random: &mut Random) -> Run {
    let askable = random.range(0, 3);
    let (records, service) = policy(random, askable);
    let after = random.range(20, 80);
    let manner = random.pick(&[Manner::Nothing, Manner::Everything, Manner::AllAsked]);
    let client = Client { manner, after };
    let shown = shown(random, &encode(&records), service, client, 100);
    Run::of(&records, service, &shown)
}

/// Both ends, and sessions that are left waiting, of which there are none after the longest.
fn of_length(k: usize) -> Vec<Shape> {
    let (name, longest) = (|end: &str| format!("session-{k:02}-{end}"), k == LONGEST);
    let tests = |other: Sentence| if longest { LAST } else { other };
    let cases = if longest { 12 } else { 8 };
    let grant = move |random: &mut Random| granted(random, k);
    let deny = move |random: &mut Random| denied(random, k);
    let ask = move |random: &mut Random| left(random, k);
    let mut shapes = vec![
        Shape::new(name("grant"), tests(GRANT), cases, grant, move |facts| {
            facts.rounds.len() == k && facts.granted()
        }),
        Shape::new(name("deny"), tests(DENY), cases, deny, move |facts| {
            facts.rounds.len() == k && facts.denied()
        }),
    ];
    if !longest {
        shapes.push(Shape::new(name("ask"), WAITING, 6, ask, move |facts| {
            facts.rounds.len() == k && facts.closed().is_none()
        }));
    }
    shapes
}

pub fn shapes() -> Vec<Shape> {
    let lengths = (1..=LONGEST).flat_map(of_length);
    let mut shapes: Vec<Shape> = lengths
        .map(|shape| shape.of_at_most(MOST_RECORDS))
        .collect();
    shapes.push(Shape::new("past-grant", BEYOND, 20, beyond, |facts| {
        facts.granted() && facts.beyond > 0
    }));
    shapes.push(Shape::new("past-long", BEYOND, 20, far_beyond, |facts| {
        facts.beyond > 18
    }));
    shapes.push(Shape::new("past-deny", BEYOND, 20, beyond, |facts| {
        facts.denied() && facts.beyond > 0
    }));
    shapes
}
