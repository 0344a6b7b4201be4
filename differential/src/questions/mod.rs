//! Rounds that are made so that the question has a given size among so many that may be asked; and such rounds with weights.

mod rules;
pub mod shapes;

use crate::calls::{asked_of, ending_of, refusal_of, Memory, ASK};
use crate::candidates::{number, subset};
use crate::counts::Kind;
use crate::leveling::renumber;
use crate::plain::disclosure::disclosable;
use crate::plain::interface::{decode, encode};
use crate::plain::policy::Record;
use crate::plain::session::{open, Phase, Session};
use crate::policies;
use crate::question_counts::classes::{classes, Round};
use crate::random::Random;
use crate::tester::Tester;
use crate::weighing::weights;
use rules::{records, Sides, LEAST_SERVICE};
use shapes::{wanted, Shape, SHAPES};

/// So many credentials: the lowest, the highest, or any; of the others some are shown, some declined.
fn sides(random: &mut Random, members: usize) -> Sides {
    let mut all: Vec<u16> = (0..16).map(|k| 1 << k).collect();
    match random.below(6) {
        0 => {}
        1 => all.reverse(),
        _ => random.shuffle(&mut all),
    }
    let may_ask = all[..members].iter().fold(0, |set, one| set | one);
    let shown = random.credentials(!may_ask);
    let declined = random.credentials(!may_ask & !shown);
    Sides {
        may_ask,
        shown,
        declined,
    }
}

/// A policy under which sets of these sizes, of so many credentials, unlock a service: its bytes, the service, those credentials,
/// and what is shown.
pub fn made_policy(
    random: &mut Random,
    members: usize,
    sizes: &[usize],
) -> (Vec<u8>, u16, u16, u16) {
    let sides = sides(random, members);
    let service = random.range(LEAST_SERVICE, 62) as u8;
    let lone = |size: &usize| wanted(random, Shape::Lone, members, *size)[0];
    let numbers: Vec<u16> = sizes.iter().map(lone).collect();
    let sets: Vec<u16> = numbers.iter().map(|n| subset(*n, sides.may_ask)).collect();
    let mut records = records(random, &sides, service, &sets);
    let service = renumber(random, &mut records)[usize::from(service)];
    let bytes = policies::encode(&records);
    (bytes, service.into(), sides.may_ask, sides.shown)
}

/// A policy under which sets lie to each other in this shape, the preferred one of this size among so many; the service, and what
/// has to be shown at first.
pub fn asking(
    random: &mut Random,
    shape: Shape,
    members: usize,
    size: usize,
) -> (Vec<Record>, u16, u16) {
    let sides = Sides {
        declined: 0,
        ..sides(random, members)
    };
    let service = random.range(LEAST_SERVICE, 62) as u8;
    let numbers = wanted(random, shape, members, size);
    let sets: Vec<u16> = numbers.iter().map(|n| subset(*n, sides.may_ask)).collect();
    let mut records = records(random, &sides, service, &sets);
    let service = renumber(random, &mut records)[usize::from(service)];
    (records, service.into(), sides.shown)
}

/// A session and what is shown in the round, so that after it the sides are as wanted.
fn session(random: &mut Random, sides: &Sides, service: u16) -> Option<(Session, u16)> {
    let outside = sides.shown | sides.declined;
    let part = random.credentials(outside);
    let question = if part == 0 { sides.declined } else { part };
    if question == 0 || sides.declined == 0 && random.one_in(2) {
        let fresh = open(service).ok()?;
        return (sides.declined == 0).then_some((fresh, sides.shown));
    }
    let (shown, declined) = (sides.shown & !question, sides.declined & !question);
    let most = 1 + (shown | declined).count_ones() as usize;
    let waiting = Session {
        request: service,
        shown,
        declined,
        count: random.range(1, most) as u8,
        phase: Phase::Waiting(question),
    };
    Some((waiting, sides.shown & question))
}

/// Counts what is to be told of the question that a round has given; under weights blocks have another order.
fn count_classes(tester: &mut Tester, memory: Memory) {
    let (Some(rules), Some(session)) = (tester.rules(), decode(memory.session())) else {
        return;
    };
    if !rules.weights.is_empty() {
        return;
    }
    let Phase::Waiting(asked) = session.phase else {
        return;
    };
    let (shown, declined) = (session.shown, session.declined);
    let may_ask = disclosable(&rules.disclosure, shown) & !shown & !declined;
    let found = classes(&Round {
        levels: &rules.levels,
        service: session.request,
        shown,
        may_ask,
        asked,
    });
    let number = number(asked, may_ask);
    tester.counts.questions.classified(number, found);
}

/// One round, its question counted; the question and the memory after it, where there is one and the versions agree.
fn round(tester: &mut Tester, p: u16, memory: Memory) -> Option<(u16, Memory)> {
    let (reply, after) = tester.round(Kind::RoundQuestion, p, memory)?;
    if refusal_of(reply) != 0 || ending_of(reply) != ASK {
        return None;
    }
    count_classes(tester, after);
    Some((asked_of(after.session()), after))
}

/// Weights of all sixteen, or of some.
pub fn weighed(random: &mut Random) -> Vec<Record> {
    let weights = weights(random);
    let named = match random.one_in(2) {
        true => 0xffff,
        false => random.credentials(0xffff),
    };
    let heads = (0..16).filter(|k| named >> k & 1 == 1);
    heads
        .map(|k| policies::weight(k, weights[usize::from(k)].into()))
        .collect()
}

/// A policy under which the sets of these numbers unlock, with these weights, a session made for the round, and the round.
fn made(
    tester: &mut Tester,
    members: usize,
    numbers: &[u16],
    weights: Vec<Record>,
) -> Option<(u16, Memory)> {
    let random = &mut tester.random;
    let sides = sides(random, members);
    let service = random.range(LEAST_SERVICE, 62) as u8;
    let sets: Vec<u16> = numbers.iter().map(|n| subset(*n, sides.may_ask)).collect();
    let mut records = records(random, &sides, service, &sets);
    let service = renumber(random, &mut records)[usize::from(service)];
    records.extend(weights);
    let (session, p) = session(random, &sides, service.into())?;
    tester.set_policy(policies::encode(&records));
    let memory = tester.memory_with(encode(&session));
    round(tester, p, memory)
}

/// A round made at random, and sometimes the next ones, in which a part of what is asked is shown.
pub fn questions(tester: &mut Tester) {
    let members = tester.random.range(1, 16);
    let size = match tester.random.below(3) {
        0 => tester.random.range(1, members.min(4)),
        _ => tester.random.range(1, members),
    };
    let shape = tester.random.pick(&SHAPES);
    let numbers = wanted(&mut tester.random, shape, members, size);
    let weights = match tester.random.one_in(2) {
        true => weighed(&mut tester.random),
        false => Vec::new(),
    };
    let mut last = made(tester, members, &numbers, weights);
    while let Some((asked, memory)) = last {
        if tester.random.one_in(2) {
            return;
        }
        let p = tester.random.credentials(asked);
        last = round(tester, p, memory);
    }
}

/// Every size of a question with every number that may be asked, in every shape.
pub fn every_size(tester: &mut Tester) {
    for members in 1..=16 {
        for size in 1..=members {
            for shape in SHAPES {
                let numbers = wanted(&mut tester.random, shape, members, size);
                made(tester, members, &numbers, Vec::new());
                let weights = weighed(&mut tester.random);
                made(tester, members, &numbers, weights);
            }
        }
    }
}

/// A question in every block of 256 candidates, and at every place within a block.
pub fn every_block(tester: &mut Tester) {
    for block in 0..=255u16 {
        let lane = tester.random.range(1, 255) as u16;
        let weights = weighed(&mut tester.random);
        made(tester, 16, &[block << 8 | lane], Vec::new());
        made(tester, 16, &[block << 8 | lane], weights);
        let members = tester.random.range(8, 12);
        let other = tester.random.below(1 << (members - 8)) as u16;
        made(tester, members, &[other << 8 | block], Vec::new());
        made(tester, 9, &[1 << 8 | block], Vec::new());
    }
}
