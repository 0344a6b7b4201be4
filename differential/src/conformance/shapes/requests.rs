//! Requests at the edges of what a service is, under accepted policies and refused ones.

use super::Shape;
use crate::conformance::case::{scope, File, Run, Sentence};
use crate::damage::damaged;
use crate::plain::policy::Record;
use crate::policies::{access, encode, talkative};
use crate::random::Random;

const SEVEN: Sentence = scope("7: request outside 16 to 62, at opening or in a round.");
const UNHEARD: Sentence = scope("if there is none, deny, closed");
const FIRST: Sentence =
    scope("A refused policy or request ends the output, the policy being tested first");

/// A policy in which the request's low six bits are a service, so that one who cuts it grants.
fn policy(random: &mut Random, request: u16) -> Vec<Record> {
    let mut records = talkative(random);
    records.truncate(10);
    let near = [request & 0x3f, request & 0xff, request];
    for head in near.into_iter().filter(|head| (16..=63).contains(head)) {
        if !random.one_in(3) {
            records.push(access(head as u8, 0, 0));
        }
    }
    records
}

fn asked(random: &mut Random, request: u16) -> Run {
    let records = policy(random, request);
    let rounds = random.range(0, 3);
    let shown: Vec<u16> = (0..rounds).map(|_| random.word()).collect();
    Run::of(&records, request, &shown)
}

/// A policy that is refused, with a request that is too.
fn both(random: &mut Random) -> Run {
    let request = random.pick(&[0, 15, 63, 64, 272, 0x1000, 0xffff]);
    let mut input = u16::to_le_bytes(request).to_vec();
    input.extend(random.word().to_le_bytes());
    Run {
        file: File::Bytes(damaged(random)),
        input,
    }
}

/// A service that no record has as its head.
fn unheard(random: &mut Random) -> Run {
    let mut records = talkative(random);
    let request = random.pick(&[16, 62, 62, 40]);
    records.retain(|record| u16::from(record.head) != request);
    let shown = [random.word(), 0];
    Run::of(&records, request, &shown[..random.range(1, 2)])
}

/// A file that is right but for the request's being another.
fn other(random: &mut Random) -> Run {
    let request = match random.below(4) {
        0 => random.pick(&[
            0, 1, 64, 255, 256, 271, 0x1000, 0x3e00, 0x8010, 0xff10, 0xffff,
        ]),
        1 => random.range(0, 15) as u16,
        2 => (random.range(16, 62) | random.range(1, 255) << 8) as u16,
        _ => random.range(63, 0xffff) as u16,
    };
    asked(random, request)
}

fn only(records: Vec<Record>, request: u16) -> Run {
    Run {
        file: File::Bytes(encode(&records)),
        input: request.to_le_bytes().to_vec(),
    }
}

/// A request and nothing after it.
fn alone(random: &mut Random) -> Run {
    let request = random.pick(&[15, 16, 62, 63, 272, 0]);
    match random.one_in(2) {
        true => only(policy(random, request), request),
        false => Run {
            file: File::Bytes(damaged(random)),
            input: request.to_le_bytes().to_vec(),
        },
    }
}

pub fn shapes() -> Vec<Shape> {
    let mut shapes: Vec<Shape> = [15u16, 16, 62, 63, 272]
        .into_iter()
        .map(|request| {
            let refused = !(16..=62).contains(&request);
            Shape::new(
                format!("request-{request}"),
                SEVEN,
                20,
                move |random| asked(random, request),
                move |facts| (facts.refused == 7) == refused,
            )
        })
        .collect();
    shapes.push(Shape::new("request-other", SEVEN, 30, other, |facts| {
        facts.refused == 7
    }));
    shapes.push(Shape::new(
        "request-unheard-of",
        UNHEARD,
        20,
        unheard,
        |facts| facts.denied(),
    ));
    shapes.push(Shape::new("request-and-policy", FIRST, 30, both, |facts| {
        ![0, 7].contains(&facts.refused)
    }));
    shapes.push(Shape::new("request-alone", FIRST, 20, alone, |facts| {
        facts.rounds.is_empty()
    }));
    shapes
}
