//! Drawn cases: lists of operations steered to a shape, so many of each, from a fixed seed.

mod choices;
mod draft;
mod fits;
mod moves;
mod policies;
mod previews;
mod refusals;
mod sessions;
mod shapes;

pub(super) use shapes::shapes;

use super::events::events;
use crate::conformance::case::{Case, Run, Sentence};
use crate::plain::station::{output, RECORD_BYTES};
use crate::policies::encode;
use crate::random::Random;
use draft::Draft;
use shapes::{Shape, Under};

const SEED: u64 = 5;

/// Cases of each shape.
pub(super) const EACH: usize = 20;

/// How many operations a list has.
pub(super) const LEAST: usize = 10;
pub(super) const MOST: usize = 80;

/// A shape that does not come up in so many lists is drawn in the wrong way.
const MOST_TRIES: usize = 5_000;

/// Now and then a record that is passed over, and some bytes at the end.
fn add_unread(random: &mut Random, input: &mut Vec<u8>) {
    if random.one_in(10) {
        let place = RECORD_BYTES * random.below(input.len() / RECORD_BYTES + 1);
        let mut record: [u8; RECORD_BYTES] = std::array::from_fn(|_| random.byte());
        record[0] = random.pick(&[0, 4, 5, 49, 127, 128, 129, 130, 255]);
        input.splice(place..place, record);
    }
    if random.one_in(10) {
        let count = random.range(1, RECORD_BYTES - 1);
        let first = random.pick(&[1, 2, 3]);
        input.push(first);
        input.extend((1..count).map(|_| random.byte()));
    }
}

/// A list as it is drawn first: the shape may not have come up.
fn draft(shape: &Shape, random: &mut Random) -> Run {
    let policy = match shape.under {
        Under::Small => encode(&policies::small(random)),
        Under::Long => encode(&policies::long(random)),
        Under::Refused => policies::refused(random),
    };
    let mut draft = Draft::new(random, policy);
    let owners = draft.random.pick(&[1, 2, 2, 3]);
    let places = draft.random.range(5, 8);
    draft.with_owners(owners);
    draft.with_places(places);
    (shape.draw)(&mut draft);
    if draft.random.one_in(10) {
        draft.some(10, 30);
    }
    let mut run = draft.run();
    add_unread(random, &mut run.input);
    run
}

/// A list in which the shape comes up.
fn drawn(shape: &Shape, random: &mut Random) -> Run {
    for _ in 0..MOST_TRIES {
        let run = draft(shape, random);
        let events = events(&run);
        if (LEAST..=MOST).contains(&events.len()) && (shape.fits)(&events) {
            return run;
        }
    }
    panic!("shape {} does not come up", shape.name);
}

/// A list of any of the shapes, with the sentence that it tests.
pub fn any(random: &mut Random) -> (Sentence, Run) {
    let shapes = shapes();
    let shape = &shapes[random.below(shapes.len())];
    (shape.tests, drawn(shape, random))
}

/// The cases of one shape, from a stream of its own.
fn of_shape(shape: &Shape, stream: u64) -> Vec<Case> {
    let mut random = Random::new(SEED, stream);
    let case = |k| {
        let run = drawn(shape, &mut random);
        Case {
            name: format!("station-drawn-{}-{k:02}", shape.name),
            tests: shape.tests,
            prints: output(run.bytes(), &run.input),
            run,
        }
    };
    (1..=EACH).map(case).collect()
}

pub fn cases() -> Vec<Case> {
    let shapes = shapes();
    let streams = shapes.iter().zip(0..);
    streams
        .flat_map(|(shape, stream)| of_shape(shape, stream))
        .collect()
}
