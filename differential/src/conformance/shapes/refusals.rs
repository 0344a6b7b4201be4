//! Refused policies: each number alone and in each of its ways, at the first record, the last and between.

use super::Shape;
use crate::conformance::case::{request, scope, File, Run, Sentence};
use crate::conformance::facts::Facts;
use crate::damage::damaged;
use crate::plain::policy::{Record, ACCESS, BREACH, DISCLOSURE, WEIGHT};
use crate::policies::{accepted, access, disclosure, encode, weight};
use crate::random::Random;
use crate::weight_counts::faults;

const ONE: Sentence = scope("1: more than 2,304 bytes; record number 128.");
const TWO: Sentence = scope("2: length not a multiple of 18; number of whole records.");
const THREE: Sentence = scope("3: kind neither 1 nor 2.");
const FOUR: Sentence = scope("4: head not allowed for the kind.");
const FIVE: Sentence = scope("5: body atom not allowed for the kind.");
const TWELVE: Sentence = request("12, weight above 15 or negated set not empty");
const THIRTEEN: Sentence =
    request("13, a second weight for one credential, even by an equal record come twice");
const KIND_THREE: Sentence = request(
    "Kind 3 passes 3, has heads 0 to 15 by 4, and is tested by 12 and 13 instead of 5 and 6, wherever a policy is tested.",
);

/// A request and a round or none.
fn input(random: &mut Random) -> Vec<u8> {
    let mut input = vec![random.range(16, 62) as u8, 0];
    if !random.one_in(4) {
        input.extend(random.word().to_le_bytes());
    }
    input
}

fn run(random: &mut Random, bytes: Vec<u8>) -> Run {
    Run {
        file: File::Bytes(bytes),
        input: input(random),
    }
}

/// A few right records, and the wrong one first, last or between.
fn among(random: &mut Random, wrong: Record) -> Run {
    let mut records = accepted(random);
    records.truncate(random.pick(&[0, 1, 2, 5, 12]));
    let place = random.below(records.len() + 1);
    let place = random.pick(&[0, place, records.len()]);
    records.insert(place, wrong);
    run(random, encode(&records))
}

/// Bytes past the most: right records, then more of anything.
fn too_long(random: &mut Random) -> Run {
    let mut bytes = encode(&vec![access(16, 0, 0); 128]);
    let more = random.pick(&[1, 1, 2, 17, 18, 19, 36, 200]);
    bytes.extend((0..more).map(|_| random.byte()));
    if random.one_in(2) {
        let wrong = 18 * random.below(128);
        bytes[wrong] = random.byte();
    }
    run(random, bytes)
}

fn uneven(random: &mut Random) -> Run {
    let mut records = accepted(random);
    records.truncate(random.range(0, 12));
    let mut bytes = encode(&records);
    let more = random.range(1, 17);
    bytes.extend((0..more).map(|_| random.byte()));
    run(random, bytes)
}

fn wrong_kind(random: &mut Random) -> Run {
    let kind = random.pick(&[0, 0, 4, 4, 5, 16, 127, 128, 129, 130, 131, 254, 255]);
    let right = random.pick(&[access(20, 1, 2), disclosure(3, 1), weight(4, 2)]);
    among(random, Record { kind, ..right })
}

fn wrong_head(random: &mut Random, kind: u8) -> Run {
    let wrong = match kind {
        ACCESS => access(
            random.pick(&[0, 1, 14, 15, 15, 64, 64, 79, 80, 127, 128, 255]),
            1,
            2,
        ),
        DISCLOSURE => disclosure(random.pick(&[16, 16, 17, 62, 63, 64, 128, 255]), 1),
        _ => weight(random.pick(&[16, 16, 17, 62, 63, 64, 128, 255]), 1),
    };
    among(random, wrong)
}

/// Bodies that are not allowed: 63 on either side, a disclosure's derived atom, something negated in one.
fn wrong_body(random: &mut Random, way: usize) -> Run {
    let head = random.pick(&[16, 40, 62, 63]);
    let small = u64::from(random.word());
    let credential = random.below(16) as u8;
    let wrong = match way {
        0 => access(head, 1 << BREACH | small, 0),
        1 => access(head, small, 1 << BREACH),
        2 => disclosure(credential, small | 1 << random.range(16, 63)),
        _ => Record {
            negative: 1 << random.below(64),
            ..disclosure(credential, small)
        },
    };
    among(random, wrong)
}

fn any_damage(random: &mut Random) -> Run {
    let bytes = damaged(random);
    run(random, bytes)
}

/// What `weight_counts` tells of the record that is refused.
fn of_weight(place: usize, facts: &Facts) -> bool {
    let refused = crate::plain::policy::check(&facts.policy).err();
    let Some(refusal) = refused.filter(|refusal| [4, 12, 13].contains(&refusal.number)) else {
        return false;
    };
    let k = usize::from(refusal.record.unwrap_or(0));
    faults(&facts.records, refusal.number.into(), k)[place]
}

/// The classes of `weight_counts`, each with a name and its sentence.
const WEIGHTS: [(&str, Sentence); 11] = [
    ("head", KIND_THREE),
    ("sixteen", TWELVE),
    ("low-byte", TWELVE),
    ("high-bit", TWELVE),
    ("negated", TWELVE),
    ("and-second", TWELVE),
    ("second-equal", THIRTEEN),
    ("second-other", THIRTEEN),
    ("second-next", THIRTEEN),
    ("second-far", THIRTEEN),
    ("second-before-kind", THIRTEEN),
];

fn weight_shapes() -> Vec<Shape> {
    let shape = |(place, (name, tests)): (usize, &(&str, Sentence))| {
        Shape::new(
            format!("weight-refused-{name}"),
            *tests,
            20,
            any_damage,
            move |facts| of_weight(place, facts),
        )
    };
    WEIGHTS.iter().enumerate().map(shape).collect()
}

fn by(number: u8) -> impl Fn(&Facts) -> bool + Send + Sync + 'static {
    move |facts| facts.refused == number
}

pub fn shapes() -> Vec<Shape> {
    let head = |name: &str, kind: u8| {
        let draw = move |random: &mut Random| wrong_head(random, kind);
        Shape::new(format!("refused-4-{name}"), FOUR, 20, draw, by(4))
    };
    let body = |name: &str, way: usize| {
        let draw = move |random: &mut Random| wrong_body(random, way);
        Shape::new(format!("refused-5-{name}"), FIVE, 20, draw, by(5))
    };
    let mut shapes = vec![
        Shape::new("refused-1", ONE, 20, too_long, by(1)).of_any_length(),
        Shape::new("refused-2", TWO, 20, uneven, by(2)),
        Shape::new("refused-3", THREE, 20, wrong_kind, by(3)),
        head("access", ACCESS),
        head("disclosure", DISCLOSURE),
        head("weight", WEIGHT),
        body("breach-held", 0),
        body("breach-negated", 1),
        body("disclosure-derived", 2),
        body("disclosure-negated", 3),
    ];
    shapes.extend(weight_shapes());
    shapes
}
