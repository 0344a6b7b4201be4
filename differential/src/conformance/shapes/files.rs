//! Policy files of every size, and inputs that end anywhere.

use super::play::any_session;
use super::Shape;
use crate::conformance::case::{scope, File, Run, Sentence};
use crate::conformance::facts::Facts;
use crate::damage::damaged;
use crate::plain::bench::output;
use crate::plain::policy::Record;
use crate::policies::{accepted, access, encode, talkative};
use crate::random::Random;

const RECORDS: Sentence = scope(
    "A policy is 0 to 128 records of 18 bytes, no header; record k is the part that begins at byte 18 times k.",
);
const MISSING: Sentence = scope("a missing policy file counts as empty");
const ODD: Sentence =
    scope("A last odd byte counts for nothing, and a missing policy file counts as empty.");
const NONE: Sentence = scope("No request record: no output, policy untested.");
const READ: Sentence = scope("It reads the file policy.bin (at most 2,305 bytes of it)");
const TWICE: Sentence = scope("The same record may come twice.");

/// A record that changes nothing: it never applies.
const IDLE: Record = Record {
    kind: 1,
    head: 61,
    positive: 1,
    negative: 1,
};

/// A session under a policy of just so many records, its own ones anywhere or at the end.
fn of_records(random: &mut Random, count: usize) -> Run {
    let mut records = talkative(random);
    records.truncate(count);
    let more = vec![IDLE; count - records.len()];
    match random.below(3) {
        0 => records = [more, records].concat(),
        1 => records.extend(more),
        _ => {
            let place = random.below(records.len() + 1);
            records.splice(place..place, more);
        }
    }
    any_session(random, &records)
}

/// Whether what is printed is another thing without the last record.
fn last_matters(facts: &Facts, input: &[u8]) -> bool {
    let policy = &facts.policy;
    output(Some(policy), input) != output(Some(&policy[..policy.len() - 18]), input)
}

/// A full policy whose last record decides.
fn last(random: &mut Random) -> Run {
    loop {
        let run = of_records(random, 128);
        let facts = Facts::new(&run);
        if facts.policy.len() == 2304 && last_matters(&facts, &run.input) {
            return run;
        }
    }
}

fn missing(random: &mut Random) -> Run {
    let request = random.pick(&[15, 16, 16, 40, 62, 63]);
    let rounds = random.range(0, 3);
    let shown: Vec<u16> = (0..rounds).map(|_| random.word()).collect();
    Run {
        file: File::Missing,
        ..Run::of(&[], request, &shown)
    }
}

/// A session, and one byte more.
fn odd(random: &mut Random) -> Run {
    let records = talkative(random);
    let mut run = any_session(random, &records);
    run.input.push(random.byte());
    run
}

/// No input, or one byte.
fn no_request(random: &mut Random) -> Run {
    let file = match random.below(3) {
        0 => File::Missing,
        1 => File::Bytes(encode(&accepted(random))),
        _ => File::Bytes(damaged(random)),
    };
    let byte = random.byte();
    let input = [byte];
    Run {
        file,
        input: input[..random.below(2)].to_vec(),
    }
}

/// More bytes than are read.
fn long(random: &mut Random) -> Run {
    let mut bytes = encode(&vec![access(16, 0, 0); 128]);
    let more = random.pick(&[1, 1, 1, 18, 36]);
    bytes.extend(
        encode(&[access(16, 0, 0), access(16, 0, 0)])
            .into_iter()
            .take(more),
    );
    Run {
        file: File::Bytes(bytes),
        input: vec![16, 0, random.byte(), 0],
    }
}

/// Records that come twice.
fn twice(random: &mut Random) -> Run {
    let mut records = talkative(random);
    records.retain(|record| record.kind != 3);
    for _ in 0..random.range(1, 4) {
        if let Some(again) = (!records.is_empty()).then(|| random.pick(&records)) {
            records.insert(random.below(records.len() + 1), again);
        }
    }
    any_session(random, &records)
}

fn repeated(facts: &Facts) -> bool {
    let places = facts.records.iter().enumerate();
    let mut again = places.filter(|(k, record)| facts.records[..*k].contains(record));
    again.next().is_some() && facts.rounds.len() > 1
}

pub fn shapes() -> Vec<Shape> {
    let of_count = |count: usize| {
        Shape::new(
            format!("records-{count:03}"),
            RECORDS,
            20,
            move |random| of_records(random, count),
            move |facts| facts.refused == 0 && facts.records.len() == count,
        )
        .of_any_length()
    };
    let mut shapes: Vec<Shape> = [0, 1, 127, 128].into_iter().map(of_count).collect();
    shapes.extend([
        Shape::new("records-last-decides", RECORDS, 20, last, |_| true).of_any_length(),
        Shape::new("records-twice", TWICE, 20, twice, repeated),
        Shape::new("file-missing", MISSING, 20, missing, |_| true),
        Shape::new("file-long", READ, 20, long, |facts| {
            facts.policy.len() == 2305
        })
        .of_any_length(),
        Shape::new("input-odd", ODD, 20, odd, |facts| !facts.rounds.is_empty()),
        Shape::new("input-none", NONE, 20, no_request, |facts| {
            facts.refused == 0
        }),
        Shape::new("input-none-refused", NONE, 20, no_request, |facts| {
            facts.refused != 0
        }),
    ]);
    shapes
}
