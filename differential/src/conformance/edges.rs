//! One record, or the request, with every value that decides: kinds, heads, body atoms, weights, lengths, requests.

use super::case::{request, scope, Case, File, Run, Sentence};
use super::pack::bench_case;
use crate::plain::policy::Record;
use crate::policies::{access, disclosure, encode, weight};

const KINDS: Sentence = scope("3: kind neither 1 nor 2.");
const KIND_THREE: Sentence = request("Kind 3 passes 3, has heads 0 to 15 by 4");
const HEADS: Sentence = scope("4: head not allowed for the kind.");
const BODIES: Sentence = scope("5: body atom not allowed for the kind.");
const WEIGHTS: Sentence = request("12, weight above 15 or negated set not empty");
const LENGTHS: Sentence = scope("2: length not a multiple of 18; number of whole records.");
const REQUESTS: Sentence = scope("7: request outside 16 to 62, at opening or in a round.");

/// A case of one record.
fn of_record(name: String, tests: Sentence, record: Record) -> Case {
    let run = Run::of(&[record], 16, &[0]);
    bench_case(format!("edge-{name}"), tests, run)
}

fn kinds() -> Vec<Case> {
    let case = |kind: u8| {
        let tests = if kind == 3 { KIND_THREE } else { KINDS };
        // a record that each of the three kinds has an answer to
        let record = Record {
            kind,
            ..disclosure(5, 3)
        };
        of_record(format!("kind-{kind:03}"), tests, record)
    };
    (0..=255).map(case).collect()
}

/// Every head for each kind.
fn heads() -> Vec<Case> {
    let kinds = [("access", 1), ("disclosure", 2), ("weight", 3)];
    let of_kind = |(name, kind): (&'static str, u8)| {
        (0..=255).map(move |head: u8| {
            let record = Record {
                kind,
                head,
                positive: 1,
                negative: 0,
            };
            of_record(format!("head-{name}-{head:03}"), HEADS, record)
        })
    };
    kinds.into_iter().flat_map(of_kind).collect()
}

/// Every atom on each side, of an access rule and of a disclosure rule, and of a weight's two numbers.
fn bits() -> Vec<Case> {
    let negated = |record: Record, negative: u64| Record { negative, ..record };
    let of_bit = |bit: u8| {
        let set = 1u64 << bit;
        let records = [
            ("held", BODIES, access(62, set, 0)),
            ("not", BODIES, access(63, 1, set)),
            ("disclosed", BODIES, disclosure(5, set)),
            ("disclosed-not", BODIES, negated(disclosure(5, 0), set)),
            ("weighs", WEIGHTS, weight(5, set)),
            ("weighs-not", WEIGHTS, negated(weight(5, 1), set)),
        ];
        records.map(|(name, tests, record)| of_record(format!("{name}-{bit:02}"), tests, record))
    };
    (0..64).flat_map(of_bit).collect()
}

/// Every weight of one byte.
fn weights() -> Vec<Case> {
    let case = |number: u64| of_record(format!("weight-{number:03}"), WEIGHTS, weight(5, number));
    (0..=255).map(case).collect()
}

/// Every length up to four records: whole ones, or so many bytes more.
fn lengths() -> Vec<Case> {
    let bytes = encode(&vec![access(16, 0, 0); 4]);
    let case = |length: usize| {
        let run = Run {
            file: File::Bytes(bytes[..length].to_vec()),
            ..Run::of(&[], 16, &[0])
        };
        bench_case(format!("edge-length-{length:02}"), LENGTHS, run)
    };
    (0..=72).map(case).collect()
}

/// Every request of one byte, and those with a bit more.
fn requests() -> Vec<Case> {
    let more = (8..16).flat_map(|bit| [15, 16, 40, 62, 63].map(|low| low | 1u16 << bit));
    let case = |request: u16| {
        let rules: Vec<Record> = (16..=62).map(|head| access(head, 0, 0)).collect();
        let near = rules
            .into_iter()
            .filter(|r| u16::from(r.head) == request & 0x3f);
        let run = Run::of(&near.collect::<Vec<Record>>(), request, &[0]);
        bench_case(format!("edge-request-{request:05}"), REQUESTS, run)
    };
    (0..=255).chain(more).map(case).collect()
}

pub fn edges() -> Vec<Case> {
    [kinds(), heads(), bits(), weights(), lengths(), requests()].concat()
}
