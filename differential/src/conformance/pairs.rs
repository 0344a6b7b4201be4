//! Every two faults of a policy in each order, and faults that share a record.

use super::case::{request, scope, Case, File, Run, Sentence};
use super::pack::bench_case as case;
use crate::plain::policy::Record;
use crate::policies::{access, disclosure, encode, weight};

const ORDER: Sentence = scope(
    "Only the first that applies is given, in number order, save that records are tested in turn",
);
const LEVELS: Sentence = request(
    "and is given exactly then, after all records passed the rest, with the count of records as its number",
);
const FIRST: Sentence =
    scope("A refused policy or request ends the output, the policy being tested first");
/// The faults that records have.
const NUMBERS: [u8; 6] = [3, 4, 5, 6, 12, 13];

/// A record, or two of one credential, with just this fault.
fn faulty(number: u8) -> Vec<Record> {
    let kind = |kind: u8| Record {
        kind,
        ..access(20, 1, 0)
    };
    match number {
        3 => vec![kind(4)],
        4 => vec![access(15, 1, 0)],
        5 => vec![disclosure(3, 1 << 16)],
        6 => vec![access(17, 0, 1 << 17)],
        12 => vec![weight(5, 16)],
        _ => vec![weight(6, 2), weight(6, 2)],
    }
}

/// Right records, no two alike.
fn right(count: u8) -> Vec<Record> {
    (0..count).map(|k| access(20 + k, 1 << k, 0)).collect()
}

/// One fault, so many right records, the other, and so many.
fn apart(first: u8, between: u8, second: u8, last: u8) -> Vec<Record> {
    let (one, mut other) = (faulty(first), faulty(second));
    if first == 13 && second == 13 {
        other.iter_mut().for_each(|record| record.head = 7);
    }
    let mut records = one;
    records.extend(right(between));
    records.extend(other);
    records.extend(right(last));
    records
}

fn sentence(first: u8, second: u8) -> Sentence {
    match (first, second) {
        (6, _) | (_, 6) => LEVELS,
        _ => ORDER,
    }
}

/// Every two that records have, next to each other and apart.
fn of_records() -> Vec<Case> {
    let mut cases = Vec::new();
    for first in NUMBERS {
        for second in NUMBERS {
            for (between, last, place) in [(0, 0, "next"), (5, 3, "apart")] {
                let records = apart(first, between, second, last);
                let name = format!("pair-{first:02}-{second:02}-{place}");
                let run = Run::of(&records, 16, &[1]);
                cases.push(case(name, sentence(first, second), run));
            }
        }
    }
    cases
}

/// A file that is too long, or uneven, with each other fault in its first record or its last whole one.
fn of_length() -> Vec<Case> {
    let mut cases = Vec::new();
    for (number, count, more) in [(1, 128, 1), (1, 128, 18), (2, 4, 1), (2, 4, 17)] {
        for other in NUMBERS {
            for at_end in [false, true] {
                let mut records = vec![access(16, 0, 0); count];
                let wrong = faulty(other);
                let place = if at_end { count - wrong.len() } else { 0 };
                records.splice(place..place + wrong.len(), wrong);
                let mut bytes = encode(&records);
                bytes.extend(vec![1; more]);
                let end = if at_end { "last" } else { "first" };
                let name = format!("pair-{number:02}-{other:02}-{more}-{end}");
                let run = Run {
                    file: File::Bytes(bytes),
                    input: vec![16, 0, 1, 0],
                };
                cases.push(case(name, ORDER, run));
            }
        }
    }
    cases
}

/// Each refused policy with a request that is refused too.
fn of_requests() -> Vec<Case> {
    let mut cases = Vec::new();
    for request in [15u16, 63, 272] {
        for number in NUMBERS {
            let run = Run::of(&faulty(number), request, &[1]);
            let name = format!("pair-{number:02}-07-{request}");
            cases.push(case(name, FIRST, run));
        }
        for (number, bytes) in [(1, 2305), (2, 17)] {
            let file = File::Bytes(vec![1; bytes]);
            let run = Run {
                file,
                ..Run::of(&[], request, &[1])
            };
            let name = format!("pair-{number:02}-07-{request}");
            cases.push(case(name, FIRST, run));
        }
    }
    cases
}

/// Two faults of one record, by name; the record of a second weight stands after the first.
fn shared() -> Vec<(&'static str, Vec<Record>)> {
    let negated = |record: Record, negative: u64| Record { negative, ..record };
    let of_kind = |kind: u8, record: Record| Record { kind, ..record };
    vec![
        ("03-04", vec![of_kind(4, access(15, 0, 0))]),
        ("03-05", vec![of_kind(0, access(20, 1 << 63, 0))]),
        ("03-12", vec![of_kind(4, weight(1, 16))]),
        ("03-06", vec![of_kind(0, access(20, 0, 1 << 20))]),
        ("04-05-access", vec![access(15, 1 << 63, 0)]),
        ("04-05-disclosure", vec![disclosure(16, 1 << 16)]),
        (
            "04-05-disclosure-negated",
            vec![negated(disclosure(63, 0), 1)],
        ),
        ("04-06", vec![access(64, 0, 1)]),
        ("04-12", vec![weight(16, 16)]),
        ("04-12-negated", vec![negated(weight(16, 1), 1)]),
        ("04-13", vec![weight(15, 1), weight(31, 1), weight(31, 1)]),
        ("05-06", vec![access(17, 0, 1 << 17 | 1 << 63)]),
        ("05-06-two-sided", vec![access(17, 1 << 63, 1 << 17)]),
        ("12-13", vec![weight(2, 1), weight(2, 16)]),
        (
            "12-13-negated",
            vec![weight(2, 1), negated(weight(2, 1), 1)],
        ),
        ("12-12", vec![negated(weight(2, 16), 1)]),
    ]
}

fn of_one_record() -> Vec<Case> {
    let mut cases = Vec::new();
    for (name, records) in shared() {
        for (before, place) in [(0, "alone"), (3, "after")] {
            let mut all = right(before);
            all.extend(&records);
            let run = Run::of(&all, 16, &[1]);
            cases.push(case(format!("pair-shared-{name}-{place}"), ORDER, run));
        }
    }
    cases
}

pub fn pairs() -> Vec<Case> {
    [of_records(), of_length(), of_requests(), of_one_record()].concat()
}
