//! What cases by hand are made of: records of five bytes, each with the line that it has to print.

use crate::conformance::case::{Case, File, Run, Sentence};
use crate::plain::policy::Record;
use crate::policies::{access, disclosure, encode};

/// So many steps: a record, and its line.
pub type Steps<const N: usize> = [([u8; 5], &'static str); N];

fn record(operation: u8, slot: u8, owner: u8, word: u16) -> [u8; 5] {
    let [low, high] = word.to_le_bytes();
    [operation, slot, owner, low, high]
}

pub fn open(slot: u8, owner: u8, request: u16) -> [u8; 5] {
    record(1, slot, owner, request)
}

pub fn round(slot: u8, p: u16) -> [u8; 5] {
    record(2, slot, 0, p)
}

/// A round with an owner in its record, which is not looked at.
pub fn round_by(owner: u8, slot: u8, p: u16) -> [u8; 5] {
    record(2, slot, owner, p)
}

pub fn preview(slot: u8, p: u16) -> [u8; 5] {
    record(3, slot, 0, p)
}

/// A preview with an owner in its record, which is not looked at.
pub fn preview_by(owner: u8, slot: u8, p: u16) -> [u8; 5] {
    record(3, slot, owner, p)
}

/// Two services, 16 if 0 and 17 if 1; both credentials disclosed always.
pub fn two_services() -> Vec<u8> {
    encode(&[
        access(16, 0b1, 0),
        access(17, 0b10, 0),
        disclosure(0, 0),
        disclosure(1, 0),
    ])
}

/// 16 by any one of so many credentials, each disclosed always.
pub fn any_of(credentials: u8) -> Vec<u8> {
    let ways = (0..credentials).map(|k| access(16, 1 << k, 0));
    let rules: Vec<Record> = ways
        .chain((0..credentials).map(|k| disclosure(k, 0)))
        .collect();
    encode(&rules)
}

/// A case whose steps are given, each a record and its line; the line of a record that is passed over is empty.
pub fn by_hand<L: AsRef<str>>(
    name: &str,
    tests: Sentence,
    policy: Vec<u8>,
    steps: &[([u8; 5], L)],
) -> Case {
    let lines = steps.iter().map(|(_, line)| line.as_ref());
    let printed = lines.filter(|line| !line.is_empty());
    Case {
        name: format!("station-{name}"),
        tests,
        run: Run {
            file: File::Bytes(policy),
            input: steps.iter().flat_map(|(record, _)| *record).collect(),
        },
        prints: printed.map(|line| format!("{line}\n")).collect(),
    }
}
