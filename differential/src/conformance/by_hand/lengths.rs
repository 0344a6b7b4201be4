//! Lengths of the policy file: 1 and 2 on both sides of each edge.

use super::draft::{bytes, Draft};
use super::words::policy;
use crate::conformance::case::{scope, Case, Sentence};
use crate::policies::encode;

pub fn cases() -> Vec<Case> {
    [whole(), broken(), too_long(), longer()].concat()
}

/// So many bytes of records that are all "20 always", request 20, and a round that shows nothing.
fn sized(name: &'static str, tests: Sentence, length: usize) -> Draft {
    let records = encode(&policy("20 always")).repeat(256);
    bytes(name, tests, &records[..length]).plays(20, &[0x0000])
}

fn whole() -> Vec<Case> {
    let whole = scope("A policy is 0 to 128 records of 18 bytes, no header");
    vec![
        sized("length-0", whole, 0).prints(&["round 1 got 0000 deny"]),
        sized("length-18", whole, 18).prints(&["round 1 got 0000 grant"]),
        sized("length-2304", whole, 2304).prints(&["round 1 got 0000 grant"]),
    ]
}

/// 127 records have 2,286 bytes.
fn broken() -> Vec<Case> {
    let broken = scope("2: length not a multiple of 18; number of whole records.");
    vec![
        sized("length-17", broken, 17).prints(&["refused 2 at 0"]),
        sized("length-19", broken, 19).prints(&["refused 2 at 1"]),
        sized("length-2303", broken, 2303).prints(&["refused 2 at 127"]),
    ]
}

fn too_long() -> Vec<Case> {
    let too_long = scope("1: more than 2,304 bytes; record number 128.");
    vec![
        sized("length-2305", too_long, 2305).prints(&["refused 1 at 128"]),
        sized("length-2306", too_long, 2306).prints(&["refused 1 at 128"]),
    ]
}

/// 2,322 and 4,608 bytes are 129 and 256 whole records.
fn longer() -> Vec<Case> {
    let read = scope("It reads the file policy.bin (at most 2,305 bytes of it)");
    vec![
        sized("length-2322", read, 2322).prints(&["refused 1 at 128"]),
        sized("length-4608", read, 4608).prints(&["refused 1 at 128"]),
    ]
}
