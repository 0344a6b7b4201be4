//! Records: how their bytes are read, how many there may be, and that each one counts.

use super::draft::{bytes, first_round, written};
use super::words::policy;
use super::EITHER;
use crate::conformance::case::{scope, Case, Sentence};
use crate::policies::encode;

const RECORDS: Sentence = scope("A policy is 0 to 128 records of 18 bytes, no header");

pub fn cases() -> Vec<Case> {
    [example(), last_bytes(), last(), last_of_kinds(), twice()].concat()
}

fn example() -> Vec<Case> {
    let example = scope("hexadecimal 01 10 04, seven zeros, 08, seven zeros");
    let record = [
        0x01, 0x10, 0x04, 0, 0, 0, 0, 0, 0, 0, 0x08, 0, 0, 0, 0, 0, 0, 0,
    ];
    vec![
        bytes("record-example", example, &record)
            .plays(16, &[0x0004])
            .prints(&["round 1 got 0004 grant"]),
        bytes("record-example-not-3", example, &record)
            .plays(16, &[0x000c])
            .prints(&["round 1 got 000c deny"]),
    ]
}

/// Bytes 9 and 17: 61 must hold, must not hold.
fn last_bytes() -> Vec<Case> {
    let sets = scope(
        "Bytes 2 to 9 are the set of atoms that must hold, bytes 10 to 17 the set that must not, \
         both little-endian.",
    );
    let by_0 = encode(&policy("61 if 0"));
    let holds = [1, 16, 0, 0, 0, 0, 0, 0, 0, 0x20, 0, 0, 0, 0, 0, 0, 0, 0];
    let not = [1, 16, 0, 0, 0, 0, 0, 0, 0, 0, 0, 0, 0, 0, 0, 0, 0, 0x20];
    vec![
        bytes("record-holds-61", sets, &[&holds[..], &by_0].concat())
            .plays(16, &[0x0001])
            .prints(&["round 1 got 0001 grant"]),
        bytes("record-not-61", sets, &[&not[..], &by_0].concat())
            .plays(16, &[0x0001])
            .prints(&["round 1 got 0001 deny"]),
    ]
}

/// The last of 127 records and of 128 is the one that lets in.
fn last() -> Vec<Case> {
    let of_127 = format!("{}16 always", "17 always; ".repeat(126));
    let of_128 = format!("{}16 always", "17 always; ".repeat(127));
    vec![
        first_round("record-127-last", RECORDS, &of_127).prints(&["round 1 got 0000 grant"]),
        first_round("record-128-last", RECORDS, &of_128).prints(&["round 1 got 0000 grant"]),
    ]
}

/// The last of 128 is a breach, a disclosure rule, a weight; 17 is of no use to anybody.
fn last_of_kinds() -> Vec<Case> {
    let full = |first: &str, between: usize, last: &str| {
        format!("{first}; {}{last}", "17 always; ".repeat(between))
    };
    let breach = full("16 always", 126, "63 always");
    let disclosure = full("16 if 0", 126, "disclosure 0 always");
    let weight = full(EITHER, 123, "weight 0 is 2");
    vec![
        first_round("record-128-breach", RECORDS, &breach).prints(&["round 1 got 0000 deny"]),
        first_round("record-128-disclosure", RECORDS, &disclosure)
            .prints(&["round 1 got 0000 ask 0001"]),
        first_round("record-128-weight", RECORDS, &weight).prints(&["round 1 got 0000 ask 0002"]),
    ]
}

fn twice() -> Vec<Case> {
    let twice = scope("The same record may come twice.");
    let access = "16 if 0; disclosure 0 always; 16 if 0";
    let disclosure = "16 if 0; disclosure 0 always; disclosure 0 always";
    vec![
        written("record-twice-access", twice, access)
            .plays(16, &[0x0000, 0x0001])
            .prints(&["round 1 got 0000 ask 0001", "round 2 got 0001 grant"]),
        written("record-twice-disclosure", twice, disclosure)
            .plays(16, &[0x0000, 0x0000])
            .prints(&["round 1 got 0000 ask 0001", "round 2 got 0000 deny"]),
    ]
}
