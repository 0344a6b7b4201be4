//! The input, byte by byte.

use super::draft::written;
use super::POLICY_A;
use crate::conformance::case::{scope, Case};

pub fn cases() -> Vec<Case> {
    [short(), alone(), odd(), little_endian()].concat()
}

fn short() -> Vec<Case> {
    let none = scope("No request record: no output, policy untested.");
    vec![
        written("input-none", none, POLICY_A).reads(&[]).prints(&[]),
        written("input-one-byte", none, POLICY_A)
            .reads(&[0x10])
            .prints(&[]),
    ]
}

/// A request and no round: policy and request are tested, and only rounds have lines.
fn alone() -> Vec<Case> {
    let line = scope("It prints a line a round");
    let ends = scope("A refused policy or request ends the output, the policy being tested first");
    vec![
        written("input-request-alone", line, POLICY_A)
            .reads(&[0x10, 0x00])
            .prints(&[]),
        written("input-request-alone-policy-refused", ends, "15 always")
            .reads(&[0x10, 0x00])
            .prints(&["refused 4 at 0"]),
        written("input-request-alone-refused", ends, POLICY_A)
            .reads(&[0x0f, 0x00])
            .prints(&["refused 7"]),
    ]
}

fn odd() -> Vec<Case> {
    let odd = scope("A last odd byte counts for nothing");
    vec![
        written("input-odd-after-request", odd, POLICY_A)
            .reads(&[0x10, 0x00, 0x04])
            .prints(&[]),
        written("input-odd-after-round", odd, POLICY_A)
            .reads(&[0x10, 0x00, 0x00, 0x00, 0x04])
            .prints(&["round 1 got 0000 ask 0004"]),
        written("input-odd-after-closing", odd, POLICY_A)
            .reads(&[0x10, 0x00, 0x04, 0x00, 0x00])
            .prints(&["round 1 got 0004 grant"]),
    ]
}

fn little_endian() -> Vec<Case> {
    let records =
        scope("2-byte little-endian records: first the request, then one shown set a round");
    let by_8 = "16 if 8; disclosure 8 always";
    vec![
        written("input-low-byte-first", records, by_8)
            .reads(&[0x10, 0x00, 0x01, 0x00, 0x00, 0x01])
            .prints(&["round 1 got 0001 ask 0100", "round 2 got 0100 grant"]),
        // the number 4096, not 16
        written("input-request-high-byte", records, "16 always")
            .reads(&[0x00, 0x10, 0x00, 0x00])
            .prints(&["refused 7"]),
        // the end of a line is two bytes like any others
        written("input-line-end", records, "16 if 1, 3, 8, 10, 11")
            .reads(&[0x10, 0x00, 0x0a, 0x0d])
            .prints(&["round 1 got 0d0a grant"]),
    ]
}
