//! The policy file: missing, empty, or holding what nobody tests.

use super::draft::{bytes, stored};
use crate::conformance::case::{scope, Case, File};

pub fn cases() -> Vec<Case> {
    [missing(), untested()].concat()
}

fn missing() -> Vec<Case> {
    let missing = scope("a missing policy file counts as empty");
    vec![
        stored("file-missing", missing, File::Missing)
            .plays(16, &[0x0000])
            .prints(&["round 1 got 0000 deny"]),
        stored("file-missing-all-shown", missing, File::Missing)
            .plays(62, &[0xffff, 0x0000])
            .prints(&["round 1 got ffff deny", "refused 9"]),
        bytes("file-empty", missing, &[])
            .plays(62, &[0xffff, 0x0000])
            .prints(&["round 1 got ffff deny", "refused 9"]),
    ]
}

/// Policies that would be refused, and no request.
fn untested() -> Vec<Case> {
    let untested = scope("No request record: no output, policy untested.");
    vec![
        bytes("file-untested", untested, &[0; 2305])
            .reads(&[])
            .prints(&[]),
        bytes("file-untested-one-byte", untested, &[0; 18])
            .reads(&[0x10])
            .prints(&[]),
    ]
}
