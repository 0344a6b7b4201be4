//! The input and the policy file, by hand: records that are passed over, an incomplete one, bytes in their order, and files that
//! are missing or refused.

use super::sentences::{FILE, FOUR, LITTLE_ENDIAN, ODD, OPENING_TESTS, READ, SIX, WHOLE};
use super::steps::{by_hand, open, preview, round};
use crate::conformance::case::{Case, File};
use crate::marked::policy_a;
use crate::policies::{access, disclosure, encode, weight};

/// Records that begin with 0, 4 and 255 open nothing, play nothing and print nothing.
fn passed_over() -> Case {
    let steps = [
        ([0, 0, 7, 16, 0], ""),
        ([4, 1, 7, 16, 0], ""),
        ([255, 2, 7, 16, 0], ""),
        (open(3, 7, 16), "3 opened"),
        ([0, 3, 0, 4, 0], ""),
        ([4, 3, 0, 4, 0], ""),
        ([255, 3, 0, 4, 0], ""),
        (round(3, 0), "3 round 1 got 0000 ask 0004"),
        ([129, 4, 7, 16, 0], ""),
        ([130, 3, 7, 4, 0], ""),
        (open(0, 7, 16), "0 opened"),
        (open(1, 7, 16), "1 opened"),
        (open(2, 7, 16), "2 opened"),
        (open(4, 7, 16), "4 refused 16"),
        ([49, 3, 0, 4, 0], ""),
        ([50, 3, 0, 4, 0], ""),
        (round(3, 0), "3 round 2 got 0000 ask 0003"),
    ];
    by_hand("records-passed-over", FOUR, policy_a(), &steps)
}

/// Nothing but such records: no line at all.
fn nothing() -> Case {
    let steps = [
        ([0, 1, 2, 1, 2], ""),
        ([4, 3, 2, 1, 0], ""),
        ([255, 255, 255, 255, 255], ""),
        ([0, 0, 0, 0, 0], ""),
    ];
    by_hand("only-records-passed-over", FOUR, policy_a(), &steps)
}

/// The first bytes of an opening, a round or a preview at the end.
fn incomplete(name: &str, left: &[u8]) -> Case {
    let steps = [
        (open(1, 1, 16), "1 opened"),
        (round(1, 0), "1 round 1 got 0000 ask 0004"),
        (preview(1, 4), "1 preview round 2 got 0004 grant"),
    ];
    let mut case = by_hand(name, ODD, policy_a(), &steps);
    case.run.input.extend(left);
    case
}

/// Two bytes of a request and of a shown set, the lower one first.
fn bytes() -> Case {
    let steps = [
        ([1, 5, 1, 0, 16], "5 refused 7"),
        ([1, 5, 1, 16, 0], "5 opened"),
        ([2, 5, 0, 1, 0], "5 round 1 got 0001 ask 0200"),
        ([3, 5, 0, 0, 2], "5 preview round 2 got 0200 grant"),
        ([3, 5, 0, 2, 0], "5 preview round 2 got 0002 deny"),
        ([2, 5, 0, 0, 2], "5 round 2 got 0200 grant"),
    ];
    let policy = encode(&[access(16, 0x0201, 0), disclosure(0, 0), disclosure(9, 0)]);
    by_hand("lower-byte-first", LITTLE_ENDIAN, policy, &steps)
}

/// Under no policy all is denied, and slots are taken as ever.
fn missing() -> Case {
    let steps = [
        (open(2, 1, 16), "2 opened"),
        (preview(2, 0xffff), "2 preview round 1 got ffff deny"),
        (round(2, 0), "2 round 1 got 0000 deny"),
        (round(2, 0), "2 refused 9"),
        (round(3, 0), "3 refused 8"),
        (round(64, 0), "64 refused 14"),
        (open(2, 2, 62), "2 opened"),
        (round(2, 0xffff), "2 round 1 got ffff deny"),
    ];
    let mut case = by_hand("policy-missing", FILE, Vec::new(), &steps);
    case.run.file = File::Missing;
    case
}

/// An empty file is a policy of no records.
fn empty() -> Case {
    let steps = [
        (open(2, 1, 16), "2 opened"),
        (round(2, 0), "2 round 1 got 0000 deny"),
        (open(2, 1, 16), "2 opened"),
    ];
    by_hand("policy-empty", FILE, Vec::new(), &steps)
}

/// Openings go on under a refused policy, all their refusals too; every round has the policy's refusal and ends nothing.
fn refused() -> Case {
    let steps = [
        (open(0, 1, 16), "0 opened"),
        (round(0, 0), "0 refused 13 at 2"),
        (round(0, 1), "0 refused 13 at 2"),
        (open(0, 1, 16), "0 refused 15"),
        (open(1, 1, 15), "1 refused 7"),
        (open(64, 1, 16), "64 refused 14"),
        (round(64, 1), "64 refused 13 at 2"),
        (open(1, 1, 16), "1 opened"),
        (open(2, 1, 16), "2 opened"),
        (open(3, 1, 16), "3 opened"),
        (open(4, 1, 16), "4 refused 16"),
        (round(4, 1), "4 refused 13 at 2"),
        (preview(3, 1), "3 preview refused 13 at 2"),
        (open(4, 2, 16), "4 opened"),
    ];
    let policy = encode(&[access(16, 1, 0), weight(0, 5), weight(0, 5)]);
    by_hand("policy-refused", OPENING_TESTS, policy, &steps)
}

/// 6 has the count of records as its number.
fn refused_six() -> Case {
    let steps = [
        (open(0, 1, 16), "0 opened"),
        (round(0, 0), "0 refused 6 at 3"),
        (preview(0, 0), "0 preview refused 6 at 3"),
        (round(1, 0), "1 refused 6 at 3"),
    ];
    let policy = encode(&[
        access(17, 0, 1 << 18),
        access(18, 1 << 17, 0),
        access(16, 0, 0),
    ]);
    by_hand("policy-refused-6", SIX, policy, &steps)
}

/// A file of one record and a byte more.
fn odd_length() -> Case {
    let steps = [
        (round(0, 0), "0 refused 2 at 1"),
        (open(0, 1, 16), "0 opened"),
        (round(0, 0), "0 refused 2 at 1"),
        (preview(0, 0), "0 preview refused 2 at 1"),
        (open(0, 1, 16), "0 refused 15"),
    ];
    let mut policy = encode(&[access(16, 0, 0)]);
    policy.push(1);
    by_hand("policy-of-19-bytes", WHOLE, policy, &steps)
}

/// A file of 2,305 bytes, all of which are read.
fn too_long() -> Case {
    let steps = [
        (open(0, 1, 16), "0 opened"),
        (round(0, 0), "0 refused 1 at 128"),
        (preview(64, 0), "64 preview refused 1 at 128"),
        (open(0, 2, 16), "0 refused 15"),
    ];
    let mut policy = encode(&[access(16, 0, 0)]).repeat(128);
    policy.push(1);
    by_hand("policy-of-2305-bytes", READ, policy, &steps)
}

pub fn cases() -> Vec<Case> {
    vec![
        passed_over(),
        nothing(),
        incomplete("one-byte-left", &[1]),
        incomplete("two-bytes-left", &[2, 1]),
        incomplete("three-bytes-left", &[3, 1, 0]),
        incomplete("four-bytes-left", &[2, 1, 0, 4]),
        bytes(),
        missing(),
        empty(),
        refused(),
        refused_six(),
        odd_length(),
        too_long(),
    ]
}
