//! Kinds of records: 3 on both sides of each edge.

use super::draft::{bytes, Draft};
use super::words::policy;
use crate::conformance::case::{request, scope, Case, Sentence};
use crate::policies::encode;

/// By 5, 6 or 7, of which 6 and 7 may be asked for.
const THREE_WAYS: &str = "30 if 5; 30 if 6; 30 if 7; disclosure 6, 7 always";

pub fn cases() -> Vec<Case> {
    [passed(), refused()].concat()
}

/// A record of this kind and head whose other bytes are 0, then the three ways; request 30, and a round that shows nothing.
fn blank(name: &'static str, tests: Sentence, kind: u8, head: u8) -> Draft {
    let mut file = vec![0; 18];
    file[..2].copy_from_slice(&[kind, head]);
    file.extend(encode(&policy(THREE_WAYS)));
    bytes(name, tests, &file).plays(30, &[0x0000])
}

/// Nothing is needed any more, 5 may be asked for too, or 7 weighs 0.
fn passed() -> Vec<Case> {
    let known = scope("Byte 0 is the kind: 1 access, 2 disclosure.");
    let third = request("Kind 3 passes 3");
    vec![
        blank("kind-1", known, 1, 30).prints(&["round 1 got 0000 grant"]),
        blank("kind-2", known, 2, 5).prints(&["round 1 got 0000 ask 0020"]),
        blank("kind-3", third, 3, 7).prints(&["round 1 got 0000 ask 0080"]),
    ]
}

fn refused() -> Vec<Case> {
    let unknown = scope("3: kind neither 1 nor 2.");
    vec![
        blank("kind-0", unknown, 0, 30).prints(&["refused 3 at 0"]),
        blank("kind-4", unknown, 4, 5).prints(&["refused 3 at 0"]),
        blank("kind-255", unknown, 255, 30).prints(&["refused 3 at 0"]),
    ]
}
