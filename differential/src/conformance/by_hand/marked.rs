//! The marked cases (a) to (j), as far as a session shows them.

use super::draft::{bytes, first_round, written};
use super::{POLICY_A, POLICY_B};
use crate::conformance::case::{request, scope, Case};

/// Policy A, byte by byte.
pub const BYTES_OF_A: [[u8; 18]; 6] = [
    [1, 16, 3, 0, 0, 0, 0, 0, 0, 0, 0, 0, 0, 0, 0, 0, 0, 0],
    [1, 16, 4, 0, 0, 0, 0, 0, 0, 0, 8, 0, 0, 0, 0, 0, 0, 0],
    [1, 63, 5, 0, 0, 0, 0, 0, 0, 0, 0, 0, 0, 0, 0, 0, 0, 0],
    [2, 0, 0, 0, 0, 0, 0, 0, 0, 0, 0, 0, 0, 0, 0, 0, 0, 0],
    [2, 1, 1, 0, 0, 0, 0, 0, 0, 0, 0, 0, 0, 0, 0, 0, 0, 0],
    [2, 2, 0, 0, 0, 0, 0, 0, 0, 0, 0, 0, 0, 0, 0, 0, 0, 0],
];

pub fn cases() -> Vec<Case> {
    [a_to_c(), d_and_e(), f_and_g(), h_and_i(), j()].concat()
}

fn a_to_c() -> Vec<Case> {
    let a = scope("(a) the three rounds above");
    let b = scope("(b) empty policy, request 16: deny in round 1");
    let c = scope("(c) 16 with empty body: grant in round 1 with nothing shown");
    vec![
        bytes("marked-a", a, &BYTES_OF_A.concat())
            .reads(&[0x10, 0, 0, 0, 0, 0, 3, 0])
            .prints(&[
                "round 1 got 0000 ask 0004",
                "round 2 got 0000 ask 0003",
                "round 3 got 0003 grant",
            ]),
        bytes("marked-b", b, &[])
            .plays(16, &[0x0000])
            .prints(&["round 1 got 0000 deny"]),
        first_round("marked-c", c, "16 always").prints(&["round 1 got 0000 grant"]),
    ]
}

/// Beside 0 and 2 only 1 is left to ask for, and the breach stays; beside 2 and 3 a question with 0 is a breach.
fn d_and_e() -> Vec<Case> {
    let d = scope("(d) policy A, P = {0, 2}: 63 in the model, no grant");
    let e = scope("(e) P = {2, 3}: 16 not in the model");
    vec![
        written("marked-d", d, POLICY_A)
            .plays(16, &[0x0005])
            .prints(&["round 1 got 0005 deny"]),
        written("marked-e", e, POLICY_A)
            .plays(16, &[0x000c])
            .prints(&["round 1 got 000c deny"]),
        // 3 alone spoils the way by 2, and not the one by 0 and 1
        written("marked-e-three-first", e, POLICY_A)
            .plays(16, &[0x0008, 0x0003])
            .prints(&["round 1 got 0008 ask 0003", "round 2 got 0003 grant"]),
    ]
}

fn f_and_g() -> Vec<Case> {
    let f = request("Case (f) is now accepted");
    let g = scope("(g) 24 if not 23: accepted");
    vec![
        written("marked-f", f, "17 if not 24")
            .plays(17, &[0x0000])
            .prints(&["round 1 got 0000 grant"]),
        written("marked-f-24-held", f, "17 if not 24; 24 if 0")
            .plays(17, &[0x0001])
            .prints(&["round 1 got 0001 deny"]),
        written("marked-g", g, "24 if not 23")
            .plays(24, &[0x0000])
            .prints(&["round 1 got 0000 grant"]),
    ]
}

fn h_and_i() -> Vec<Case> {
    let h = scope("(h) 16 if 23: accepted");
    let i = scope("(i) 63 if not 62: accepted");
    let asked = "63 if not 62; 16 always; 62 if 0; disclosure 0 always";
    vec![
        written("marked-h", h, "16 if 23; 23 if 0")
            .plays(16, &[0x0001])
            .prints(&["round 1 got 0001 grant"]),
        // 0 is asked for, to keep the breach away
        written("marked-i", i, asked)
            .plays(16, &[0x0000, 0x0001])
            .prints(&["round 1 got 0000 ask 0001", "round 2 got 0001 grant"]),
    ]
}

/// After 0 both 2 and 2 with 3 are a breach, and 1 was declined.
fn j() -> Vec<Case> {
    let j = scope(
        "a holder of {0, 2, 3} who opens with nothing is asked 0003, shows 0001 and is denied",
    );
    vec![written("marked-j", j, POLICY_B)
        .plays(16, &[0x0000, 0x0001, 0x000c])
        .prints(&[
            "round 1 got 0000 ask 0003",
            "round 2 got 0001 deny",
            "refused 9",
        ])]
}
