//! Numbers and sets as they are printed; the counts above nine stand with the longest sessions.

use super::draft::{bytes, first_round, written};
use super::words::policy;
use crate::conformance::case::{scope, Case};
use crate::policies::encode;

pub fn cases() -> Vec<Case> {
    [sets(), record_numbers()].concat()
}

fn sets() -> Vec<Case> {
    let digits = scope("the shown set p as four lower-case hexadecimal digits");
    let printed = scope("Atom numbers are in decimal; sets are printed in hexadecimal.");
    let odd = "16 if 1, 3, 5, 7, 9, 11, 13, 15; disclosure 0 to 15 always";
    vec![
        written("line-shown", digits, "16 if 15")
            .plays(16, &[0xabcd])
            .prints(&["round 1 got abcd grant"]),
        first_round("line-asked", printed, odd).prints(&["round 1 got 0000 ask aaaa"]),
        // 3, 7, 11 and 15 are shown, and some that are of no use
        written("line-shown-and-asked", printed, odd)
            .plays(16, &[0xcccc])
            .prints(&["round 1 got cccc ask 2222"]),
    ]
}

/// The record of zeros that is refused stands after so many others.
fn record_numbers() -> Vec<Case> {
    let decimal = scope("these and the count are decimal");
    let after = |count: usize| {
        let records = encode(&policy("16 always")).repeat(count);
        [records, vec![0; 18]].concat()
    };
    vec![
        bytes("line-record-10", decimal, &after(10))
            .plays(16, &[0x0000])
            .prints(&["refused 3 at 10"]),
        bytes("line-record-100", decimal, &after(100))
            .plays(16, &[0x0000])
            .prints(&["refused 3 at 100"]),
    ]
}
