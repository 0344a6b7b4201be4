//! Document 01's own examples ("Marked for proof, and others"), and some of weights, levels and tables: what is said of each, of
//! any version.

use crate::calls::{asked_of, ending_of, refusal_of, Call, Memory, Version, ASK, DENY, GRANT};
use crate::leveling::ring;
use crate::plain::policy::Record;
use crate::policies::{access, disclosure, encode, weight};
use crate::tables;

/// "Policy A: 16 if 0, 1; 16 if 2, not 3; 63 if 0, 2; disclosure 0 always; 1 if 0; 2 always."
pub fn policy_a() -> Vec<u8> {
    encode(&[
        access(16, 0b11, 0),
        access(16, 0b100, 0b1000),
        access(63, 0b101, 0),
        disclosure(0, 0),
        disclosure(1, 0b1),
        disclosure(2, 0),
    ])
}

/// "policy B, 16 if 0, 1; 16 if 2, 3; 63 if 0, 2; disclosure of 0 to 3 always"
pub fn policy_b() -> Vec<u8> {
    let mut records = vec![
        access(16, 0b11, 0),
        access(16, 0b1100, 0),
        access(63, 0b101, 0),
    ];
    records.extend((0..4).map(|head| disclosure(head, 0)));
    encode(&records)
}

/// 16 if 0, 1; 16 if 2; 16 if 3; disclosure of 0 to 3 always; these weights of 2 and 3.
fn weighed(weights: &[u64]) -> Vec<u8> {
    let mut records = vec![
        access(16, 0b11, 0),
        access(16, 0b100, 0),
        access(16, 0b1000, 0),
    ];
    records.extend((0..4).map(|head| disclosure(head, 0)));
    records.extend((2..).zip(weights).map(|(head, w)| weight(head, *w)));
    encode(&records)
}

/// A client that shows nothing in four rounds under these weights of 2 and 3.
fn shows_nothing(version: &mut dyn Version, weights: &[u64]) -> String {
    session(version, &weighed(weights), 16, &[0; 4])
}

fn one(record: Record) -> Vec<u8> {
    encode(&[record])
}

fn check(version: &mut dyn Version, policy: &[u8]) -> u32 {
    version.call(Call::Check, &mut policy.to_vec(), &mut Memory([0; 32]))
}

fn model(version: &mut dyn Version, policy: &[u8], credentials: u16) -> u64 {
    let mut memory = Memory([0; 32]);
    version.call(Call::Model(credentials), &mut policy.to_vec(), &mut memory);
    memory.model()
}

/// A session's answers, one word each: what is asked, how it ends, or its refusal.
fn session(version: &mut dyn Version, policy: &[u8], request: u16, shown: &[u16]) -> String {
    let mut memory = Memory([0; 32]);
    let opened = version.call(Call::Open(request), &mut [], &mut memory);
    if opened != 0 {
        return format!("refused {opened}");
    }
    let mut words = Vec::new();
    for p in shown {
        let reply = version.call(Call::Round(*p), &mut policy.to_vec(), &mut memory);
        words.push(match (refusal_of(reply), ending_of(reply)) {
            (0, GRANT) => "grant".to_string(),
            (0, DENY) => "deny".to_string(),
            (0, ASK) => format!("{:04x}", asked_of(memory.session())),
            (number, _) => format!("refused {number}"),
        });
    }
    words.join(" ")
}

/// "waiting with Q empty refused 8"
fn empty_question(version: &mut dyn Version) -> u32 {
    let mut memory = Memory([0; 32]);
    memory.set_session([16, 0, 0, 0, 0, 0, 1, 1, 0, 0]);
    version.call(Call::Round(0), &mut policy_a(), &mut memory)
}

/// Examples of weights: which are refused, and which set is asked for first.
fn weighed_examples(v: &mut dyn Version) -> Vec<(&'static str, bool)> {
    let negated = Record {
        negative: 1,
        ..weight(2, 1)
    };
    let twice = encode(&[weight(2, 1), weight(3, 1), weight(2, 1)]);
    let (first, last) = ("0003 0004 0008 deny", "0004 0008 0003 deny");
    vec![
        ("weight 15", check(v, &one(weight(2, 15))) == 0),
        ("weight 16", check(v, &one(weight(2, 16))) == 12),
        ("weight of 15", check(v, &one(weight(15, 0))) == 0),
        ("weight of 16", check(v, &one(weight(16, 0))) == 4),
        ("weight, something negated", check(v, &one(negated)) == 12),
        ("a second weight", check(v, &twice) == 13 | 2 << 8),
        ("weights 3 and 3", shows_nothing(v, &[3, 3]) == first),
        ("weights 2 and 2", shows_nothing(v, &[2, 2]) == last),
        ("no weights", shows_nothing(v, &[]) == last),
    ]
}

/// Each example with whether the version gives what the papers say.
pub fn marked(v: &mut dyn Version) -> Vec<(&'static str, bool)> {
    let mut all = written_examples(v);
    all.extend(weighed_examples(v));
    all.extend(levelled_examples(v));
    all.extend(tables::examples(v));
    all
}

/// Examples of levels: which policies are refused 6, with the count of records.
fn levelled_examples(v: &mut dyn Version) -> Vec<(&'static str, bool)> {
    let (own, always) = (access(17, 0, 1 << 17), access(16, 0, 0));
    let all: Vec<u8> = (16..=62).collect();
    let full = [one(always).repeat(127), one(own)].concat();
    let inside = [ring(&all, 0), vec![access(20, 0, 1 << 50)]].concat();
    let policies = [
        ("17 if not 17", one(own), 6 | 1 << 8),
        (
            "17 if not 17, of three records",
            encode(&[own, always, always]),
            6 | 3 << 8,
        ),
        ("17 if not 17, of 128 records", full, 6 | 128 << 8),
        (
            "17 if not 17, and a weight 16",
            encode(&[own, weight(0, 16)]),
            12 | 1 << 8,
        ),
        ("a loop of two", encode(&ring(&[17, 24], 1)), 6 | 2 << 8),
        (
            "a loop of three",
            encode(&ring(&[40, 17, 24], 4)),
            6 | 3 << 8,
        ),
        ("a loop of 47", encode(&ring(&all, 1 << 46)), 6 | 47 << 8),
        ("a positive loop", encode(&ring(&all, 0)), 0),
        ("a not inside it", encode(&inside), 6 | 48 << 8),
    ];
    let tested = policies.map(|(name, policy, wanted)| (name, check(v, &policy) == wanted));
    [&tested[..], &levelled_models(v)].concat()
}

/// And models of policies that levels by number would refuse.
fn levelled_models(v: &mut dyn Version) -> [(&'static str, bool); 2] {
    let falling: Vec<u8> = (16..=62).rev().collect();
    let late = one(access(17, 0, 1 << 24));
    let nots = encode(&ring(&falling, !0)[1..]);
    [
        ("(f), the model", model(v, &late, 0) == 1 << 17),
        (
            "46 not, the model",
            model(v, &nots, 0) == 0x1555_5555_5555_0000,
        ),
    ]
}

/// Document 01's.
fn written_examples(v: &mut dyn Version) -> Vec<(&'static str, bool)> {
    let (a, b) = (policy_a(), policy_b());
    let example = [
        &[1u8, 16, 4, 0, 0, 0, 0, 0, 0, 0][..],
        &[8, 0, 0, 0, 0, 0, 0, 0],
    ]
    .concat();
    let full = one(access(16, 0, 0)).repeat(128);
    let over = [&full[..], &[1]].concat();
    vec![
        (
            "the record 16 if 2 and not 3",
            one(access(16, 4, 8)) == example,
        ),
        ("(a)", session(v, &a, 16, &[0, 0, 3]) == "0004 0003 grant"),
        ("(b)", session(v, &[], 16, &[0]) == "deny"),
        (
            "(c)",
            session(v, &one(access(16, 0, 0)), 16, &[0]) == "grant",
        ),
        ("(d), the model", model(v, &a, 0b101) >> 63 == 1),
        ("(d), no grant", session(v, &a, 16, &[0b101]) == "deny"),
        ("(e)", model(v, &a, 0b1100) >> 16 & 1 == 0),
        ("(f)", check(v, &one(access(17, 0, 1 << 24))) == 0),
        ("(g)", check(v, &one(access(24, 0, 1 << 23))) == 0),
        ("(h)", check(v, &one(access(16, 1 << 23, 0))) == 0),
        ("(i)", check(v, &one(access(63, 0, 1 << 62))) == 0),
        ("(j)", session(v, &b, 16, &[0, 1]) == "0003 deny"),
        ("2,304 bytes", check(v, &full) == 0),
        ("2,305 bytes", check(v, &over) == 1 | 128 << 8),
        ("17 bytes", check(v, &full[..17]) == 2),
        ("request 15", session(v, &a, 15, &[0]) == "refused 7"),
        ("request 63", session(v, &a, 63, &[0]) == "refused 7"),
        ("request 62", session(v, &a, 62, &[0]) == "deny"),
        ("waiting with Q empty", empty_question(v) == 8),
    ]
}
