//! Cases that are not random, or not all of it: every length, every head with every single body atom, every two rules and every
//! three atoms that stand in each other's bodies, every weight, every request, small sessions, small logs, every size of a
//! question.

use crate::calls::Call;
use crate::counts::Kind;
use crate::leveling::ring;
use crate::logs::every_log;
use crate::marked::policy_a;
use crate::plain::policy::Record;
use crate::policies::{access, disclosure, encode, weight};
use crate::questions::{every_block, every_size};
use crate::tables::every_table;
use crate::tester::Tester;

fn check(tester: &mut Tester, policy: Vec<u8>) {
    tester.set_policy(policy);
    let memory = tester.memory();
    tester.case(Kind::Exhaustive, Call::Check, memory);
}

/// Records that are right, cut at every length up to 2,420.
fn lengths(tester: &mut Tester) {
    let bytes = encode(&[access(16, 1, 2)]).repeat(135);
    for length in 0..=2420 {
        check(tester, bytes[..length].to_vec());
    }
}

/// Every kind and head with an empty body.
fn heads(tester: &mut Tester) {
    for kind in 0..=255 {
        for head in 0..=255 {
            let record = Record {
                kind,
                ..access(head, 0, 0)
            };
            check(tester, encode(&[record]));
        }
    }
}

/// Every allowed head with every single atom, on either side.
fn bodies(tester: &mut Tester) {
    for atom in 0..64 {
        for head in 16..64 {
            check(tester, encode(&[access(head, 1 << atom, 0)]));
            check(tester, encode(&[access(head, 0, 1 << atom)]));
        }
        for head in 0..16 {
            let right = disclosure(head, 1 << atom);
            check(tester, encode(&[right]));
            let negated = Record {
                negative: 1 << atom,
                ..disclosure(head, 0)
            };
            check(tester, encode(&[negated]));
        }
    }
}

/// Every two derived atoms in each other's bodies, and one in the other's and its own.
fn two_rules(tester: &mut Tester) {
    for (one, other) in (16..63).flat_map(|one| (16..63).map(move |other| (one, other))) {
        let (held, not) = (access(one, 1 << other, 0), access(one, 0, 1 << other));
        let back = access(other, 1 << one, 0);
        let two_sided = access(one, 1 << other, 1 << other);
        for rules in [[held, back], [not, back], [back, not], [two_sided, back]] {
            check(tester, encode(&rules));
        }
        check(tester, encode(&[not, access(other, 0, 1 << one)]));
        check(tester, encode(&[two_sided]));
    }
}

/// Three atoms, each with each one, and itself, in its bodies: as what must hold, as what must not, or not at all.
fn three_atoms(tester: &mut Tester) {
    let atoms = [24u8, 16, 62];
    for choice in 0..3u32.pow(9) {
        let rule = |k: usize| {
            let (head, body) = (atoms[k / 3], 1 << atoms[k % 3]);
            match choice / 3u32.pow(k as u32) % 3 {
                0 => None,
                1 => Some(access(head, body, 0)),
                _ => Some(access(head, 0, body)),
            }
        };
        let rules: Vec<Record> = (0..9).filter_map(rule).collect();
        check(tester, encode(&rules));
    }
}

/// Loops of every size, upwards and downwards, positive and with one "not" at either end, alone and with 63 above it.
fn loops(tester: &mut Tester) {
    let all: Vec<u8> = (16..63).collect();
    for size in 1..=47 {
        let up = &all[47 - size..];
        let down: Vec<u8> = up.iter().rev().copied().collect();
        for atoms in [up, &down] {
            for negated in [0, 1, 1 << (size - 1), !0] {
                let rules = ring(atoms, negated);
                check(tester, encode(&rules));
                check(tester, encode(&rules[1..]));
                let above = [rules, vec![access(63, 0, 1 << 62)]].concat();
                check(tester, encode(&above));
            }
        }
    }
}

/// A rule that no levels keep at every place among 128 records and fewer.
fn sixes(tester: &mut Tester) {
    for place in 0..128 {
        for count in [place + 1, 128] {
            let mut records = vec![access(16, 1, 2); count];
            records[place] = access(17, 0, 1 << 17);
            check(tester, encode(&records));
        }
    }
}

/// Kind 3 with every allowed head and every single bit, on either side.
fn weight_bits(tester: &mut Tester) {
    for (head, bit) in (0..16).flat_map(|head| (0..64).map(move |bit| (head, bit))) {
        check(tester, encode(&[weight(head, 1 << bit)]));
        let negated = Record {
            negative: 1 << bit,
            ..weight(head, 0)
        };
        check(tester, encode(&[negated]));
    }
}

/// Every weight up to 600.
fn weights(tester: &mut Tester) {
    for number in 0..=600 {
        let head = (number % 16) as u8;
        check(tester, encode(&[weight(head, number)]));
    }
}

/// Two weights for every two heads, and a disclosure rule for each.
fn two_weights(tester: &mut Tester) {
    for (one, other) in (0..17).flat_map(|one| (0..17).map(move |other| (one, other))) {
        check(tester, encode(&[weight(one, 1), weight(other, 1)]));
        check(tester, encode(&[weight(one, 1), weight(other, 2)]));
        check(tester, encode(&[disclosure(one, 0), weight(other, 2)]));
    }
}

/// Two weights for one credential, with any number of rules between, and no second one.
fn weights_apart(tester: &mut Tester) {
    for between in 0..=126 {
        let mut records = vec![access(16, 1, 2); between + 2];
        records[0] = weight(3, 2);
        check(tester, encode(&records));
        records[between + 1] = weight(3, 2);
        check(tester, encode(&records));
    }
}

/// 16 if 0, 1; 16 if 2; all disclosed, with every weight of 0 and every weight of 2.
fn weighed_questions(tester: &mut Tester) {
    for (one, other) in (0..16).flat_map(|one| (0..16).map(move |other| (one, other))) {
        let mut records = vec![access(16, 0b11, 0), access(16, 0b100, 0)];
        records.extend((0..3).map(|head| disclosure(head, 0)));
        records.extend([weight(0, one), weight(2, other)]);
        tester.set_policy(encode(&records));
        session(tester, 0, 0, 0, 0, 0);
    }
}

fn requests(tester: &mut Tester) {
    for request in 0..=u16::MAX {
        let memory = tester.memory();
        tester.case(Kind::Exhaustive, Call::Open(request), memory);
    }
}

/// Small sessions of every phase and count, the question apart, empty or shared.
fn sessions(tester: &mut Tester) {
    tester.set_policy(policy_a());
    let sets = [0, 0b1, 0b10, 0b11, 0b110, 0x8001, 0xfffe, 0xffff];
    let all = || sets.into_iter();
    for (shown, declined) in all().flat_map(|p| all().map(move |n| (p, n))) {
        for (count, phase) in (0..20u8).flat_map(|c| (0..5u8).map(move |f| (c, f))) {
            for question in [0, 0b1, 0b100, 0x8000] {
                session(tester, shown, declined, count, phase, question);
            }
        }
    }
}

fn session(tester: &mut Tester, p: u16, n: u16, count: u8, phase: u8, question: u16) {
    let mut bytes = [16, 0, 0, 0, 0, 0, count, phase, 0, 0];
    bytes[2..4].copy_from_slice(&p.to_le_bytes());
    bytes[4..6].copy_from_slice(&n.to_le_bytes());
    bytes[8..10].copy_from_slice(&question.to_le_bytes());
    let memory = tester.memory_with(bytes);
    tester.case(Kind::Exhaustive, Call::Round(0), memory);
}

/// All of them.
pub fn exhaustive(tester: &mut Tester) {
    lengths(tester);
    heads(tester);
    bodies(tester);
    two_rules(tester);
    three_atoms(tester);
    loops(tester);
    sixes(tester);
    weight_bits(tester);
    weights(tester);
    two_weights(tester);
    weights_apart(tester);
    weighed_questions(tester);
    requests(tester);
    sessions(tester);
    every_log(tester);
    every_table(tester);
    every_size(tester);
    every_block(tester);
}
