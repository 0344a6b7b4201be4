//! Policies of 128 records whose levels are found in different ways: 16 disclosure rules, and 112 access rules.

use crate::inputs::{input, Input};
use differential::leveling::ring;
use differential::plain::policy::Record;
use differential::policies::{access, disclosure, encode};

/// How many access rules there are.
const RULES: usize = 112;

/// The derived atoms that may stand in bodies, rising.
fn rising() -> Vec<u8> {
    (16..=62).collect()
}

fn falling() -> Vec<u8> {
    rising().into_iter().rev().collect()
}

/// The rules, and again, each time with one more credential, until there are as many as there may be.
fn filled(rules: &[Record]) -> Vec<u8> {
    let rule = |k: usize| {
        let again = k / rules.len();
        let more = (1u64 << again) - 1;
        let of = rules[k % rules.len()];
        access(of.head, of.positive | more, of.negative)
    };
    let mut records: Vec<Record> = (0..RULES).map(rule).collect();
    records.extend((0..16).map(|head| disclosure(head, 0)));
    encode(&records)
}

/// A chain, the last rule first.
fn chain(atoms: &[u8]) -> Vec<Record> {
    let pairs = atoms.windows(2).rev();
    let mut rules: Vec<Record> = pairs.map(|two| access(two[1], 1 << two[0], 0)).collect();
    rules.push(access(atoms[0], 1, 0));
    rules
}

/// A positive loop, entered by a credential.
fn entered(atoms: &[u8], way: u64) -> Vec<Record> {
    let mut rules = ring(atoms, 0);
    rules.push(access(atoms[0], way, 0));
    rules
}

/// Loops of three atoms, each entered by the one before.
fn stacked(atoms: &[u8]) -> Vec<Record> {
    let mut before = 0;
    let mut rules = Vec::new();
    for group in atoms.chunks(3) {
        rules.extend(entered(group, 1 << before));
        before = group[group.len() - 1];
    }
    rules
}

/// Each atom by all that come before it.
fn dense(atoms: &[u8]) -> Vec<Record> {
    let mut before = 1u64;
    let rule = |atom: &u8| {
        let rule = access(*atom, before, 0);
        before |= 1 << atom;
        rule
    };
    atoms.iter().map(rule).collect()
}

/// Each atom if not the one before, and 63 if not the last: 48 levels.
fn storeys(atoms: &[u8]) -> Vec<Record> {
    let heads = atoms.iter().chain(&[63]);
    let before = [0].iter().chain(atoms);
    let pairs = heads.zip(before);
    pairs
        .map(|(head, atom)| access(*head, 0, 1 << atom))
        .collect()
}

/// All of them; the last two are refused.
pub fn policies() -> Vec<Input> {
    let (up, down) = (rising(), falling());
    let not_inside = [ring(&up, 0), vec![access(16, 0, 1 << 40)]].concat();
    let kinds: [(&str, Vec<Record>); 12] = [
        ("a chain numbered upwards", chain(&up)),
        ("a chain numbered downwards", chain(&down)),
        ("a loop of 47 atoms", entered(&up, 1)),
        ("a loop of 47 atoms, the other way round", entered(&down, 1)),
        ("loops of three stacked upwards", stacked(&up)),
        ("loops of three stacked downwards", stacked(&down)),
        ("each by all before it, upwards", dense(&up)),
        ("each by all before it, downwards", dense(&down)),
        ("48 levels of not, upwards", storeys(&up)),
        ("48 levels of not, downwards", storeys(&down)),
        ("a loop of 47 not, refused", ring(&up, !0)),
        ("a not in a loop of 47, refused", not_inside),
    ];
    kinds
        .iter()
        .map(|(name, rules)| input(name, filled(rules), 62))
        .collect()
}
