//! Policies in the papers' words.

use crate::plain::policy::{Record, ACCESS, DISCLOSURE};
use crate::policies::weight;

fn number<T: std::str::FromStr>(word: &str) -> T {
    match word.parse() {
        Ok(number) => number,
        Err(_) => panic!("{word:?} is no number"),
    }
}

/// The numbers of a list, as "0 to 3, 5".
fn numbers(list: &str) -> Vec<u8> {
    let parts = list.split(", ").map(|part| match part.split_once(" to ") {
        Some((first, last)) => number(first)..=number(last),
        None => number(part)..=number(part),
    });
    parts.flatten().collect()
}

fn set(atoms: &[u8]) -> u64 {
    atoms.iter().fold(0, |set, atom| set | 1 << atom)
}

/// What must hold and what must not, as "2, not 3".
fn body(words: &str) -> (u64, u64) {
    let (mut positive, mut negative) = (0, 0);
    for part in words.split(", ") {
        match part.strip_prefix("not ") {
            Some(atoms) => negative |= set(&numbers(atoms)),
            None => positive |= set(&numbers(part)),
        }
    }
    (positive, negative)
}

/// A rule for each head, as "16 if 2, not 3", "0 to 3 always".
fn rules(kind: u8, words: &str) -> Vec<Record> {
    let (heads, (positive, negative)) = match words.split_once(" if ") {
        Some((heads, atoms)) => (heads, body(atoms)),
        None => (words.strip_suffix(" always").expect(words), (0, 0)),
    };
    let record = |head| Record {
        kind,
        head,
        positive,
        negative,
    };
    numbers(heads).into_iter().map(record).collect()
}

/// A weight for each head, as "2 is 3".
fn weights(words: &str) -> Vec<Record> {
    let (heads, of) = words.split_once(" is ").expect(words);
    let record = |head| weight(head, number(of));
    numbers(heads).into_iter().map(record).collect()
}

fn statement(words: &str) -> Vec<Record> {
    match words.split_once(' ') {
        Some(("disclosure", words)) => rules(DISCLOSURE, words),
        Some(("weight", words)) => weights(words),
        _ => rules(ACCESS, words),
    }
}

/// The records of a policy, as "16 if 2, not 3; disclosure 2 always; weight 2 is 3".
pub fn policy(words: &str) -> Vec<Record> {
    words.split("; ").flat_map(statement).collect()
}
