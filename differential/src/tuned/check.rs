//! The policy's test.

use super::levels::{levels, Levels};
use crate::plain::policy::Refusal;

pub(super) fn word(bytes: &[u8]) -> u64 {
    u64::from_le_bytes(bytes.try_into().expect("eight bytes"))
}

/// What a body may not have, positive and negated, under a head.
fn forbidden(head: u8) -> [u64; 2] {
    match head < 16 {
        true => [!0xffff, !0],
        false => [1 << 63; 2],
    }
}

fn right(bytes: &[u8; 18]) -> bool {
    let [kind, head, ..] = *bytes;
    if head > 63 || kind != 1 + u8::from(head < 16) {
        return false;
    }
    let [positive, negative] = forbidden(head);
    word(&bytes[2..10]) & positive | word(&bytes[10..18]) & negative == 0
}

/// Accepted records, whether one of them gives a weight, and the levels of their heads.
#[derive(Clone, Copy)]
pub struct Accepted<'a> {
    pub records: &'a [[u8; 18]],
    pub weighed: bool,
    pub levels: Levels,
}

impl Accepted<'_> {
    /// The weight of each credential.
    pub fn weights(&self) -> [u8; 16] {
        let mut weights = [1; 16];
        for bytes in self.records.iter().filter(|bytes| bytes[0] == 3) {
            weights[usize::from(bytes[1] & 15)] = bytes[2];
        }
        weights
    }
}

/// Whether a record gives a weight, and is right beside the credentials that have one already.
fn weighs(bytes: &[u8; 18], weighed: &mut u16) -> bool {
    let [kind, head, ..] = *bytes;
    if kind != 3 || head > 15 || word(&bytes[2..10]) > 15 || word(&bytes[10..18]) != 0 {
        return false;
    }
    let before = *weighed;
    *weighed |= 1 << head;
    *weighed != before
}

/// The first fault of a record that is not right.
#[cold]
fn fault(bytes: &[u8; 18]) -> u8 {
    let [kind, head, ..] = *bytes;
    let (positive, negative) = (word(&bytes[2..10]), word(&bytes[10..18]));
    match kind {
        1 if !(16..64).contains(&head) => 4,
        1 => 5,
        2 | 3 if head > 15 => 4,
        2 => 5,
        3 if positive > 15 || negative != 0 => 12,
        3 => 13,
        _ => 3,
    }
}

/// The test from the first record on that is no right rule: it gives a weight, or is wrong.
#[inline(never)]
fn check_from(records: &[[u8; 18]], first: usize) -> Result<(), Refusal> {
    let mut weighed = 0;
    let wrong = |record: &[u8; 18]| !right(record) && !weighs(record, &mut weighed);
    match records[first..].iter().position(wrong) {
        Some(k) => Err(Refusal::by_writer(fault(&records[first + k]), first + k)),
        None => Ok(()),
    }
}

/// The policy's test: whether a record is a right rule, in one step, and only of one that is not, whether it gives a weight, or
/// what is wrong; then the levels.
pub fn check(policy: &[u8]) -> Result<Accepted<'_>, Refusal> {
    if policy.len() > 2304 {
        return Err(Refusal::by_writer(1, 128));
    }
    let (records, rest) = policy.as_chunks::<18>();
    if !rest.is_empty() {
        return Err(Refusal::by_writer(2, records.len()));
    }
    let other = records.iter().position(|record| !right(record));
    if let Some(first) = other {
        check_from(records, first)?;
    }
    match levels(records) {
        Some(levels) => Ok(Accepted {
            records,
            weighed: other.is_some(),
            levels,
        }),
        None => Err(Refusal::by_writer(6, records.len())),
    }
}
