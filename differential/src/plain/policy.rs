//! Policies: records and the policy's test ("Atoms and records", "Who can be turned back"; document 02, R-2 and R-4).

use super::levels::{levels, Levels};

/// "63 is the breach mark"
pub const BREACH: u8 = 63;

/// "A policy is 0 to 128 records of 18 bytes, no header"
pub const RECORD_BYTES: usize = 18;

/// "1: more than 2,304 bytes"
pub const MOST_BYTES: usize = 2304;

/// "Byte 0 is the kind: 1 access, 2 disclosure."
pub const ACCESS: u8 = 1;
pub const DISCLOSURE: u8 = 2;

/// "A record of kind 3 gives a credential (head) a weight 0 to 15 in its positive set's number"
pub const WEIGHT: u8 = 3;
pub const MOST_WEIGHT: u64 = 15;

/// What 18 bytes say.
#[derive(Clone, Copy, PartialEq, Eq, Debug)]
pub struct Record {
    pub kind: u8,
    pub head: u8,
    /// "the set of atoms that must hold"
    pub positive: u64,
    /// "the set that must not"
    pub negative: u64,
}

/// "Only the first that applies is given": a number, and a record number with 1 to 6, 12 and 13.
#[derive(Clone, Copy, PartialEq, Eq, Debug)]
pub struct Refusal {
    pub number: u8,
    pub record: Option<u8>,
}

impl Refusal {
    /// "By the policy's writer, with a record number counted from 0"
    pub fn by_writer(number: u8, record: usize) -> Refusal {
        Refusal {
            number,
            record: Some(record as u8),
        }
    }

    /// "By the host", "By the client"
    pub fn without_record(number: u8) -> Refusal {
        Refusal {
            number,
            record: None,
        }
    }
}

/// An accepted policy's records of each kind, in their order, and the access rules by level.
#[derive(Clone, Default)]
pub struct Policy {
    pub access: Vec<Record>,
    pub levels: Levels,
    pub disclosure: Vec<Record>,
    pub weights: Vec<Record>,
}

/// The atoms of a set: "A set of atoms is a 64-bit number, bit k standing for atom k"
pub fn atoms(set: u64) -> impl Iterator<Item = u8> {
    (0..64).filter(move |atom| set >> atom & 1 == 1)
}

/// "Bytes 2 to 9 are the set of atoms that must hold, bytes 10 to 17 the set that must not, both little-endian."
pub fn read(bytes: &[u8]) -> Record {
    Record {
        kind: bytes[0],
        head: bytes[1],
        positive: little_endian(&bytes[2..10]),
        negative: little_endian(&bytes[10..18]),
    }
}

fn little_endian(bytes: &[u8]) -> u64 {
    bytes
        .iter()
        .rev()
        .fold(0, |number, byte| number << 8 | u64::from(*byte))
}

/// "An access head is 16 to 63." "A disclosure head is 0 to 15"; kind 3 "has heads 0 to 15 by 4"
fn head_allowed(record: &Record) -> bool {
    if record.kind == ACCESS {
        (16..=63).contains(&record.head)
    } else {
        record.head <= 15
    }
}

/// "Atom 63 stands in no body." "its body has only credentials, none negated"
fn body_allowed(record: &Record) -> bool {
    if record.kind == ACCESS {
        (record.positive | record.negative) >> BREACH == 0
    } else {
        record.positive <= 0xffff && record.negative == 0
    }
}

/// "12, weight above 15 or negated set not empty; 13, a second weight for one credential, even by an equal record come twice"
fn weight_fault(record: &Record, earlier: &[Record]) -> Option<u8> {
    if record.positive > MOST_WEIGHT || record.negative != 0 {
        Some(12)
    } else if earlier.iter().any(|other| other.head == record.head) {
        Some(13)
    } else {
        None
    }
}

/// "3: kind neither 1 nor 2. 4: head not allowed for the kind. 5: body atom not allowed for the kind." "Kind 3 passes 3, has heads
/// 0 to 15 by 4, and is tested by 12 and 13 instead of 5 and 6"
fn fault(record: &Record, earlier: &Policy) -> Option<u8> {
    if ![ACCESS, DISCLOSURE, WEIGHT].contains(&record.kind) {
        Some(3)
    } else if !head_allowed(record) {
        Some(4)
    } else if record.kind == WEIGHT {
        weight_fault(record, &earlier.weights)
    } else if !body_allowed(record) {
        Some(5)
    } else {
        None
    }
}

/// The policy's test: "records are tested in turn"; 6 "after all records passed the rest, with the count of records as its number"
pub fn check(policy: &[u8]) -> Result<Policy, Refusal> {
    if policy.len() > MOST_BYTES {
        return Err(Refusal::by_writer(1, 128));
    }
    if !policy.len().is_multiple_of(RECORD_BYTES) {
        return Err(Refusal::by_writer(2, policy.len() / RECORD_BYTES));
    }
    let mut rules = Policy::default();
    for (k, bytes) in policy.chunks(RECORD_BYTES).enumerate() {
        let record = read(bytes);
        if let Some(number) = fault(&record, &rules) {
            return Err(Refusal::by_writer(number, k));
        }
        match record.kind {
            ACCESS => rules.access.push(record),
            DISCLOSURE => rules.disclosure.push(record),
            _ => rules.weights.push(record),
        }
    }
    match levels(&rules.access) {
        Some(levels) => Ok(Policy { levels, ..rules }),
        None => Err(Refusal::by_writer(6, policy.len() / RECORD_BYTES)),
    }
}
