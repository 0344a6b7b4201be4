//! Which records of rounds and pairs of logs came up in a run.

use crate::plain::log::{divergence, entries, refusal};

pub const CLASSES: [&str; 19] = [
    "record of a grant",
    "record of a denial",
    "record of a question",
    "no record, the round refused",
    "no record, a question for nothing",
    "no record, a reply that no round gives",
    "logs agree",
    "logs agree, their bytes differ",
    "logs part at record 0",
    "logs part at a record past it",
    "logs part at the end of the first",
    "logs part at the end of the second",
    "refused 10, the first log",
    "refused 10, the second log",
    "refused 10, 11 fits that log too",
    "refused 11, the first log",
    "refused 11, the second log",
    "refused 11 by the first log, 10 fits the second",
    "refused 11 past the record where they part",
];

#[derive(Clone, Default)]
pub struct LogCounts {
    pub records: u64,
    pub comparisons: u64,
    /// Whole logs of lists, held against the list.
    pub lists: u64,
    classes: [u64; 19],
}

/// The class of a reply to gate_log_record: what was written, the reply that it was given, and the set asked for.
fn record_class(written: u32, reply: u32, asked: u16) -> usize {
    match (written, reply) {
        (8, 0x100) => 0,
        (8, 0x200) => 1,
        (8, _) => 2,
        (_, 0x300) if asked == 0 => 4,
        (_, reply) if (1..=9).contains(&(reply & 0xff)) && reply < 0x10000 => 3,
        _ => 5,
    }
}

/// The classes of two logs that are not refused.
fn compared(first: &[u8], second: &[u8]) -> Vec<usize> {
    let (one, other) = (entries(first), entries(second));
    match divergence(&one, &other) {
        None if first != second => vec![6, 7],
        None => vec![6],
        Some(place) if place == one.len() => vec![10],
        Some(place) if place == other.len() => vec![11],
        Some(0) => vec![8],
        Some(_) => vec![9],
    }
}

/// The whole records alone.
fn whole(log: &[u8]) -> &[u8] {
    &log[..log.len() / 8 * 8]
}

/// The classes of two logs.
fn pair_classes(first: &[u8], second: &[u8]) -> Vec<usize> {
    let (one, other) = (refusal(first), refusal(second));
    let both = |log: &[u8]| refusal(whole(log)).is_some();
    let mut classes = match (one, other) {
        (Some(10), _) => vec![12],
        (Some(_), _) => vec![15],
        (None, Some(10)) => vec![13],
        (None, Some(_)) => vec![16],
        (None, None) => compared(first, second),
    };
    if one == Some(10) && both(first) || one.is_none() && other == Some(10) && both(second) {
        classes.push(14);
    }
    if one == Some(11) && other == Some(10) {
        classes.push(17);
    }
    if one.is_none() && other == Some(11) {
        let fault = |k: &usize| refusal(&second[8 * k..8 * k + 8]).is_some();
        let place = divergence(&entries(first), &entries(second));
        let at = (0..second.len() / 8).find(fault);
        if place < at && place.is_some() {
            classes.push(18);
        }
    }
    classes
}

impl LogCounts {
    /// Counts a record.
    pub fn record(&mut self, written: u32, reply: u32, asked: u16) {
        self.records += 1;
        self.classes[record_class(written, reply, asked)] += 1;
    }

    /// Counts a comparison.
    pub fn comparison(&mut self, first: &[u8], second: &[u8]) {
        self.comparisons += 1;
        for class in pair_classes(first, second) {
            self.classes[class] += 1;
        }
    }

    pub fn add(&mut self, other: &LogCounts) {
        self.records += other.records;
        self.comparisons += other.comparisons;
        self.lists += other.lists;
        for (a, b) in self.classes.iter_mut().zip(other.classes) {
            *a += b;
        }
    }

    /// What should have come up and did not.
    pub fn missing(&self) -> Vec<String> {
        let all = CLASSES.iter().zip(self.classes);
        all.filter(|(_, count)| *count == 0)
            .map(|(name, _)| format!("logs: {name}"))
            .collect()
    }

    pub fn print(&self) {
        let (records, comparisons) = (self.records, self.comparisons);
        println!("\nlogs: {records} records of rounds, {comparisons} comparisons");
        println!("  whole logs of lists: {}", self.lists);
        for (name, count) in CLASSES.iter().zip(self.classes) {
            println!("  {count:>10}  {name}");
        }
    }
}
