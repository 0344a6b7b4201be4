//! Slips in the policy's test.

use super::names::{Slip, Slipped};
use crate::plain::policy::{read, Policy, Record, Refusal, WEIGHT};

impl Slipped {
    fn read(&self, bytes: &[u8]) -> Record {
        let mut record = read(bytes);
        if self.is(Slip::BigEndian) {
            record.positive = record.positive.swap_bytes();
            record.negative = record.negative.swap_bytes();
        }
        if self.is(Slip::HeadCut) {
            record.head &= 63;
        }
        record
    }

    /// What is wrong with a record, with these before it.
    fn fault(&self, record: &Record, before: &[Record]) -> Option<u8> {
        let access = record.kind == 1;
        let body = record.positive | record.negative;
        let breach = body >> 63 == 1 && !self.is(Slip::BreachInBody);
        match (record.kind, record.head) {
            (3, _) if self.is(Slip::ThreeRefused) => return Some(3),
            (3, 16) if self.is(Slip::WeightHead) => return None,
            (3, 0..=15) => return self.weight_fault(record, before),
            (1, 16..=63) | (2, 0..=15) => {}
            (1..=3, _) => return Some(4),
            _ => return Some(3),
        }
        if access && breach || !access && (record.positive > 0xffff || record.negative != 0) {
            return Some(5);
        }
        None
    }

    /// The record number and number of the fault that is given.
    fn first_fault(&self, records: &[Record]) -> Option<(usize, u8)> {
        let mut faults = records
            .iter()
            .enumerate()
            .filter_map(|(k, record)| Some((k, self.fault(record, &records[..k])?)));
        let (k, number) = match self.0 {
            Slip::RecordOrder => faults.min_by_key(|(k, number)| (*number, *k)),
            Slip::ThirteenLast => faults.min_by_key(|(k, number)| (*number == 13, *k)),
            _ => faults.next(),
        }?;
        match number {
            13 => Some((self.second_at(records, k), number)),
            _ => Some((k, number)),
        }
    }

    pub(super) fn check(&self, policy: &[u8]) -> Result<Policy, Refusal> {
        if self.is(Slip::RefusesAll) {
            return Err(Refusal::by_writer(3, 0));
        }
        if policy.len() > 2304 - usize::from(self.is(Slip::LengthBound)) {
            return Err(Refusal::by_writer(1, 128));
        }
        if !policy.len().is_multiple_of(18) {
            return Err(Refusal::by_writer(2, policy.len() / 18));
        }
        let records: Vec<Record> = policy.chunks(18).map(|bytes| self.read(bytes)).collect();
        let six = self.six(&records);
        if let Some((k, number)) = self.first(self.first_fault(&records), six) {
            return Err(Refusal::by_writer(number, k));
        }
        let most = if self.is(Slip::LastRecord) { 127 } else { 128 };
        let of_kind = |kind: u8| {
            let read = records.iter().take(most);
            read.filter(move |record| record.kind == kind).copied()
        };
        let weights: Vec<Record> = of_kind(WEIGHT).collect();
        let access: Vec<Record> = of_kind(1).collect();
        Ok(Policy {
            levels: self.levels(&access),
            access,
            disclosure: of_kind(2).chain(self.disclosed(&weights)).collect(),
            weights,
        })
    }
}
