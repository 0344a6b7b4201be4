//! Slips in weights: the test of records of kind 3, what a credential weighs, and the order of candidates.

use super::names::{Slip, Slipped};
use crate::candidates::members;
use crate::plain::policy::{Record, DISCLOSURE, WEIGHT};
use crate::plain::weights::total_weight;
use crate::policies::disclosure;

impl Slipped {
    /// The weight that a record gives.
    fn weight(&self, record: &Record) -> u64 {
        match self.0 {
            Slip::WeightLowByte => record.positive & 0xff,
            Slip::ZeroAsOne => record.positive.max(1),
            _ => record.positive,
        }
    }

    fn overweight(&self, record: &Record) -> bool {
        let most = match self.0 {
            Slip::SixteenAccepted => 16,
            Slip::FifteenRefused => 14,
            _ => 15,
        };
        let negated = record.negative != 0 && !self.is(Slip::WeightNegated);
        self.weight(record) > most || negated
    }

    /// Whether another record has given the same credential a weight.
    fn same(&self, record: &Record, other: &Record) -> bool {
        let disclosed = other.kind == DISCLOSURE && self.is(Slip::AcrossKinds);
        let passed = other == record && self.is(Slip::EqualAccepted);
        (other.kind == WEIGHT || disclosed) && other.head == record.head && !passed
    }

    /// What is wrong with a record of kind 3, with these before it.
    pub(super) fn weight_fault(&self, record: &Record, before: &[Record]) -> Option<u8> {
        let least = match self.0 {
            Slip::NextAlone => before.len().saturating_sub(1),
            _ => 0,
        };
        let second = before[least..].iter().any(|other| self.same(record, other));
        let over = self.overweight(record);
        if self.is(Slip::BodyOfWeight) && (record.positive > 0xffff || record.negative != 0) {
            return Some(5);
        }
        match (over, second) {
            (true, true) if self.is(Slip::ThirteenFirst) => Some(13),
            (true, _) => Some(12),
            (false, _) => second.then_some(13),
        }
    }

    /// The record that 13 names.
    pub(super) fn second_at(&self, records: &[Record], k: usize) -> usize {
        let first = records
            .iter()
            .position(|other| self.same(&records[k], other));
        match first {
            Some(first) if self.is(Slip::EarlierNamed) => first,
            _ => k,
        }
    }

    /// Disclosure rules that are made of weights: none, if all is right.
    pub(super) fn disclosed(&self, weights: &[Record]) -> Vec<Record> {
        let rule = |record: &Record| match self.0 {
            Slip::WeightAskable => Some(disclosure(record.head, 0)),
            Slip::WeightDiscloses => Some(*record),
            _ => None,
        };
        weights.iter().filter_map(rule).collect()
    }

    /// What each credential weighs, where so many may be asked.
    pub(super) fn weights(&self, records: &[Record], d: u16) -> [u8; 16] {
        let mut weights = [u8::from(!self.is(Slip::UnnamedZero)); 16];
        for record in records.iter().filter(|record| record.head < 16) {
            weights[usize::from(record.head)] = self.weight(record) as u8;
        }
        let of = |one: u16| weights[one.trailing_zeros() as usize];
        let own: Vec<u8> = members(d).into_iter().map(of).collect();
        let low = own.iter().copied().take(8);
        let all = weights;
        match self.0 {
            Slip::NextCredential => weights.rotate_left(1),
            Slip::HighHeads => weights[8..].fill(1),
            Slip::MembersTurned => spread(&mut weights, d, own.iter().rev().copied()),
            Slip::ByMember => spread(&mut weights, d, all.into_iter()),
            Slip::NinthMember => spread(&mut weights, d, low.chain([1; 8])),
            _ => {}
        }
        weights
    }

    /// By which of two sets one is preferred.
    pub(super) fn key(&self, weights: &[u8; 16], set: u16) -> (u32, u32, u16) {
        let (weight, count) = (total_weight(weights, set), set.count_ones());
        let own = (0..16).filter(|k| set >> k & 1 == 1).map(|k| weights[k]);
        let weighed = weights.iter().any(|weight| *weight != 1);
        match self.0 {
            Slip::LargestTie => (weight, count, !set),
            Slip::LargestLight if weighed => (weight, count, !set),
            Slip::SizeFirst => (count, weight, set),
            Slip::SizeLeftOut => (weight, 0, set),
            Slip::WeightUnread => (count, 0, set),
            Slip::WeightCapped => (weight.min(15), count, set),
            Slip::HeaviestMember => (own.max().unwrap_or(0).into(), count, set),
            _ => (weight, count, set),
        }
    }
}

/// Gives the members of a set these weights in turn.
fn spread(weights: &mut [u8; 16], set: u16, given: impl Iterator<Item = u8>) {
    let places = (0..16).filter(|k| set >> k & 1 == 1);
    for (k, weight) in places.zip(given) {
        weights[k] = weight;
    }
}
