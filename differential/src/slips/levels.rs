//! Slips in levels: the test of them, its place among the others, and the levels themselves.

use super::names::{Slip, Slipped};
use crate::leveling::{by_number, kept_by_number};
use crate::plain::levels::{below, choice, Levels};
use crate::plain::policy::{atoms, Record};

/// What each atom depends on, itself among it, by one sweep over the rules.
fn swept(rules: &[Record]) -> [u64; 64] {
    let mut below: [u64; 64] = std::array::from_fn(|atom| 1 << atom);
    for rule in rules {
        for atom in atoms(rule.positive | rule.negative) {
            below[usize::from(rule.head)] |= below[usize::from(atom)];
        }
    }
    below
}

/// The same in so many steps at most.
fn within(rules: &[Record], steps: usize) -> [u64; 64] {
    let mut below: [u64; 64] = std::array::from_fn(|atom| 1 << atom);
    for _ in 0..steps {
        let last = below;
        for rule in rules {
            for atom in atoms(rule.positive | rule.negative) {
                below[usize::from(rule.head)] |= last[usize::from(atom)];
            }
        }
    }
    below
}

/// A set with the numbers of its atoms cut to five bits.
fn cut(set: u64) -> u64 {
    (set | set >> 32) & 0xffff_ffff
}

/// Levels as low as can be, each raised by the rules in turn; where there is no choice, as far as it goes.
fn lowest(rules: &[Record], sweeps: usize) -> [u32; 64] {
    let mut levels = [0; 64];
    for _ in 0..sweeps {
        for rule in rules {
            let held = atoms(rule.positive).map(|atom| levels[usize::from(atom)]);
            let negated = atoms(rule.negative).map(|atom| levels[usize::from(atom)] + 1);
            let least = held.chain(negated).max().unwrap_or(0);
            let own: &mut u32 = &mut levels[usize::from(rule.head)];
            *own = least.max(*own);
        }
    }
    levels
}

impl Slipped {
    /// The access rules that take part in the test.
    fn taking_part(&self, records: &[Record]) -> Vec<Record> {
        let all = records.iter().enumerate();
        let of_kind = all.filter(|(_, r)| r.kind == 1 && r.head < 64);
        let mut rules: Vec<Record> = match self.0 {
            Slip::TestedRecords => of_kind.filter(|(k, _)| *k < 127).map(|(_, r)| *r).collect(),
            _ => of_kind.map(|(_, r)| *r).collect(),
        };
        match self.0 {
            Slip::TwoSidedOut => rules.retain(|rule| rule.positive & rule.negative == 0),
            Slip::LastRule => {
                let all = rules.clone();
                let later = |k: usize| all[k + 1..].iter().any(|r| r.head == all[k].head);
                rules = (0..all.len())
                    .filter(|k| !later(*k))
                    .map(|k| all[k])
                    .collect();
            }
            Slip::FiveBits => rules.iter_mut().for_each(|rule| {
                rule.head &= 31;
                rule.positive = cut(rule.positive);
                rule.negative = cut(rule.negative);
            }),
            Slip::NotsOnly | Slip::ShortNots => rules.iter_mut().for_each(|r| r.positive = 0),
            _ => {}
        }
        rules
    }

    /// Whether an atom depends on itself in one step or more, "not" or no "not".
    fn any_loop(rules: &[Record], below: &[u64; 64]) -> bool {
        rules.iter().any(|rule| {
            let body = rule.positive | rule.negative;
            atoms(body).any(|atom| below[usize::from(atom)] >> rule.head & 1 == 1)
        })
    }

    /// Whether these rules have no levels.
    fn unlevelled(&self, rules: &[Record]) -> bool {
        let own = |rule: &Record| rule.positive >> rule.head & 1 == 1;
        let below = match self.0 {
            Slip::OneSweep => swept(rules),
            Slip::ShortLoops => within(rules, 7),
            Slip::ShortNots => within(rules, 1),
            Slip::OwnNot => within(rules, 0),
            _ => below(rules),
        };
        let negated = rules.iter().any(|rule| {
            atoms(rule.negative).any(|atom| below[usize::from(atom)] >> rule.head & 1 == 1)
        });
        match self.0 {
            Slip::NegativeLevel => false,
            Slip::ByNumber => !kept_by_number(rules),
            Slip::PositiveLoops => Self::any_loop(rules, &below),
            Slip::OwnHead => negated || rules.iter().any(own),
            Slip::NineLevels => negated || lowest(rules, 64).iter().any(|level| *level > 8),
            _ => negated,
        }
    }

    /// The number that 6 is given with, if it is given.
    pub(super) fn six(&self, records: &[Record]) -> Option<usize> {
        let rules = self.taking_part(records);
        if !self.unlevelled(&rules) {
            return None;
        }
        let closing =
            || (1..=records.len()).find(|n| self.unlevelled(&self.taking_part(&records[..*n])));
        let below = below(&rules);
        let in_loop = |rule: &&Record| {
            rule.kind == 1
                && rule.head < 64
                && atoms(rule.negative).any(|a| below[usize::from(a)] >> rule.head & 1 == 1)
        };
        Some(match self.0 {
            Slip::SixInTurn => closing()? - 1,
            Slip::SixFirstRecord => records.iter().position(|rule| in_loop(&rule))?,
            Slip::SixLastRecord => records.len() - 1,
            Slip::SixAccess => rules.len(),
            _ => records.len(),
        })
    }

    /// The fault that is given, as record number and number: that of the records, or 6.
    pub(super) fn first(
        &self,
        fault: Option<(usize, u8)>,
        six: Option<usize>,
    ) -> Option<(usize, u8)> {
        let six = six.map(|record| (record, 6));
        let (Some(one), Some(other)) = (fault, six) else {
            return fault.or(six);
        };
        Some(match self.0 {
            Slip::SixFirst => other,
            Slip::SixBeforeWeights if one.1 > 6 => other,
            Slip::SixBeforeFive if one.1 == 5 => other,
            Slip::SixInTurn if other.0 < one.0 => other,
            _ => one,
        })
    }

    /// The rules by level.
    pub(super) fn levels(&self, access: &[Record]) -> Levels {
        let level: [u32; 64] = match self.0 {
            Slip::NotTooEarly => [0; 64],
            Slip::OrderOfNumbers => std::array::from_fn(|atom| by_number(atom as u8).into()),
            Slip::OneSweepLevels => lowest(access, 1),
            Slip::NineOfLevels => lowest(access, 64).map(|level| level.min(8)),
            Slip::FallingLevels => lowest(access, 64).map(|level| 64 - level.min(64)),
            _ => choice(access).unwrap_or_else(|| lowest(access, 64)),
        };
        let of = |rule: &Record| level[usize::from(rule.head)];
        let mut rules = access.to_vec();
        rules.sort_by_key(of);
        let same = rules.chunk_by(|one, other| of(one) == of(other));
        same.map(<[Record]>::to_vec).collect()
    }
}
