//! A policy under which given sets unlock a service.

use crate::candidates::members;
use crate::plain::policy::Record;
use crate::policies::{access, disclosure};
use crate::random::Random;

/// What may be asked in a round, and what is shown and declined by then; the three share nothing.
#[derive(Clone, Copy)]
pub struct Sides {
    pub may_ask: u16,
    pub shown: u16,
    pub declined: u16,
}

/// Roles are 16 to 31, two for each set; the service is above them, before all are numbered anew.
pub const LEAST_SERVICE: usize = 32;

/// The rules by which one set, the k-th, unlocks; in some ways no larger set does.
fn ways(random: &mut Random, sides: &Sides, service: u8, set: u16, k: u8) -> Vec<Record> {
    let body = u64::from(set | random.credentials(sides.shown));
    let others = sides.may_ask & !set;
    let role = 16 + 2 * k;
    let (one, two) = (1u64 << role, 2u64 << role);
    match random.below(6) {
        0 => vec![access(service, body, 0)],
        1 => vec![access(service, body, u64::from(others))],
        2 => {
            let part = random.part(body);
            vec![
                access(role, part, 0),
                access(role + 1, body & !part, 0),
                access(service, one | two, 0),
            ]
        }
        3 => {
            let mut rules = vec![access(service, body, one)];
            let spoils = |other| access(role, u64::from(other), 0);
            rules.extend(members(others).into_iter().map(spoils));
            rules
        }
        4 => {
            let mut rules = vec![access(service, body, 0)];
            let breach = |other| access(63, body | u64::from(other), 0);
            rules.extend(members(others).into_iter().map(breach));
            rules
        }
        _ => {
            let not = random.part(u64::from(others));
            vec![access(service, body, not)]
        }
    }
}

/// Each that may be asked is disclosed: always, after one that is shown, or after the one before it. Some declined ones are too.
fn disclosures(random: &mut Random, sides: &Sides) -> Vec<Record> {
    let shown = members(sides.shown);
    let chained = random.one_in(3);
    let disclosed = sides.may_ask | random.credentials(sides.declined);
    let mut before = 0;
    let mut rules = Vec::new();
    for one in members(disclosed) {
        let after = match shown.is_empty() || random.one_in(2) {
            true => 0,
            false => random.pick(&shown),
        };
        let body = if chained { before } else { after };
        rules.push(disclosure(one.trailing_zeros() as u8, u64::from(body)));
        before = one;
    }
    rules
}

/// The records, in any order.
pub fn records(random: &mut Random, sides: &Sides, service: u8, sets: &[u16]) -> Vec<Record> {
    let mut records = disclosures(random, sides);
    for (k, set) in sets.iter().enumerate() {
        records.extend(ways(random, sides, service, *set, k as u8));
    }
    random.shuffle(&mut records);
    records
}
