//! Document 01 and document 02's weights, levels and tables once more, read as they stand: nothing is computed cleverly, sets are
//! looked for among all sets. It is a second opinion on the plain version, on cases small enough for it.

mod tables;

use crate::calls::{Call, Memory, Operation, Preview, Version};
use crate::plain::interface::{decode, encode, ending_reply, refusal_reply};
use crate::plain::policy::{Policy, Record, Refusal};
use crate::plain::session::{Ending, Phase, Session, Verdict};

/// "For a candidate set M, strike each rule that negates an atom of M, then drop the negated parts of the others."
fn reduct(rules: &[Record], m: u64) -> Vec<Record> {
    rules
        .iter()
        .filter(|rule| rule.negative & m == 0)
        .map(|rule| Record {
            negative: 0,
            ..*rule
        })
        .collect()
}

/// "the least set that holds C and is closed under what remains"
fn least_closed(rules: &[Record], c: u64) -> u64 {
    match rules
        .iter()
        .find(|rule| rule.positive & !c == 0 && c >> rule.head & 1 == 0)
    {
        Some(rule) => least_closed(rules, c | 1 << rule.head),
        None => c,
    }
}

/// "M is stable if it equals the least set that holds C and is closed under what remains"
pub fn stable(rules: &[Record], c: u16, m: u64) -> bool {
    m == least_closed(&reduct(rules, m), u64::from(c))
}

/// "gives each access head at least its positive atoms' level and more than its negated atoms' level"
fn keeps(levels: &[u8; 64], rule: &Record) -> bool {
    let head = levels[usize::from(rule.head)];
    (0..64).all(|atom| {
        let held = rule.positive >> atom & 1 == 0 || levels[atom] <= head;
        let negated = rule.negative >> atom & 1 == 0 || levels[atom] < head;
        held && negated
    })
}

/// Whether there is "a whole number as each atom's level" such that all rules are kept: from 0 on, a head that is too low is
/// raised by one. None is raised above what any choice gives it, and no choice needs a level above the number of heads.
fn levelled(rules: &[Record]) -> bool {
    let mut levels = [0; 64];
    let most = heads(rules).count_ones() as u8;
    while let Some(rule) = rules.iter().find(|rule| !keeps(&levels, rule)) {
        let level = &mut levels[usize::from(rule.head)];
        *level += 1;
        if *level > most {
            return false;
        }
    }
    true
}

/// A stable set, come upon by taking the least closed set of each reduct as the next candidate; levels are not looked at.
pub fn stable_set(rules: &[Record], c: u16) -> u64 {
    let mut m = u64::from(c);
    while !stable(rules, c, m) {
        m = least_closed(&reduct(rules, m), u64::from(c));
    }
    m
}

fn heads(rules: &[Record]) -> u64 {
    rules.iter().fold(0, |set, rule| set | 1 << rule.head)
}

fn subsets(set: u64) -> impl Iterator<Item = u64> {
    let mut next = Some(0);
    std::iter::from_fn(move || {
        let this: u64 = next?;
        next = (this != set).then(|| this.wrapping_sub(set) & set);
        Some(this)
    })
}

/// All stable sets: each is made of C and heads of rules, so all such sets are tried.
pub fn stable_sets(rules: &[Record], c: u16) -> Vec<u64> {
    subsets(heads(rules) & !u64::from(c))
        .map(|derived| derived | u64::from(c))
        .filter(|m| stable(rules, c, *m))
        .collect()
}

/// "the least set that holds P and is closed under the disclosure rules": what all such sets have in common.
pub fn disclosable(rules: &[Record], shown: u16) -> u16 {
    let closed = |set: u64| {
        rules
            .iter()
            .all(|rule| rule.positive & !set != 0 || set >> rule.head & 1 == 1)
    };
    subsets(heads(rules))
        .map(|more| more | u64::from(shown))
        .filter(|set| closed(*set))
        .fold(0xffff, |common, set| common & set) as u16
}

/// "C unlocks service r if r is in the model and 63 is not."
fn unlocks(rules: &[Record], r: u16, c: u16) -> bool {
    let m = stable_set(rules, c);
    m >> r & 1 == 1 && m >> 63 & 1 == 0
}

/// "A record of kind 3 gives a credential (head) a weight 0 to 15 in its positive set's number; unnamed ones weigh 1."
fn weight(records: &[Record], credential: u8) -> u64 {
    let named = records.iter().find(|record| record.head == credential);
    named.map_or(1, |record| record.positive)
}

/// "among subsets of D that with P unlock the request": all are tried, and the least by weight, count and number is taken.
fn preferred(policy: &Policy, r: u16, shown: u16, d: u16) -> Option<u16> {
    let members = |set: u16| (0..16).filter(move |k| set >> k & 1 == 1);
    let total = |set: u16| -> u64 { members(set).map(|k| weight(&policy.weights, k)).sum() };
    subsets(u64::from(d))
        .map(|subset| subset as u16)
        .filter(|subset| unlocks(&policy.access, r, shown | subset))
        .min_by_key(|subset| (total(*subset), members(*subset).count(), *subset))
}

fn atom_in(set: u64, from: u8, to: u8) -> bool {
    (from..=to).any(|atom| set >> atom & 1 == 1)
}

/// Whether 12 or 13 applies to a record of kind 3, by those before it.
fn weight_applies(number: u8, record: &Record, before: &[Record]) -> bool {
    let weights = before.iter().filter(|other| other.kind == 3);
    match number {
        12 => atom_in(record.positive, 4, 63) || atom_in(record.negative, 0, 63),
        13 => weights
            .map(|other| other.head)
            .any(|head| head == record.head),
        _ => false,
    }
}

/// Whether a refusal from 3 to 5, 12 or 13 applies to a record, whatever others do.
fn applies(number: u8, record: &Record, before: &[Record]) -> bool {
    let access = record.kind == 1;
    match number {
        3 => record.kind == 0 || record.kind > 3,
        4 if access => record.head < 16 || record.head > 63,
        4 => record.head > 15,
        _ if record.kind == 3 => weight_applies(number, record, before),
        5 if access => atom_in(record.positive, 63, 63) || atom_in(record.negative, 63, 63),
        5 => atom_in(record.positive, 16, 63) || atom_in(record.negative, 0, 63),
        _ => false,
    }
}

/// Byte by byte: "bit k standing for atom k", "both little-endian".
fn read(bytes: &[u8]) -> Record {
    let set = |at: usize| {
        (0..64).fold(0, |set, atom| {
            set | u64::from(bytes[at + atom / 8] >> (atom % 8) & 1) << atom
        })
    };
    Record {
        kind: bytes[0],
        head: bytes[1],
        positive: set(2),
        negative: set(10),
    }
}

/// Every fault of every record, and of them the first by record and number; where there is none, 6.
fn check(policy: &[u8]) -> Result<Policy, Refusal> {
    if policy.len() >= 2305 {
        return Err(Refusal::by_writer(1, 128));
    }
    let whole = (0..=128).rfind(|n| 18 * n <= policy.len()).unwrap_or(0);
    if 18 * whole != policy.len() {
        return Err(Refusal::by_writer(2, whole));
    }
    let records: Vec<Record> = (0..whole).map(|k| read(&policy[18 * k..])).collect();
    let before = |k: usize| &records[..k];
    let faults = records.iter().enumerate().flat_map(|(k, record)| {
        [3, 4, 5, 12, 13]
            .into_iter()
            .filter(move |number| applies(*number, record, before(k)))
            .map(move |number| (k, number))
    });
    if let Some((k, number)) = faults.min() {
        return Err(Refusal::by_writer(number, k));
    }
    let of_kind = |kind: u8| records.iter().filter(move |r| r.kind == kind).copied();
    let access: Vec<Record> = of_kind(1).collect();
    if !levelled(&access) {
        return Err(Refusal::by_writer(6, whole));
    }
    Ok(Policy {
        access,
        levels: Vec::new(),
        disclosure: of_kind(2).collect(),
        weights: of_kind(3).collect(),
    })
}

/// "A session is sound if ..", as a list of what must hold.
pub fn sound(session: &Session) -> bool {
    let joined = session.shown | session.declined;
    let most = 1 + (0..16).filter(|k| joined >> k & 1 == 1).count();
    let in_range = (1..=most).contains(&usize::from(session.count));
    let apart = |q: u16| (0..16).all(|k| q >> k & 1 == 0 || joined >> k & 1 == 0);
    let phase = match session.phase {
        Phase::Fresh => (session.shown, session.declined, session.count) == (0, 0, 0),
        Phase::Waiting(q) => q != 0 && apart(q) && in_range,
        Phase::Closed(_) => in_range,
    };
    phase && session.request > 15 && session.request < 63
}

/// A round, in the paper's order.
fn round(policy: &Policy, s: &Session, p: u16) -> (Ending, Session) {
    let asked = if let Phase::Waiting(q) = s.phase {
        q
    } else {
        0
    };
    let shown = s.shown | p;
    let declined = s.declined | (asked & !p);
    let d = disclosable(&policy.disclosure, shown) & !(shown | declined);
    let (ending, phase) = if unlocks(&policy.access, s.request, shown) {
        (Ending::Grant, Phase::Closed(Verdict::Grant))
    } else if let Some(q) = preferred(policy, s.request, shown, d) {
        (Ending::Ask(q), Phase::Waiting(q))
    } else {
        (Ending::Deny, Phase::Closed(Verdict::Deny))
    };
    let next = Session {
        request: s.request,
        shown,
        declined,
        count: s.count + 1,
        phase,
    };
    (ending, next)
}

fn call_round(policy: &Policy, p: u16, memory: &mut Memory) -> Result<u32, Refusal> {
    let refuse = |number| Err(Refusal::without_record(number));
    match decode(memory.session()) {
        None => refuse(8),
        Some(s) if s.request < 16 || s.request > 62 => refuse(7),
        Some(s) if !sound(&s) => refuse(8),
        Some(s) if matches!(s.phase, Phase::Closed(_)) => refuse(9),
        Some(s) => {
            let (ending, next) = round(policy, &s, p);
            memory.set_session(encode(&next));
            Ok(ending_reply(ending))
        }
    }
}

/// The definition as a version to be called.
pub struct Definition;

impl Version for Definition {
    fn call(&mut self, call: Call, policy: &mut [u8], memory: &mut Memory) -> u32 {
        if let Call::Open(request) = call {
            let mut bytes = [0; 10];
            bytes[..2].copy_from_slice(&request.to_le_bytes());
            if !(16..63).contains(&request) {
                return 7;
            }
            memory.set_session(bytes);
            return 0;
        }
        let policy = match check(policy) {
            Ok(policy) => policy,
            Err(refusal) => return refusal_reply(refusal),
        };
        match call {
            Call::Model(c) => memory.set_model(stable_set(&policy.access, c)),
            Call::Disclosable(p) => memory.set_credentials(disclosable(&policy.disclosure, p)),
            Call::Round(p) => {
                return call_round(&policy, p, memory).unwrap_or_else(refusal_reply);
            }
            _ => {}
        }
        0
    }

    fn operate(&mut self, operation: Operation, policy: &mut [u8], table: &mut [u8]) -> u32 {
        tables::operate(operation, policy, table)
    }

    fn preview(
        &mut self,
        at: Preview,
        policy: &mut [u8],
        table: &mut [u8],
        memory: &mut Memory,
    ) -> u32 {
        let (reply, given) = tables::preview(at, policy, table);
        memory.set_slot(given);
        reply
    }
}

/// What the definition would have to try, roughly, for a call under an accepted policy: sets times rules.
pub fn cost(policy: &Policy, call: Call) -> usize {
    let asked = heads(&policy.disclosure).count_ones();
    let rules = 1 + policy.access.len() + policy.disclosure.len();
    match call {
        Call::Disclosable(_) => rules << asked,
        Call::Round(_) => (rules * rules) << asked,
        _ => rules * rules,
    }
}
