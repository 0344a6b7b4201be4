//! Scenarios: a random policy with some calls. Those with whole lists of rounds are in `play`.

use crate::calls::{refusal_of, Call, Memory};
use crate::counts::Kind;
use crate::damage::{boundary, damaged};
use crate::logs::logs;
use crate::plain::interface::encode;
use crate::plain::policy::Record;
use crate::play::{changing_list, cooperative_lists, lists};
use crate::policies;
use crate::questions::questions;
use crate::requests::{credentials, named, request};
use crate::sessions;
use crate::tables::tables;
use crate::tester::Tester;

fn openings(tester: &mut Tester) {
    tester.set_policy(Vec::new());
    for _ in 0..6 {
        let request = match tester.random.below(4) {
            0 => tester.random.pick(&sessions::NO_SERVICES),
            1 => tester.random.pick(&[16, 17, 61, 62]),
            2 => tester.random.below(80) as u16,
            _ => tester.random.word(),
        };
        let memory = tester.memory();
        tester.case(Kind::Open, Call::Open(request), memory);
    }
}

/// The policy's test, models and disclosable sets of an accepted policy.
fn sets(tester: &mut Tester) {
    let records = policies::accepted(&mut tester.random);
    tester.set_policy(policies::encode(&records));
    let memory = tester.memory();
    tester.case(Kind::CheckAccepted, Call::Check, memory);
    for _ in 0..5 {
        let set = credentials(&mut tester.random, &records);
        let memory = tester.memory();
        tester.case(Kind::Model, Call::Model(set), memory);
    }
    for _ in 0..3 {
        let set = credentials(&mut tester.random, &records);
        let memory = tester.memory();
        tester.case(Kind::Disclosable, Call::Disclosable(set), memory);
    }
}

fn boundaries(tester: &mut Tester) {
    let policy = boundary(&mut tester.random);
    tester.set_policy(policy);
    let memory = tester.memory();
    tester.case(Kind::CheckBoundary, Call::Check, memory);
}

/// Every call that reads the policy, with a damaged one.
fn damages(tester: &mut Tester) {
    let policy = damaged(&mut tester.random);
    tester.set_policy(policy);
    let memory = tester.memory();
    tester.case(Kind::CheckDamaged, Call::Check, memory);
    let set = tester.random.word();
    match tester.random.below(6) {
        0 => {
            let memory = tester.memory();
            tester.case(Kind::ModelDamaged, Call::Model(set), memory);
        }
        1 => {
            let memory = tester.memory();
            tester.case(Kind::DisclosableDamaged, Call::Disclosable(set), memory);
        }
        2 | 3 => {
            let session = any_session(tester, 16, 0xff).1;
            let memory = tester.memory_with(session);
            tester.case(Kind::RoundDamaged, Call::Round(set), memory);
        }
        _ => {}
    }
}

/// Ten bytes of some kind.
fn any_session(tester: &mut Tester, request: u16, named: u16) -> (Kind, [u8; 10]) {
    let random = &mut tester.random;
    match random.below(10) {
        0..=4 => (
            Kind::RoundSound,
            encode(&sessions::sound(random, request, named)),
        ),
        5..=7 => (
            Kind::RoundUnsound,
            encode(&sessions::unsound(random, request, named)),
        ),
        8 => (Kind::RoundAnyBytes, sessions::any(random)),
        _ => (Kind::RoundNoSession, sessions::none(random, request, named)),
    }
}

/// Single rounds in sessions of every kind, under an accepted policy.
fn single_rounds(tester: &mut Tester) {
    let records = policies::accepted(&mut tester.random);
    tester.set_policy(policies::encode(&records));
    for _ in 0..8 {
        let request = request(&mut tester.random, &records);
        let (kind, session) = any_session(tester, request, named(&records));
        let memory = tester.memory_with(session);
        rounds_from(tester, &records, kind, memory);
    }
}

/// A round, and sometimes the next ones in the session that it gives.
fn rounds_from(tester: &mut Tester, records: &[Record], kind: Kind, mut memory: Memory) {
    loop {
        let p = match tester.random.below(3) {
            0 => 0,
            _ => credentials(&mut tester.random, records),
        };
        let Some((reply, after)) = tester.round(kind, p, memory) else {
            return;
        };
        if refusal_of(reply) != 0 || tester.random.one_in(2) {
            return;
        }
        memory = after;
    }
}

/// One scenario in so many is a round made for its question.
const QUESTIONS_IN: usize = 100;

/// And one in so many is about logs that are made up.
const LOGS_IN: usize = 20;

/// And one in so many is a list of operations on a table.
const TABLES_IN: usize = 40;

/// One scenario.
pub fn scenario(tester: &mut Tester) {
    if tester.random.one_in(LOGS_IN) {
        return logs(tester);
    }
    if tester.random.one_in(QUESTIONS_IN) {
        return questions(tester);
    }
    if tester.random.one_in(TABLES_IN) {
        return tables(tester);
    }
    match tester.random.below(100) {
        0..=2 => openings(tester),
        3..=15 => sets(tester),
        16..=29 => boundaries(tester),
        30..=51 => damages(tester),
        52..=62 => single_rounds(tester),
        63..=81 => lists(tester),
        82..=92 => cooperative_lists(tester),
        _ => changing_list(tester),
    }
    tester.trail = None;
}
