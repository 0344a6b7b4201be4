//! The plain version behind the calls of include/gate.h: replies as numbers, sessions as ten bytes.

use super::disclosure::disclosable;
use super::lists::Accepted;
use super::log;
use super::model::model;
use super::policy::{check, Refusal};
use super::session::{open, round, Ending, Phase, Session, Verdict};
use super::table_bytes::{operate, preview};
use crate::calls::{asked_of, Call, Memory, Operation, Preview, Version, PART};

/// Byte 0 is the number of the refusal, byte 1 that of the policy's record, where it has one.
pub fn refusal_reply(refusal: Refusal) -> u32 {
    u32::from(refusal.number) | u32::from(refusal.record.unwrap_or(0)) << 8
}

/// "byte 1 is 1 for grant, 2 for deny, 3 for a question"
pub fn ending_reply(ending: Ending) -> u32 {
    match ending {
        Ending::Grant => 1 << 8,
        Ending::Deny => 2 << 8,
        Ending::Ask(_) => 3 << 8,
    }
}

/// The session that ten bytes stand for, if they stand for one: the phase is 0 to 3, and the question 0 unless waiting.
pub fn decode(bytes: [u8; 10]) -> Option<Session> {
    let two = |at: usize| u16::from_le_bytes([bytes[at], bytes[at + 1]]);
    let phase = match (bytes[7], two(8)) {
        (0, 0) => Phase::Fresh,
        (1, question) => Phase::Waiting(question),
        (2, 0) => Phase::Closed(Verdict::Grant),
        (3, 0) => Phase::Closed(Verdict::Deny),
        _ => return None,
    };
    Some(Session {
        request: two(0),
        shown: two(2),
        declined: two(4),
        count: bytes[6],
        phase,
    })
}

/// The ten bytes of a session.
pub fn encode(session: &Session) -> [u8; 10] {
    let (phase, question) = match session.phase {
        Phase::Fresh => (0, 0),
        Phase::Waiting(question) => (1, question),
        Phase::Closed(Verdict::Grant) => (2, 0),
        Phase::Closed(Verdict::Deny) => (3, 0),
    };
    let mut bytes = [0; 10];
    bytes[0..2].copy_from_slice(&session.request.to_le_bytes());
    bytes[2..4].copy_from_slice(&session.shown.to_le_bytes());
    bytes[4..6].copy_from_slice(&session.declined.to_le_bytes());
    bytes[6] = session.count;
    bytes[7] = phase;
    bytes[8..10].copy_from_slice(&question.to_le_bytes());
    bytes
}

/// How a round ended, by its reply and the set that its session asks for: none of a refused round, nor where a question asks for
/// nothing.
pub fn replied(reply: u32, asked: u16) -> Option<Ending> {
    let endings = [Ending::Grant, Ending::Deny, Ending::Ask(asked)];
    let ending = endings.into_iter().find(|e| ending_reply(*e) == reply);
    ending.filter(|ending| *ending != Ending::Ask(0))
}

/// The plain version as a version to be called.
pub struct Plain;

fn call_model(policy: &[u8], credentials: u16, memory: &mut Memory) -> Result<u32, Refusal> {
    let rules = check(policy)?;
    memory.set_model(model(&rules.levels, credentials));
    Ok(0)
}

fn call_disclosable(policy: &[u8], shown: u16, memory: &mut Memory) -> Result<u32, Refusal> {
    let rules = check(policy)?;
    memory.set_credentials(disclosable(&rules.disclosure, shown));
    Ok(0)
}

fn call_open(request: u16, memory: &mut Memory) -> Result<u32, Refusal> {
    memory.set_session(encode(&open(request)?));
    Ok(0)
}

/// A round on the lent record, by a version's own test and round. Bytes that are no session are refused 8 after the policy's test.
pub fn call_round<P>(
    memory: &mut Memory,
    check: impl FnOnce() -> Result<P, Refusal>,
    round: impl FnOnce(&Session) -> Result<(Ending, Session), Refusal>,
) -> Result<u32, Refusal> {
    let Some(session) = decode(memory.session()) else {
        check()?;
        return Err(Refusal::without_record(8));
    };
    let (ending, next) = round(&session)?;
    memory.set_session(encode(&next));
    Ok(ending_reply(ending))
}

impl Version for Plain {
    fn call(&mut self, call: Call, policy: &mut [u8], memory: &mut Memory) -> u32 {
        let answer = match call {
            Call::Check => check(policy).map(|_| 0),
            Call::Model(credentials) => call_model(policy, credentials, memory),
            Call::Disclosable(shown) => call_disclosable(policy, shown, memory),
            Call::Open(request) => call_open(request, memory),
            Call::Round(p) => call_round(memory, || check(policy), |s| round(policy, s, p)),
        };
        answer.unwrap_or_else(refusal_reply)
    }

    fn log_record(&mut self, p: u16, reply: u32, session: &mut Memory, memory: &mut Memory) -> u32 {
        let session = session.session();
        let Some(ending) = replied(reply, asked_of(session)) else {
            return 0;
        };
        let entry = log::entry(&Accepted { p, ending }, session[6]);
        memory.set_record(log::write(&entry));
        8
    }

    fn compare_logs(&mut self, first: &mut [u8], second: &mut [u8], memory: &mut Memory) -> u32 {
        match log::compare(first, second) {
            Ok(None) => 0,
            Ok(Some(place)) => {
                memory.set_place(place);
                PART
            }
            Err(number) => u32::from(number),
        }
    }

    fn operate(&mut self, operation: Operation, policy: &mut [u8], table: &mut [u8]) -> u32 {
        operate(operation, policy, table).unwrap_or_else(refusal_reply)
    }

    fn preview(
        &mut self,
        at: Preview,
        policy: &mut [u8],
        table: &mut [u8],
        memory: &mut Memory,
    ) -> u32 {
        let (answer, given) = preview(at, policy, table);
        memory.set_slot(given);
        answer.unwrap_or_else(refusal_reply)
    }
}
