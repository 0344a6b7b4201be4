//! A tuned plain Rust version, for the benchmark: rules sorted by level as the gate's are, and one candidate at a time, as fast as
//! ordinary safe scalar Rust makes it. The differential tests hold it against the plain version too.

mod check;
mod levels;
pub(crate) mod order;
mod rules;
mod search;
pub mod tables;

pub use check::{check, Accepted};
pub(crate) use rules::Access;

use crate::calls::{Call, Memory, Operation, Preview, Version};
use crate::plain::interface::{call_round, encode, refusal_reply};
use crate::plain::policy::Refusal;
use crate::plain::session::{is_service, open, sound, Ending, Phase, Session, Verdict};
use rules::Disclosures;
use search::{preferred, preferred_by_weight};

pub fn model(policy: &[u8], credentials: u16) -> Result<u64, Refusal> {
    Ok(Access::new(&check(policy)?).model(credentials))
}

pub fn disclosable(policy: &[u8], shown: u16) -> Result<u16, Refusal> {
    Ok(Disclosures::new(check(policy)?.records).disclosable(shown))
}

/// How a round under accepted records ends with this shown and declined.
pub fn ending(accepted: Accepted, service: u16, shown: u16, declined: u16) -> Ending {
    let access = Access::new(&accepted);
    let opening = access.opening(service);
    if opening.unlocks(shown) {
        return Ending::Grant;
    }
    let disclosable = Disclosures::new(accepted.records).disclosable(shown);
    let may_ask = disclosable & !shown & !declined;
    let found = match accepted.weighed {
        false => preferred(&opening, shown, may_ask),
        true => preferred_by_weight(&opening, shown, may_ask, &accepted.weights()),
    };
    found.map_or(Ending::Deny, Ending::Ask)
}

/// A round in a session, tested first.
pub fn round(policy: &[u8], session: &Session, p: u16) -> Result<(Ending, Session), Refusal> {
    let accepted = check(policy)?;
    if !is_service(session.request) {
        return Err(Refusal::without_record(7));
    }
    if !sound(session) {
        return Err(Refusal::without_record(8));
    }
    let question = match session.phase {
        Phase::Closed(_) => return Err(Refusal::without_record(9)),
        Phase::Waiting(question) => question,
        Phase::Fresh => 0,
    };
    let (shown, declined) = (session.shown | p, session.declined | question & !p);
    let ending = ending(accepted, session.request, shown, declined);
    let phase = match ending {
        Ending::Grant => Phase::Closed(Verdict::Grant),
        Ending::Deny => Phase::Closed(Verdict::Deny),
        Ending::Ask(asked) => Phase::Waiting(asked),
    };
    let count = session.count + 1;
    Ok((
        ending,
        Session {
            request: session.request,
            shown,
            declined,
            count,
            phase,
        },
    ))
}

/// The tuned version as a version to be called.
pub struct Tuned;

impl Version for Tuned {
    fn call(&mut self, call: Call, policy: &mut [u8], memory: &mut Memory) -> u32 {
        let answer = match call {
            Call::Check => check(policy).map(|_| 0),
            Call::Model(credentials) => model(policy, credentials).map(|set| {
                memory.set_model(set);
                0
            }),
            Call::Disclosable(shown) => disclosable(policy, shown).map(|set| {
                memory.set_credentials(set);
                0
            }),
            Call::Open(request) => open(request).map(|fresh| {
                memory.set_session(encode(&fresh));
                0
            }),
            Call::Round(p) => call_round(memory, || check(policy), |s| round(policy, s, p)),
        };
        answer.unwrap_or_else(refusal_reply)
    }

    fn operate(&mut self, operation: Operation, policy: &mut [u8], table: &mut [u8]) -> u32 {
        tables::operate(operation, policy, table).unwrap_or_else(refusal_reply)
    }

    fn preview(
        &mut self,
        at: Preview,
        policy: &mut [u8],
        table: &mut [u8],
        memory: &mut Memory,
    ) -> u32 {
        let (answer, given) = tables::preview(at, policy, table);
        memory.set_slot(given);
        answer.unwrap_or_else(refusal_reply)
    }
}
