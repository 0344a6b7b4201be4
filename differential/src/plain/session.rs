//! Sessions and rounds ("Sessions", "Who can be turned back").

use super::disclosure::disclosable;
use super::model::unlocks;
use super::policy::{check, Policy, Refusal};
use super::weights::{by_preference, weights};

#[derive(Clone, Copy, PartialEq, Eq, Debug)]
pub enum Verdict {
    Grant,
    Deny,
}

/// "a phase: fresh, waiting on a question Q, or closed with grant or deny"
#[derive(Clone, Copy, PartialEq, Eq, Debug)]
pub enum Phase {
    Fresh,
    Waiting(u16),
    Closed(Verdict),
}

/// "A session has a request, shown set P, declined set N, a count of rounds, and a phase"
#[derive(Clone, Copy, PartialEq, Eq, Debug)]
pub struct Session {
    pub request: u16,
    pub shown: u16,
    pub declined: u16,
    pub count: u8,
    pub phase: Phase,
}

/// "A round is accepted if it ends in grant, deny or a question"
#[derive(Clone, Copy, PartialEq, Eq, Debug)]
pub enum Ending {
    Grant,
    Deny,
    Ask(u16),
}

/// "7: request outside 16 to 62, at opening or in a round."
pub fn is_service(request: u16) -> bool {
    (16..=62).contains(&request)
}

/// "Opening gives a fresh one: P and N empty, count 0."
pub fn open(request: u16) -> Result<Session, Refusal> {
    if !is_service(request) {
        return Err(Refusal::without_record(7));
    }
    Ok(Session {
        request,
        shown: 0,
        declined: 0,
        count: 0,
        phase: Phase::Fresh,
    })
}

/// "count from 1 to 1 plus the ones in P joined with N"
fn count_in_range(session: &Session) -> bool {
    let ones = (session.shown | session.declined).count_ones();
    session.count >= 1 && u32::from(session.count) <= 1 + ones
}

/// "A session is sound if: the request is 16 to 62; fresh has P, N empty and count 0; waiting has Q not empty, sharing nothing
/// with P or N, and count from 1 to 1 plus the ones in P joined with N; closed has count in that same range."
pub fn sound(session: &Session) -> bool {
    is_service(session.request)
        && match session.phase {
            Phase::Fresh => session.shown == 0 && session.declined == 0 && session.count == 0,
            Phase::Waiting(question) => {
                question != 0
                    && question & (session.shown | session.declined) == 0
                    && count_in_range(session)
            }
            Phase::Closed(_) => count_in_range(session),
        }
}

/// "if P unlocks the request, grant, closed; otherwise D is the disclosable set of P without P and without N; among subsets of D
/// that with P unlock the request, the preferred one is asked and becomes Q; if there is none, deny, closed"
pub fn ending(policy: &Policy, request: u16, shown: u16, declined: u16) -> Ending {
    if unlocks(&policy.levels, request, shown) {
        return Ending::Grant;
    }
    let may_ask = disclosable(&policy.disclosure, shown) & !shown & !declined;
    let found = by_preference(&weights(&policy.weights), may_ask)
        .into_iter()
        .find(|asked| unlocks(&policy.levels, request, shown | asked));
    match found {
        Some(asked) => Ending::Ask(asked),
        None => Ending::Deny,
    }
}

/// "Only the first that applies is given, in number order": those of the policy's test, then 7, 8, 9.
fn admit(policy: &[u8], session: &Session) -> Result<Policy, Refusal> {
    let rules = check(policy)?;
    if !is_service(session.request) {
        return Err(Refusal::without_record(7));
    }
    if !sound(session) {
        return Err(Refusal::without_record(8));
    }
    if matches!(session.phase, Phase::Closed(_)) {
        return Err(Refusal::without_record(9));
    }
    Ok(rules)
}

/// "P becomes P with p; N becomes N with those of Q not in p (Q is empty when fresh); the count rises by 1"
fn take(session: &Session, p: u16) -> Session {
    let question = match session.phase {
        Phase::Waiting(question) => question,
        _ => 0,
    };
    Session {
        shown: session.shown | p,
        declined: session.declined | question & !p,
        count: session.count + 1,
        ..*session
    }
}

/// "A round takes a policy, a session and a set p of credentials."
pub fn round(policy: &[u8], session: &Session, p: u16) -> Result<(Ending, Session), Refusal> {
    let rules = admit(policy, session)?;
    let mut next = take(session, p);
    let ending = ending(&rules, next.request, next.shown, next.declined);
    next.phase = match ending {
        Ending::Grant => Phase::Closed(Verdict::Grant),
        Ending::Deny => Phase::Closed(Verdict::Deny),
        Ending::Ask(asked) => Phase::Waiting(asked),
    };
    Ok((ending, next))
}
