//! A program that writes the log (document 02, R-1) where the bench program prints, over a version of the gate.

use crate::calls::{refusal_of, Call, Memory, Version, PLACE};
use crate::conformance::case::Run;

/// The log of a session: what the version gives as record of each round.
pub fn log(version: &mut dyn Version, run: &Run) -> Vec<u8> {
    let words = run.words();
    let mut policy = run.policy().to_vec();
    let mut session = Memory([0; 32]);
    let mut log = Vec::new();
    let Some((request, shown)) = words.split_first() else {
        return log;
    };
    let refused = [Call::Check, Call::Open(*request)]
        .into_iter()
        .any(|call| refusal_of(version.call(call, &mut policy, &mut session)) != 0);
    if refused {
        return log;
    }
    for p in shown {
        let reply = version.call(Call::Round(*p), &mut policy, &mut session);
        let mut record = Memory([0; 32]);
        let bytes = version.log_record(*p, reply, &mut session.clone(), &mut record);
        log.extend(&record.0[PLACE..PLACE + bytes as usize]);
    }
    log
}
