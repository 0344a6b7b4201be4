//! What the bench program prints ("The bench program").

use super::policy::{check, Refusal};
use super::session::{open, round, Ending, Session};

/// "It reads the file policy.bin (at most 2,305 bytes of it)"
pub(super) const MOST_READ: usize = 2305;

/// "2-byte little-endian records: first the request, then one shown set a round. A last odd byte counts for nothing"
fn records(input: &[u8]) -> Vec<u16> {
    input
        .chunks_exact(2)
        .map(|bytes| u16::from_le_bytes([bytes[0], bytes[1]]))
        .collect()
}

/// "A refusal prints "refused" with its number, and for the policy "at" with its record number"
pub(super) fn refused(refusal: Refusal) -> String {
    match refusal.record {
        Some(record) => format!("refused {} at {}\n", refusal.number, record),
        None => format!("refused {}\n", refusal.number),
    }
}

/// ""round", the count, "got", the shown set p as four lower-case hexadecimal digits, then "ask" with four digits, or "grant",
/// or "deny""
pub(super) fn line(session: &Session, p: u16, ending: Ending) -> String {
    let answer = match ending {
        Ending::Ask(asked) => format!("ask {asked:04x}"),
        Ending::Grant => "grant".to_string(),
        Ending::Deny => "deny".to_string(),
    };
    format!("round {} got {p:04x} {answer}\n", session.count)
}

/// The rounds: "a round after closing prints "refused 9" for each record left"
fn rounds(policy: &[u8], fresh: Session, shown: &[u16]) -> String {
    let mut session = fresh;
    let mut text = String::new();
    for p in shown {
        match round(policy, &session, *p) {
            Ok((ending, next)) => {
                text += &line(&next, *p, ending);
                session = next;
            }
            Err(refusal) => text += &refused(refusal),
        }
    }
    text
}

/// The whole output: "a missing policy file counts as empty", "A refused policy or request ends the output, the policy being
/// tested first", "No request record: no output, policy untested."
pub fn output(file: Option<&[u8]>, input: &[u8]) -> String {
    let file = file.unwrap_or(&[]);
    let policy = &file[..file.len().min(MOST_READ)];
    let records = records(input);
    let Some((request, shown)) = records.split_first() else {
        return String::new();
    };
    if let Err(refusal) = check(policy) {
        return refused(refusal);
    }
    match open(*request) {
        Ok(fresh) => rounds(policy, fresh, shown),
        Err(refusal) => refused(refusal),
    }
}
