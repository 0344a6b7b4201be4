//! The station program over a version of the gate: 64 slots, and openings, rounds and previews at them.

use crate::calls::{
    asked_of, ending_of, refusal_of, Memory, Operation, Preview, Version, ASK, GRANT,
};
use crate::conformance::case::Run;
use crate::plain::table_bytes::SLOT_BYTES;

const SLOTS: usize = 64;

/// Bytes of an operation: which one, the slot, the owner, and two bytes for the request or the shown set, lower byte first.
const RECORD_BYTES: usize = 5;

/// What is printed after the slot's number, by the reply and the session that it leaves.
fn told(reply: u32, p: Option<u16>, session: [u8; 10]) -> String {
    let (number, record) = (refusal_of(reply), reply >> 8);
    match (number, p) {
        (1..=6 | 12 | 13, _) => format!("refused {number} at {record}"),
        (1.., _) => format!("refused {number}"),
        (0, None) => "opened".to_string(),
        (0, Some(p)) => {
            let ending = match ending_of(reply) {
                ASK => format!("ask {:04x}", asked_of(session)),
                GRANT => "grant".to_string(),
                _ => "deny".to_string(),
            };
            format!("round {} got {p:04x} {ending}", session[6])
        }
    }
}

/// The session of a slot of twelve bytes.
fn session_of(slot: &[u8]) -> [u8; 10] {
    slot[2..SLOT_BYTES].try_into().expect("ten bytes")
}

fn session_at(table: &[u8], slot: usize) -> [u8; 10] {
    let bytes = table.get(SLOT_BYTES * slot..SLOT_BYTES * (slot + 1));
    bytes.map_or([0; 10], session_of)
}

/// The line of one record, if it has one.
fn line(
    version: &mut dyn Version,
    policy: &mut [u8],
    table: &mut [u8],
    record: &[u8],
) -> Option<String> {
    let (slot, owner) = (usize::from(record[1]), record[2]);
    let word = u16::from_le_bytes([record[3], record[4]]);
    let text = match record[0] {
        1 => {
            let request = word;
            let opening = Operation::Open {
                slot,
                owner,
                request,
            };
            told(version.operate(opening, policy, table), None, [0; 10])
        }
        2 => {
            let reply = version.operate(Operation::Round { slot, p: word }, policy, table);
            told(reply, Some(word), session_at(table, slot))
        }
        3 => {
            let mut given = Memory([0; 32]);
            let reply = version.preview(Preview { slot, p: word }, policy, table, &mut given);
            format!(
                "preview {}",
                told(reply, Some(word), session_of(&given.slot()))
            )
        }
        _ => return None,
    };
    Some(format!("{slot} {text}\n"))
}

/// What the program prints that has this version of the gate under it.
pub fn station(version: &mut dyn Version, run: &Run) -> String {
    let mut policy = run.policy().to_vec();
    let mut table = vec![0; SLOT_BYTES * SLOTS];
    let records = run.input.chunks_exact(RECORD_BYTES);
    records
        .filter_map(|record| line(version, &mut policy, &mut table, record))
        .collect()
}
