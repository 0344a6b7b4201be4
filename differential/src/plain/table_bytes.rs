//! The plain version of tables behind the calls of include/gate.h: a slot as twelve bytes.

use super::interface::{decode, encode, ending_reply};
use super::policy::Refusal;
use super::tables::{open_at, preview_at, round_at, Slot};
use crate::calls::{Operation, Preview};

/// Twelve bytes for each slot; bytes left over at the end are not touched.
pub const SLOT_BYTES: usize = 12;

/// An empty slot is twelve zeros; another has its owner, a byte 1, and the ten bytes of a session. Other bytes stand for no slot.
pub fn read_slot(bytes: &[u8]) -> Slot {
    if bytes.iter().all(|byte| *byte == 0) {
        return Slot::Empty;
    }
    let session = decode(bytes[2..12].try_into().expect("ten bytes"));
    match (bytes[1], session) {
        (1, Some(session)) => Slot::Held {
            owner: bytes[0],
            session,
        },
        _ => Slot::Unreadable,
    }
}

pub fn read_table(table: &[u8]) -> Vec<Slot> {
    table.chunks_exact(SLOT_BYTES).map(read_slot).collect()
}

/// The twelve bytes of a slot, where there are such.
pub fn write_slot(slot: &Slot) -> Option<[u8; SLOT_BYTES]> {
    let mut bytes = [0; SLOT_BYTES];
    match slot {
        Slot::Empty => {}
        Slot::Held { owner, session } => {
            bytes[..2].copy_from_slice(&[*owner, 1]);
            bytes[2..].copy_from_slice(&encode(session));
        }
        Slot::Unreadable => return None,
    }
    Some(bytes)
}

/// Writes back what has been read, bytes that are no slot left as they are.
fn write_table(slots: &[Slot], table: &mut [u8]) {
    for (slot, bytes) in slots.iter().zip(table.chunks_exact_mut(SLOT_BYTES)) {
        if let Some(written) = write_slot(slot) {
            bytes.copy_from_slice(&written);
        }
    }
}

/// An operation on the lent bytes.
pub fn operate(operation: Operation, policy: &[u8], table: &mut [u8]) -> Result<u32, Refusal> {
    let mut slots = read_table(table);
    let reply = match operation {
        Operation::Open {
            slot,
            owner,
            request,
        } => {
            open_at(&mut slots, slot, owner, request)?;
            0
        }
        Operation::Round { slot, p } => ending_reply(round_at(policy, &mut slots, slot, p)?),
    };
    write_table(&slots, table);
    Ok(reply)
}

/// A preview from the lent bytes: its answer, and the twelve bytes of the slot that it gives.
pub fn preview(
    preview: Preview,
    policy: &[u8],
    table: &[u8],
) -> (Result<u32, Refusal>, [u8; SLOT_BYTES]) {
    let slots = read_table(table);
    let (answer, given) = preview_at(policy, &slots, preview.slot, preview.p);
    let bytes = write_slot(&given).unwrap_or([0; SLOT_BYTES]);
    (answer.map(ending_reply), bytes)
}
