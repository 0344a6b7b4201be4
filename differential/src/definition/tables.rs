//! Tables (document 02, R-5 and R-6) read as they stand: each refusal by itself, and of those that apply the first in the paper's
//! order.

use super::{call_round, check};
use crate::calls::{Memory, Operation, Preview};
use crate::plain::interface::refusal_reply;
use crate::plain::policy::Refusal;

/// "Opening tests 7, 14, 15, 16"; bytes that are no slot are refused 8 between.
const OPENING: [u32; 5] = [7, 14, 8, 15, 16];

/// The twelve bytes of a slot, if the list is so long.
fn slot_at(table: &[u8], slot: usize) -> Option<[u8; 12]> {
    let first = slot.checked_mul(12)?;
    let bytes = table.get(first..first.checked_add(12)?)?;
    bytes.try_into().ok()
}

fn is_empty(slot: [u8; 12]) -> bool {
    slot == [0; 12]
}

/// Held by an owner: the phase is 0 to 3, and nothing is asked for unless it is 1.
fn is_held(slot: [u8; 12]) -> bool {
    let asks = slot[10] != 0 || slot[11] != 0;
    slot[1] == 1
        && match slot[9] {
            1 => true,
            0 | 2 | 3 => !asks,
            _ => false,
        }
}

/// "an unfinished session (fresh or waiting)"
fn is_unfinished(slot: [u8; 12]) -> bool {
    is_held(slot) && [0, 1].contains(&slot[9])
}

/// "owner has four or more": four slots up to the 64th, one after the other.
fn has_four(table: &[u8], owner: u8) -> bool {
    let its = |k: &usize| {
        let slot = slot_at(table, *k);
        slot.is_some_and(|slot| slot[0] == owner && is_unfinished(slot))
    };
    let mut from = 0;
    (0..4).all(|_| match (from..=63).find(its) {
        Some(found) => {
            from = found + 1;
            true
        }
        None => false,
    })
}

/// Whether a refusal applies to an opening, whatever others do.
fn applies(number: u32, table: &[u8], slot: usize, owner: u8, request: u16) -> bool {
    let bytes = slot_at(table, slot);
    match number {
        7 => !(16..=62).contains(&request),
        14 => slot > 63 || bytes.is_none(),
        8 => bytes.is_some_and(|slot| !is_empty(slot) && !is_held(slot)),
        15 => bytes.is_some_and(is_unfinished),
        _ => has_four(table, owner),
    }
}

fn open_at(table: &mut [u8], slot: usize, owner: u8, request: u16) -> u32 {
    let first = OPENING
        .into_iter()
        .find(|number| applies(*number, table, slot, owner, request));
    if let Some(number) = first {
        return number;
    }
    for (k, byte) in table.iter_mut().enumerate().filter(|(k, _)| k / 12 == slot) {
        *byte = match k % 12 {
            0 => owner,
            1 => 1,
            2 => (request % 256) as u8,
            3 => (request / 256) as u8,
            _ => 0,
        };
    }
    0
}

fn round_at(policy: &[u8], table: &mut [u8], slot: usize, p: u16) -> Result<u32, Refusal> {
    let rules = check(policy)?;
    let Some(bytes) = slot_at(table, slot).filter(|_| slot < 64) else {
        return Err(Refusal::without_record(14));
    };
    if !is_held(bytes) {
        return Err(Refusal::without_record(8));
    }
    let mut memory = Memory([0; 32]);
    memory.set_session(bytes[2..].try_into().expect("ten bytes"));
    let reply = call_round(&rules, p, &mut memory)?;
    let place = 12 * slot + 2;
    table[place..place + 10].copy_from_slice(&memory.session());
    Ok(reply)
}

pub(super) fn operate(operation: Operation, policy: &[u8], table: &mut [u8]) -> u32 {
    match operation {
        Operation::Open {
            slot,
            owner,
            request,
        } => open_at(table, slot, owner, request),
        Operation::Round { slot, p } => {
            round_at(policy, table, slot, p).unwrap_or_else(refusal_reply)
        }
    }
}

/// A preview: the round in a list of that slot alone, since "A round is that of the seat's session and touches nothing else", and
/// in a list of no slots where 14 refuses it. What is held there afterwards is given.
pub(super) fn preview(preview: Preview, policy: &[u8], table: &[u8]) -> (u32, [u8; 12]) {
    let named = slot_at(table, preview.slot).filter(|_| preview.slot <= 63);
    let mut alone = named.map_or(Vec::new(), Vec::from);
    let reply = round_at(policy, &mut alone, 0, preview.p).unwrap_or_else(refusal_reply);
    let given = slot_at(&alone, 0).filter(|slot| is_held(*slot));
    (reply, given.unwrap_or([0; 12]))
}
