//! Tables (document 02, R-5, R-6) on the bytes as they are lent: nothing is read but the slot that is named, and one pass counts.

use super::{check, round};
use crate::calls::{Operation, Preview};
use crate::plain::interface::{decode, encode, ending_reply};
use crate::plain::policy::Refusal;
use crate::plain::session::is_service;

type Bytes = [u8; 12];

/// The slot that an operation names, none where 14 refuses it.
fn named(table: &mut [u8], slot: usize) -> Option<&mut Bytes> {
    let (slots, _) = table.as_chunks_mut::<12>();
    let most = slots.len().min(64);
    slots[..most].get_mut(slot)
}

/// Whether a slot is fresh or waiting: a phase of 0 with a question is none.
fn open(slot: &Bytes) -> bool {
    slot[1] == 1 && (slot[9] == 1 || slot[9..] == [0; 3])
}

/// Whether an opening may take a slot: empty, or a phase of 2 or 3 with no question.
fn taken(slot: &Bytes) -> Result<(), Refusal> {
    match (slot[1], slot[9] | 1, slot[10] | slot[11]) {
        (1, 3, 0) => Ok(()),
        _ if open(slot) => Err(Refusal::without_record(15)),
        _ if *slot == [0; 12] => Ok(()),
        _ => Err(Refusal::without_record(8)),
    }
}

fn open_at(table: &mut [u8], slot: usize, owner: u8, request: u16) -> Result<u32, Refusal> {
    if !is_service(request) {
        return Err(Refusal::without_record(7));
    }
    taken(named(table, slot).ok_or(Refusal::without_record(14))?)?;
    let first = table.as_chunks::<12>().0.iter().take(64);
    if first.filter(|s| s[0] == owner && open(s)).nth(3).is_some() {
        return Err(Refusal::without_record(16));
    }
    if let Some(bytes) = named(table, slot) {
        *bytes = [owner, 1, request as u8, 0, 0, 0, 0, 0, 0, 0, 0, 0];
    }
    Ok(0)
}

fn round_at(policy: &[u8], table: &mut [u8], slot: usize, p: u16) -> Result<u32, Refusal> {
    let named = named(table, slot);
    let turned_away = if named.is_some() { 8 } else { 14 };
    let [_, held, bytes @ ..] = named.copied().unwrap_or([0; 12]);
    let Some(session) = decode(bytes).filter(|_| held == 1) else {
        check(policy)?;
        return Err(Refusal::without_record(turned_away));
    };
    let (ending, next) = round(policy, &session, p)?;
    table[12 * slot + 2..12 * slot + 12].copy_from_slice(&encode(&next));
    Ok(ending_reply(ending))
}

pub fn operate(operation: Operation, policy: &[u8], table: &mut [u8]) -> Result<u32, Refusal> {
    match operation {
        Operation::Open {
            slot,
            owner,
            request,
        } => open_at(table, slot, owner, request),
        Operation::Round { slot, p } => round_at(policy, table, slot, p),
    }
}

/// The slot's twelve bytes as a round would leave them, from those bytes alone; no list is copied.
pub fn preview(preview: Preview, policy: &[u8], table: &[u8]) -> (Result<u32, Refusal>, Bytes) {
    let first = &table[..table.len().min(12 * 64)];
    let named = first.as_chunks::<12>().0.get(preview.slot);
    let mut given = named.copied().unwrap_or([0; 12]);
    let [_, held, bytes @ ..] = given;
    let Some(session) = decode(bytes).filter(|_| held == 1) else {
        let number = if named.is_some() { 8 } else { 14 };
        let refused = Err(Refusal::without_record(number));
        return (check(policy).map_or_else(Err, |_| refused), [0; 12]);
    };
    let answer = round(policy, &session, preview.p).map(|(ending, next)| {
        given[2..].copy_from_slice(&encode(&next));
        ending_reply(ending)
    });
    (answer, given)
}
