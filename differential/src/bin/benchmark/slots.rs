//! Openings, rounds and previews at a slot of a full table (document 02, R-5 and R-6).

use crate::inputs::Input;
use crate::items::Item;
use differential::calls::{Operation, Preview};
use differential::gate;
use differential::plain::interface::{encode, refusal_reply};
use differential::plain::session::open;
use differential::plain::table_bytes;
use differential::tuned::tables;
use std::hint::black_box;

type Table = [u8; 768];

/// Sixty-four slots with fresh sessions for the request, each of another owner.
pub fn full_table(request: u16) -> Option<Table> {
    let session = encode(&open(request).ok()?);
    let mut table = [0; 768];
    for (owner, slot) in table.chunks_exact_mut(12).enumerate() {
        slot[..2].copy_from_slice(&[owner as u8, 1]);
        slot[2..].copy_from_slice(&session);
    }
    Some(table)
}

/// The reply and bytes 4 to 11 of a slot, as one number.
fn slot_number(reply: u32, slot: &[u8]) -> u64 {
    let bytes = slot[4..12].try_into();
    u64::from(reply) << 32 ^ u64::from_le_bytes(bytes.expect("eight bytes"))
}

/// The same of a slot of a table.
fn number(reply: u32, table: &[u8], slot: usize) -> u64 {
    slot_number(reply, &table[12 * slot..])
}

/// One operation on a copy of a table, by all three versions.
fn item(name: String, operation: Operation, policy: &[u8], table: Table) -> Item {
    let slot = operation.slot();
    let [a, b, c] = std::array::from_fn(|_| policy.to_vec());
    Item {
        name,
        versions: [
            Box::new(move || {
                let mut table = black_box(table);
                number(
                    gate::operate(black_box(operation), black_box(&a), &mut table),
                    &table,
                    slot,
                )
            }),
            Box::new(move || {
                let mut table = black_box(table);
                let reply = table_bytes::operate(black_box(operation), black_box(&b), &mut table);
                number(reply.unwrap_or_else(refusal_reply), &table, slot)
            }),
            Box::new(move || {
                let mut table = black_box(table);
                let reply = tables::operate(black_box(operation), black_box(&c), &mut table);
                number(reply.unwrap_or_else(refusal_reply), &table, slot)
            }),
        ],
    }
}

/// One preview over a copy of a table, by all three versions.
fn preview(name: String, preview: Preview, policy: &[u8], table: Table) -> Item {
    let [a, b, c] = std::array::from_fn(|_| policy.to_vec());
    Item {
        name,
        versions: [
            Box::new(move || {
                let table = black_box(table);
                let (reply, given) = gate::preview(black_box(preview), black_box(&a), &table);
                slot_number(reply, &given)
            }),
            Box::new(move || {
                let table = black_box(table);
                let (reply, given) =
                    table_bytes::preview(black_box(preview), black_box(&b), &table);
                slot_number(reply.unwrap_or_else(refusal_reply), &given)
            }),
            Box::new(move || {
                let table = black_box(table);
                let (reply, given) = tables::preview(black_box(preview), black_box(&c), &table);
                slot_number(reply.unwrap_or_else(refusal_reply), &given)
            }),
        ],
    }
}

/// At the last of 64 slots: the first round of the session there, its preview, and an opening, for which all are counted.
pub fn items(input: &Input) -> Vec<Item> {
    let Some(mut table) = full_table(input.request) else {
        return Vec::new();
    };
    let (slot, request) = (63, input.request);
    let round = Operation::Round { slot, p: 0 };
    let name = format!("first round at slot 63, {}, request {request}", input.name);
    let mut items = vec![item(name, round, &input.policy, table)];
    let name = format!(
        "preview of a first round at slot 63, {}, request {request}",
        input.name
    );
    items.push(preview(name, Preview { slot, p: 0 }, &input.policy, table));
    table[12 * slot..].fill(0);
    let owner = 62;
    let opening = Operation::Open {
        slot,
        owner,
        request,
    };
    let name = "opening at slot 63, 63 others held".to_string();
    items.push(item(name, opening, &input.policy, table));
    items
}
