//! Every length with slots' numbers near the ends, every place of an owner's sessions, bytes at every place of a slot, every owner;
//! an opening, a round and a preview of each, and previews of every kind of slot.

use crate::calls::{Operation, Preview};
use crate::marked::policy_a;
use crate::policies::{access, encode, weight};
use crate::tester::Tester;

/// A fresh session of owner 7, one that waits, and one that is closed.
const FRESH: [u8; 12] = [7, 1, 16, 0, 0, 0, 0, 0, 0, 0, 0, 0];
const WAITING: [u8; 12] = [7, 1, 16, 0, 0, 0, 0, 0, 1, 1, 4, 0];
const CLOSED: [u8; 12] = [7, 1, 16, 0, 4, 0, 0, 0, 1, 2, 0, 0];

/// Bytes that are no slot: an owner, or a session too, with nothing held; neither held nor not; no session.
const NO_SLOTS: [[u8; 12]; 4] = [
    [7, 0, 0, 0, 0, 0, 0, 0, 0, 0, 0, 0],
    [7, 0, 16, 0, 0, 0, 0, 0, 0, 0, 0, 0],
    [7, 2, 16, 0, 0, 0, 0, 0, 0, 0, 0, 0],
    [7, 1, 16, 0, 0, 0, 0, 0, 0, 4, 0, 0],
];

/// Sessions of owner 7 that a round refuses 8 and 7.
const UNSOUND: [u8; 12] = [7, 1, 16, 0, 0, 0, 0, 0, 5, 0, 0, 0];
const NO_SERVICE: [u8; 12] = [7, 1, 15, 0, 0, 0, 0, 0, 0, 0, 0, 0];

/// An opening at a slot, and two rounds there, each after its preview; all on the same table.
fn all(tester: &mut Tester, table: &[u8], slot: usize, owner: u8) {
    let request = 16;
    let opening = Operation::Open {
        slot,
        owner,
        request,
    };
    tester.operate(opening, table);
    for p in [0, 4] {
        previewed(tester, table, Preview { slot, p });
    }
}

/// A preview, and the round.
fn previewed(tester: &mut Tester, table: &[u8], preview: Preview) {
    let seen = tester.preview(preview, table);
    let played = tester.operate(preview.round(), table);
    let (Some(seen), Some((reply, after))) = (seen, played) else {
        return;
    };
    let slot = after.chunks_exact(12).nth(preview.slot);
    if !seen.comes_true(reply, slot) {
        let lines = [format!("{preview:?}: {seen:x?}; then {reply:08x}")];
        tester.found_in("a round is not as it was previewed", &lines);
    }
}

fn put(table: &mut [u8], slot: usize, bytes: [u8; 12]) {
    table[12 * slot..12 * slot + 12].copy_from_slice(&bytes);
}

/// Every length up to 72 slots, at the ends, with slots full or empty.
fn lengths(tester: &mut Tester) {
    for bytes in 0..=12 * 72 {
        let slots = bytes / 12;
        let mut table = vec![0; bytes];
        for slot in (0..slots).step_by(2) {
            put(&mut table, slot, CLOSED);
        }
        let ends = [slots.saturating_sub(1), slots, slots + 1, 63, 64];
        for slot in ends {
            all(tester, &table, slot, 7);
        }
    }
}

/// The fourth of an owner's sessions at every place of a table of 70 slots, the others anywhere, for every slot.
fn places(tester: &mut Tester) {
    for (one, held) in (0..70).flat_map(|k| [(k, FRESH), (k, WAITING), (k, CLOSED)]) {
        let mut table = vec![0; 12 * 70 + 5];
        for k in 1..4 {
            put(&mut table, (one + 17 * k) % 63, FRESH);
        }
        put(&mut table, one, held);
        for slot in [0, one, (one + 1) % 64, 63, 64] {
            all(tester, &table, slot, 7);
        }
    }
}

/// Bytes at every place of a slot that is empty, fresh, waiting or closed, all that there are for owner, held and phase: taken,
/// played, and counted.
fn bytes(tester: &mut Tester) {
    let some = [0, 1, 2, 4, 15, 16, 62, 63, 128, 255];
    for slot in [[0; 12], FRESH, WAITING, CLOSED] {
        for (place, byte) in (0..12).flat_map(|place| (0..=255).map(move |byte| (place, byte))) {
            if ![0, 1, 9].contains(&place) && !some.contains(&byte) {
                continue;
            }
            let mut changed = slot;
            changed[place] = byte;
            let table = [FRESH, WAITING, changed, FRESH, [0; 12]].concat();
            all(tester, &table, 2, 1);
            all(tester, &table, 4, 7);
        }
    }
}

/// Every owner, with four sessions and with three.
fn owners(tester: &mut Tester) {
    for owner in 0..=255 {
        for last in [FRESH, CLOSED] {
            let mut slots = [FRESH, WAITING, last, FRESH, [0; 12], CLOSED];
            for slot in [0, 1, 2, 3] {
                slots[slot][0] = owner;
            }
            all(tester, &slots.concat(), 4, owner);
            all(tester, &slots.concat(), 5, owner);
        }
    }
}

/// A policy for each refusal of the policy's test.
fn refused() -> [Vec<u8>; 8] {
    [
        vec![0; 2305],
        vec![0; 17],
        vec![0; 18],
        encode(&[access(15, 0, 0)]),
        encode(&[access(16, 1 << 63, 0)]),
        encode(&[access(17, 0, 1 << 17)]),
        encode(&[weight(0, 16)]),
        encode(&[weight(0, 1), weight(0, 1)]),
    ]
}

/// Every kind of slot at every place of a table of 70 slots, among sessions that are waiting or closed.
fn kinds(tester: &mut Tester) {
    let held = [[0; 12], FRESH, WAITING, CLOSED, UNSOUND, NO_SERVICE];
    for (slot, kind) in (0..70).flat_map(|k| held.iter().chain(&NO_SLOTS).map(move |s| (k, *s))) {
        let mut table = [WAITING, CLOSED].concat().repeat(35);
        put(&mut table, slot, kind);
        for p in [0, 3, 4, 5, 0xffff] {
            previewed(tester, &table, Preview { slot, p });
        }
    }
}

/// All of them, lengths, places and bytes under a policy that is refused too, and every kind of slot under one for each refusal.
pub fn every_table(tester: &mut Tester) {
    for policy in [policy_a(), vec![0; 18]] {
        tester.set_policy(policy);
        lengths(tester);
        places(tester);
        bytes(tester);
    }
    for policy in refused() {
        tester.set_policy(policy);
        kinds(tester);
    }
    tester.set_policy(policy_a());
    kinds(tester);
    owners(tester);
}
