//! Random tables: their lengths, what stands in their slots, whose it is, and the numbers by which slots are named.

use crate::plain::interface::encode;
use crate::plain::session::{open, Phase, Session, Verdict};
use crate::plain::table_bytes::SLOT_BYTES;
use crate::plain::tables::MOST_SLOTS;
use crate::random::Random;
use crate::sessions;

type Bytes = [u8; SLOT_BYTES];

/// Slots' numbers that no table has: at powers of two, and where twelve times the number is past 64 bits.
const LARGE: [usize; 12] = [
    255,
    256,
    257,
    1 << 16,
    1 << 32,
    (1 << 32) + 1,
    (1 << 32) + 63,
    1 << 62,
    (1 << 62) + 1,
    usize::MAX / 12,
    usize::MAX / 12 + 1,
    usize::MAX,
];

/// What a list of operations draws from.
pub struct Callers {
    pub owners: Vec<u8>,
    /// A service of the policy's, and the credentials that it names.
    pub request: u16,
    pub named: u16,
}

/// Few owners, so that each has several sessions.
pub fn owners(random: &mut Random) -> Vec<u8> {
    let count = random.pick(&[1, 1, 2, 2, 2, 3, 4]);
    let any = random.byte();
    (0..count)
        .map(|_| random.pick(&[0, 1, 2, 254, 255, any]))
        .collect()
}

/// How many bytes a table has: so many slots, and sometimes some left over.
pub fn length(random: &mut Random) -> usize {
    let slots = match random.below(12) {
        0 => random.pick(&[0, 1]),
        1 | 2 => 5,
        3..=5 => 64,
        6 | 7 => 70,
        8 => random.pick(&[62, 63, 65]),
        9 => random.range(65, 90),
        _ => random.range(2, 12),
    };
    let left_over = match random.below(3) {
        0 => random.range(1, SLOT_BYTES - 1),
        _ => 0,
    };
    SLOT_BYTES * slots + left_over
}

fn held(owner: u8, session: [u8; 10]) -> Bytes {
    let mut bytes = [owner, 1, 0, 0, 0, 0, 0, 0, 0, 0, 0, 0];
    bytes[2..].copy_from_slice(&session);
    bytes
}

/// A sound session that is closed.
fn closed(random: &mut Random, callers: &Callers) -> Session {
    let mut session = sessions::sound(random, callers.request, callers.named);
    session.phase = Phase::Closed(random.pick(&[Verdict::Grant, Verdict::Deny]));
    session.count = session.count.max(1);
    session
}

/// Bytes that stand for no slot: an owner with nothing held, a byte that is neither held nor not, no session.
fn no_slot(random: &mut Random, owner: u8, callers: &Callers) -> Bytes {
    let sound = encode(&sessions::sound(random, callers.request, callers.named));
    let mut bytes = held(owner, sound);
    match random.below(6) {
        0 => {
            bytes = [0; SLOT_BYTES];
            bytes[random.pick(&[0, 2, 3, 4, 5, 6, 7, 8, 9, 10, 11])] = random.pick(&[1, 128, 255]);
        }
        1 => bytes[1] = 0,
        2 => bytes[1] = random.pick(&[2, 3, 128, 129, 255]),
        3 => bytes = std::array::from_fn(|_| random.byte()),
        _ => {
            bytes = held(
                owner,
                sessions::none(random, callers.request, callers.named),
            )
        }
    }
    bytes
}

/// What stands in one slot.
fn slot(random: &mut Random, style: usize, callers: &Callers) -> Bytes {
    let owner = match random.below(12) {
        0 => random.byte(),
        _ => random.pick(&callers.owners),
    };
    let (request, named) = (callers.request, callers.named);
    let kind = match (style, random.below(10)) {
        (0, 0..=6) | (1, 0..=8) => 0,
        (2, 0..=5) => 2,
        _ => random.below(7),
    };
    match kind {
        0 => [0; SLOT_BYTES],
        1 => held(owner, open(request).map_or([0; 10], |fresh| encode(&fresh))),
        2 => held(owner, encode(&closed(random, callers))),
        3 => held(owner, encode(&sessions::unsound(random, request, named))),
        4 => no_slot(random, owner, callers),
        _ => held(owner, encode(&sessions::sound(random, request, named))),
    }
}

/// A table of this length with something in it: few sessions, some, mostly closed ones, or all full; past the 64th slot often full.
pub fn table(random: &mut Random, length: usize, callers: &Callers) -> Vec<u8> {
    let style = random.pick(&[0, 0, 0, 1, 1, 1, 2, 3]);
    let past = random.pick(&[style, 3]);
    let slots = length / SLOT_BYTES;
    let mut table: Vec<u8> = (0..slots)
        .flat_map(|k| slot(random, if k < MOST_SLOTS { style } else { past }, callers))
        .collect();
    table.extend((table.len()..length).map(|_| random.byte()));
    table
}

/// An all-empty table of this length; the bytes left over at the end are any.
pub fn empty(random: &mut Random, length: usize) -> Vec<u8> {
    let slots = length / SLOT_BYTES;
    let mut table = vec![0; SLOT_BYTES * slots];
    table.extend((table.len()..length).map(|_| random.byte()));
    table
}

/// A slot's number: inside mostly, at the ends, past them, and far off.
pub fn number(random: &mut Random, slots: usize) -> usize {
    match random.below(20) {
        0 => random.pick(&[slots, slots, slots + 1, slots.saturating_sub(1)]),
        1 => random.pick(&[0, 62, 63, 63, 64, 64, 65]),
        2 => random.pick(&LARGE),
        3 => slots.min(64).saturating_sub(1),
        4 => random.range(64, 70.max(slots)),
        5 if slots > MOST_SLOTS => random.range(MOST_SLOTS, slots - 1),
        _ => random.below(slots.clamp(1, 64)),
    }
}
