//! What the station program prints: openings, rounds and previews at 64 slots (document 02, R-5 and R-6). Its input is our own.

use super::bench::{line, refused, MOST_READ};
use super::policy::Refusal;
use super::session::Ending;
use super::tables::{open_at, preview_at, round_at, Slot, MOST_SLOTS};

/// Bytes of a record: which operation, the slot, the owner, and two bytes for the request or the shown set, lower byte first.
pub const RECORD_BYTES: usize = 5;

/// What is done at a slot.
#[derive(Clone, Copy, PartialEq, Eq, Debug)]
pub enum Act {
    Open { owner: u8, request: u16 },
    Round { p: u16 },
    Preview { p: u16 },
}

/// A slot's number, and what is done there; none of a record that begins otherwise. Only an opening looks at the owner.
fn act(record: &[u8]) -> Option<(usize, Act)> {
    let word = u16::from_le_bytes([record[3], record[4]]);
    let act = match record[0] {
        1 => Act::Open {
            owner: record[2],
            request: word,
        },
        2 => Act::Round { p: word },
        3 => Act::Preview { p: word },
        _ => return None,
    };
    Some((usize::from(record[1]), act))
}

/// What an input asks for, in order: a record that begins otherwise is passed over, a last incomplete one counts for nothing.
pub fn acts(input: &[u8]) -> Vec<(usize, Act)> {
    input.chunks_exact(RECORD_BYTES).filter_map(act).collect()
}

/// What is printed of a round, by the slot as it leaves it.
fn played(answer: Result<Ending, Refusal>, after: Slot, p: u16) -> String {
    match (answer, after) {
        (Ok(ending), Slot::Held { session, .. }) => line(&session, p, ending),
        (Ok(_), _) => unreachable!("an accepted round leaves its session"),
        (Err(refusal), _) => refused(refusal),
    }
}

/// What is printed after the slot's number; the slots are left as the operation leaves them.
fn told(policy: &[u8], slots: &mut [Slot], slot: usize, act: Act) -> String {
    match act {
        Act::Open { owner, request } => match open_at(slots, slot, owner, request) {
            Ok(()) => "opened\n".to_string(),
            Err(refusal) => refused(refusal),
        },
        Act::Round { p } => {
            let answer = round_at(policy, slots, slot, p);
            let after = slots.get(slot).copied().unwrap_or(Slot::Empty);
            played(answer, after, p)
        }
        Act::Preview { p } => {
            let (answer, given) = preview_at(policy, slots, slot, p);
            format!("preview {}", played(answer, given, p))
        }
    }
}

/// The whole output, from an all-empty list of 64 slots: a line for each operation, refused or not.
pub fn output(file: Option<&[u8]>, input: &[u8]) -> String {
    let file = file.unwrap_or(&[]);
    let policy = &file[..file.len().min(MOST_READ)];
    let mut slots = [Slot::Empty; MOST_SLOTS];
    acts(input)
        .into_iter()
        .map(|(slot, act)| format!("{slot} {}", told(policy, &mut slots, slot, act)))
        .collect()
}
