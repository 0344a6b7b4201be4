//! Tables of slots (document 02, R-5, "A station with many callers", and R-6, "Show me before I send it"). What the paper calls a
//! seat is a slot here.

use super::policy::{check, Refusal};
use super::session::{is_service, open, round, Ending, Phase, Session};

/// "A lent list of at most 64 seats"
pub const MOST_SLOTS: usize = 64;

/// "No owner has more than four unfinished sessions"
pub const MOST_UNFINISHED: usize = 4;

/// "each empty or holding an owner (one byte) and a session"
#[derive(Clone, Copy, PartialEq, Eq, Debug)]
pub enum Slot {
    Empty,
    Held {
        owner: u8,
        session: Session,
    },
    /// Bytes that stand for no slot, which no operation gives: answered as an unsound session is, and nobody's.
    Unreadable,
}

/// "an unfinished session (fresh or waiting)"
pub fn unfinished(session: &Session) -> bool {
    matches!(session.phase, Phase::Fresh | Phase::Waiting(_))
}

/// "14, the seat's number, from 0, is past the list's end or above 63"
fn within(slots: &[Slot], slot: usize) -> Result<(), Refusal> {
    if slot >= slots.len() || slot > 63 {
        return Err(Refusal::without_record(14));
    }
    Ok(())
}

/// How many unfinished sessions an owner has: "Seats past the 64th are never read".
pub fn unfinished_of(slots: &[Slot], owner: u8) -> usize {
    let first = slots.iter().take(MOST_SLOTS);
    let its = first.filter(|slot| match slot {
        Slot::Held { owner: of, session } => *of == owner && unfinished(session),
        _ => false,
    });
    its.count()
}

/// "15, seat holds an unfinished session (fresh or waiting)"; of bytes that are no slot, 8 in its turn.
fn free(slot: &Slot) -> Result<(), Refusal> {
    match slot {
        Slot::Held { session, .. } if unfinished(session) => Err(Refusal::without_record(15)),
        Slot::Unreadable => Err(Refusal::without_record(8)),
        _ => Ok(()),
    }
}

/// "Opening names seat and owner and may take an empty seat or one whose session is closed." "Opening tests 7, 14, 15, 16"
pub fn open_at(slots: &mut [Slot], slot: usize, owner: u8, request: u16) -> Result<(), Refusal> {
    if !is_service(request) {
        return Err(Refusal::without_record(7));
    }
    within(slots, slot)?;
    free(&slots[slot])?;
    if unfinished_of(slots, owner) >= MOST_UNFINISHED {
        return Err(Refusal::without_record(16));
    }
    let session = open(request)?;
    slots[slot] = Slot::Held { owner, session };
    Ok(())
}

/// "a round tests the policy, 14, then an empty seat as 8, then the session as before." "A round is that of the seat's session and
/// touches nothing else"
pub fn round_at(policy: &[u8], slots: &mut [Slot], slot: usize, p: u16) -> Result<Ending, Refusal> {
    check(policy)?;
    within(slots, slot)?;
    let Slot::Held { owner, session } = slots[slot] else {
        return Err(Refusal::without_record(8));
    };
    let (ending, session) = round(policy, &session, p)?;
    slots[slot] = Slot::Held { owner, session };
    Ok(ending)
}

/// "The preview's answer and session are those of the same round on a copy of the list, refusals included, and the list itself is
/// left; where the seat is empty or one that 14 refuses, no session is given." The session comes with its owner, as the copy's
/// slot; an empty slot where none is given. Bytes that are no slot hold no session.
pub fn preview_at(
    policy: &[u8],
    slots: &[Slot],
    slot: usize,
    p: u16,
) -> (Result<Ending, Refusal>, Slot) {
    let mut copy = slots.to_vec();
    let answer = round_at(policy, &mut copy, slot, p);
    let given = match within(&copy, slot) {
        Ok(()) if matches!(copy[slot], Slot::Held { .. }) => copy[slot],
        _ => Slot::Empty,
    };
    (answer, given)
}
