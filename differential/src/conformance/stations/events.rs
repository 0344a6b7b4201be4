//! What a run of the station program brings up, by the plain version.

use crate::conformance::case::Run;
use crate::plain::session::{Ending, Phase, Verdict};
use crate::plain::station::{acts, Act};
use crate::plain::tables::{
    open_at, preview_at, round_at, unfinished, unfinished_of, Slot, MOST_SLOTS, MOST_UNFINISHED,
};
use std::collections::BTreeSet;

/// How an operation was answered; a refusal by its number.
#[derive(Clone, Copy, PartialEq, Eq, Debug)]
pub enum Answer {
    Opened,
    Ended(Ending),
    Refused(u8),
}

/// One operation of a run.
pub struct Event {
    pub slot: usize,
    pub act: Act,
    /// What the slot held before; nothing where there is no such slot.
    pub before: Slot,
    pub answer: Answer,
    /// How many owners have four unfinished sessions after it.
    pub full: usize,
}

impl Event {
    /// Whether it is an accepted round.
    pub fn played(&self) -> bool {
        matches!(
            (self.act, self.answer),
            (Act::Round { .. }, Answer::Ended(_))
        )
    }

    /// Whether it is an opening that was not refused.
    pub fn opened(&self) -> bool {
        self.answer == Answer::Opened
    }
}

/// The owner of a slot, if it is held.
pub fn owner_of(slot: &Slot) -> Option<u8> {
    match slot {
        Slot::Held { owner, .. } => Some(*owner),
        _ => None,
    }
}

/// The verdict of a slot's session, if it is closed.
pub fn verdict_of(slot: &Slot) -> Option<Verdict> {
    match slot {
        Slot::Held { session, .. } => match session.phase {
            Phase::Closed(verdict) => Some(verdict),
            _ => None,
        },
        _ => None,
    }
}

/// Whether a slot holds a session that is fresh or waiting.
pub fn is_unfinished(slot: &Slot) -> bool {
    matches!(slot, Slot::Held { session, .. } if unfinished(session))
}

fn owners_with_four(slots: &[Slot]) -> usize {
    let owners: BTreeSet<u8> = slots.iter().filter_map(owner_of).collect();
    let full = |owner: &&u8| unfinished_of(slots, **owner) == MOST_UNFINISHED;
    owners.iter().filter(full).count()
}

fn answer(policy: &[u8], slots: &mut [Slot], slot: usize, act: Act) -> Answer {
    let answer = match act {
        Act::Open { owner, request } => {
            open_at(slots, slot, owner, request).map(|()| Answer::Opened)
        }
        Act::Round { p } => round_at(policy, slots, slot, p).map(Answer::Ended),
        Act::Preview { p } => preview_at(policy, slots, slot, p).0.map(Answer::Ended),
    };
    answer.unwrap_or_else(|refusal| Answer::Refused(refusal.number))
}

/// The operations of a run, in order.
pub fn events(run: &Run) -> Vec<Event> {
    let mut slots = [Slot::Empty; MOST_SLOTS];
    acts(&run.input)
        .into_iter()
        .map(|(slot, act)| {
            let before = slots.get(slot).copied().unwrap_or(Slot::Empty);
            let answer = answer(run.policy(), &mut slots, slot, act);
            let full = owners_with_four(&slots);
            Event {
                slot,
                act,
                before,
                answer,
                full,
            }
        })
        .collect()
}
