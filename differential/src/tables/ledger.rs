//! What is read from a list of openings and rounds and its answers alone, never from the table: whose sessions are unfinished, and
//! the rounds at a slot "from an opening there that was not refused to the next such". Previews change nothing of it.

use crate::calls::Operation;
use crate::clients::{Manner, Seen};
use crate::plain::lists::{asked, closes, shown_by, Accepted};
use crate::plain::session::is_service;
use crate::plain::tables::{MOST_SLOTS, MOST_UNFINISHED};
use crate::tester::Previewed;
use std::collections::HashMap;

/// A session at a slot: who opened it for what, how its client answers, and its rounds so far.
pub struct Opened {
    pub owner: u8,
    pub request: u16,
    pub manner: Manner,
    pub accepted: Vec<Accepted>,
    pub rounds: usize,
}

impl Opened {
    pub fn closed(&self) -> bool {
        self.accepted.last().is_some_and(|last| closes(last.ending))
    }

    /// What its client knows.
    pub fn seen(&self) -> Seen {
        Seen {
            round: self.rounds + 1,
            asked: self.accepted.last().map(asked),
            shown: shown_by(&self.accepted),
        }
    }
}

#[derive(Default)]
pub struct Ledger {
    slots: HashMap<usize, Opened>,
    /// Owners who have had four unfinished sessions, and whether one of the four has been closed since.
    full: HashMap<u8, bool>,
}

impl Ledger {
    pub fn at(&self, slot: usize) -> Option<&Opened> {
        self.slots.get(&slot)
    }

    /// The slots with a session that was opened in the list, in order; only those unfinished, if so asked.
    pub fn places(&self, unfinished: bool) -> Vec<usize> {
        let all = self.slots.iter();
        let some = all.filter(|(_, opened)| !unfinished || !opened.closed());
        let mut places: Vec<usize> = some.map(|(slot, _)| *slot).collect();
        places.sort_unstable();
        places
    }

    fn unfinished_of(&self, owner: u8) -> usize {
        let all = self.slots.values();
        all.filter(|opened| opened.owner == owner && !opened.closed())
            .count()
    }

    /// An opening that was not refused: the session that it ended there, and whether its owner had had four and lost one.
    pub fn open(&mut self, slot: usize, opened: Opened) -> (Option<Opened>, bool) {
        let owner = opened.owner;
        let reopened = self.full.remove(&owner) == Some(true);
        let last = self.slots.insert(slot, opened);
        if self.unfinished_of(owner) == MOST_UNFINISHED {
            self.full.insert(owner, false);
        }
        (last, reopened)
    }

    /// A round at a slot under an accepted policy, and how it ended, if it was not refused.
    pub fn round(&mut self, slot: usize, accepted: Option<Accepted>) {
        let Some(opened) = self.slots.get_mut(&slot) else {
            return;
        };
        opened.rounds += 1;
        opened.accepted.extend(accepted);
        if accepted.is_some_and(|round| closes(round.ending)) {
            if let Some(freed) = self.full.get_mut(&opened.owner) {
                *freed = true;
            }
        }
    }

    /// The refusal of an operation on a table of so many slots that was all empty at first, 0 for none; of a round under an accepted
    /// policy, as far as the list says it.
    pub fn refusal(&self, operation: Operation, slots: usize) -> u32 {
        let slot = operation.slot();
        let outside = slot >= slots.min(MOST_SLOTS);
        match (operation, self.at(slot)) {
            (Operation::Open { request, .. }, _) if !is_service(request) => 7,
            _ if outside => 14,
            (Operation::Open { .. }, Some(opened)) if !opened.closed() => 15,
            (Operation::Open { owner, .. }, _) if self.unfinished_of(owner) >= MOST_UNFINISHED => {
                16
            }
            (Operation::Round { .. }, None) => 8,
            (Operation::Round { .. }, Some(opened)) if opened.closed() => 9,
            _ => 0,
        }
    }

    /// What is broken of what the list says of a preview's slot, the table all empty at first: a session is given just where one was
    /// opened, of that owner and request.
    pub fn broken_preview(&self, slot: usize, seen: &Previewed) -> Option<&'static str> {
        match self.at(slot) {
            None => seen
                .given()
                .then_some("a session given where none was opened"),
            Some(_) if !seen.given() => Some("no session given where one was opened"),
            Some(opened) => {
                let [low, high] = opened.request.to_le_bytes();
                let wanted = [opened.owner, 1, low, high];
                (seen.slot[..4] != wanted).then_some("another owner or request given")
            }
        }
    }

    /// "No owner has more than four unfinished sessions": one who has.
    pub fn above_four(&self) -> Option<u8> {
        let owners = self.slots.values().map(|opened| opened.owner);
        owners
            .into_iter()
            .find(|owner| self.unfinished_of(*owner) > MOST_UNFINISHED)
    }

    /// The sessions as they are left.
    pub fn into_sessions(self) -> Vec<(usize, Opened)> {
        let mut all: Vec<(usize, Opened)> = self.slots.into_iter().collect();
        all.sort_unstable_by_key(|(slot, _)| *slot);
        all
    }
}
