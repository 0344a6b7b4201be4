//! What comes next in a list: rounds to some end, four sessions of an owner, and any operation.

use super::draft::Draft;
use crate::plain::session::Ending;
use crate::plain::tables::{unfinished_of, MOST_UNFINISHED};
use crate::sessions::NO_SERVICES;

/// Whether a round ends in a question.
pub fn asks(ending: Ending) -> bool {
    matches!(ending, Ending::Ask(_))
}

impl Draft<'_> {
    /// The next round of a slot's client.
    pub fn play_next(&mut self, slot: usize) {
        let p = self.next_set(slot);
        self.play(slot, p);
    }

    /// A preview of it.
    pub fn preview_next(&mut self, slot: usize) {
        let p = self.next_set(slot);
        self.preview(slot, p);
    }

    /// A round after which the session waits, if there is one.
    pub fn play_to_wait(&mut self, slot: usize) {
        if let Some(p) = self.set_for(slot, asks) {
            self.play(slot, p);
        }
    }

    /// Plays at a slot until its session is closed so, if it can be.
    pub fn close(&mut self, slot: usize, ending: Ending) {
        if self.random.one_in(2) {
            self.play_to_wait(slot);
        }
        for _ in 0..6 {
            match self.set_for(slot, |other| other == ending) {
                Some(p) => return self.play(slot, p),
                None => self.play_to_wait(slot),
            }
        }
    }

    /// Openings for an owner until it has four unfinished sessions, some fresh and some waiting.
    pub fn four(&mut self, owner: u8) {
        while unfinished_of(&self.slots, owner) < MOST_UNFINISHED {
            let slot = self.free_slot();
            self.open_for_some(slot, owner);
            if self.random.one_in(2) {
                self.play_to_wait(slot);
            }
        }
    }

    fn any_opening(&mut self) {
        let slot = match self.random.one_in(20) {
            true => self.past(),
            false => self.place(),
        };
        let owner = self.owner();
        match self.random.one_in(20) {
            true => {
                let request = self.random.pick(&NO_SERVICES);
                self.open(slot, owner, request);
            }
            false => self.open_for_some(slot, owner),
        }
    }

    /// Where a round or a preview is: mostly where a session is unfinished.
    fn any_played(&mut self) -> usize {
        match self.random.below(12) {
            0 => self.past(),
            1 | 2 => self.place(),
            _ => self.unfinished_slot(),
        }
    }

    /// An opening, a round or a preview.
    pub fn any(&mut self) {
        match self.random.below(10) {
            0..=2 => self.any_opening(),
            3..=7 => {
                let slot = self.any_played();
                self.play_next(slot);
            }
            _ => {
                let slot = self.any_played();
                self.preview_next(slot);
            }
        }
    }

    /// So many of them.
    pub fn some(&mut self, least: usize, most: usize) {
        for _ in 0..self.random.range(least, most) {
            self.any();
        }
    }

    /// One of them at another slot.
    pub fn any_elsewhere(&mut self, slot: usize) {
        self.elsewhere(slot, |draft| draft.any());
    }

    /// An opening, a round or a preview at a slot: what is left there.
    pub fn look(&mut self, slot: usize) {
        match self.random.below(4) {
            0 => {
                let owner = self.owner();
                self.open_for_some(slot, owner);
            }
            1 => self.preview_next(slot),
            _ => self.play_next(slot),
        }
    }
}
