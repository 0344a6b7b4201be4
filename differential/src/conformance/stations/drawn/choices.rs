//! Who and where: owners and slots, by chance or by what stands in them.

use super::super::events::{is_unfinished, owner_of};
use super::draft::Draft;
use crate::plain::tables::{Slot, MOST_SLOTS};

/// Owners of which half are drawn, the others any.
const OWNERS: [u8; 6] = [0, 1, 2, 7, 254, 255];

impl Draft<'_> {
    /// So many different owners.
    pub fn with_owners(&mut self, count: usize) {
        self.owners.clear();
        while self.owners.len() < count {
            let any = self.random.byte();
            let one = self.random.pick(&OWNERS);
            let owner = self.random.pick(&[any, one]);
            if !self.owners.contains(&owner) {
                self.owners.push(owner);
            }
        }
    }

    /// So many different slots, the first or the last among them, and two next to each other.
    pub fn with_places(&mut self, count: usize) {
        let first = self.random.below(MOST_SLOTS - 1);
        let end = self.random.pick(&[0, MOST_SLOTS - 1]);
        let mut places = vec![end, first, first + 1];
        loop {
            places.sort_unstable();
            places.dedup();
            if places.len() >= count {
                break;
            }
            places.push(self.random.below(MOST_SLOTS));
        }
        self.places = places;
    }

    pub fn owner(&mut self) -> u8 {
        self.random.pick(&self.owners)
    }

    /// Another owner than this one; the same where there is no other.
    pub fn other_than(&mut self, owner: u8) -> u8 {
        let others = self.owners.iter().copied().filter(|other| *other != owner);
        let others: Vec<u8> = others.collect();
        match others.is_empty() {
            true => owner,
            false => self.random.pick(&others),
        }
    }

    pub fn place(&mut self) -> usize {
        self.random.pick(&self.places)
    }

    /// A number that no slot has: just past the end, at the ends of a byte, or that of a slot in its lower bits.
    pub fn past(&mut self) -> usize {
        let cut = self.place() + self.random.pick(&[64, 128, 192]);
        self.random
            .pick(&[64, 64, 65, 127, 128, 255, cut, cut, cut])
    }

    /// One of the places where something stands that is so; where there is none, any slot that is so.
    pub fn slot_that(&mut self, so: impl Fn(&Slot) -> bool) -> Option<usize> {
        let slots = self.slots;
        let so = |slot: &usize| so(&slots[*slot]);
        let some: Vec<usize> = self.places.iter().copied().filter(so).collect();
        let any: Vec<usize> = (0..MOST_SLOTS).filter(so).collect();
        match (some.is_empty(), any.is_empty()) {
            (false, _) => Some(self.random.pick(&some)),
            (true, false) => Some(self.random.pick(&any)),
            (true, true) => None,
        }
    }

    /// A slot that may be taken: empty or closed.
    pub fn free_slot(&mut self) -> usize {
        self.slot_that(|slot| !is_unfinished(slot)).unwrap_or(0)
    }

    /// A slot whose session is unfinished; one is opened where there is none.
    pub fn unfinished_slot(&mut self) -> usize {
        if let Some(slot) = self.slot_that(is_unfinished) {
            return slot;
        }
        let (slot, owner) = (self.free_slot(), self.owner());
        self.open_for_some(slot, owner);
        slot
    }

    /// One of an owner's unfinished sessions.
    pub fn slot_of(&mut self, owner: u8) -> Option<usize> {
        self.slot_that(|slot| is_unfinished(slot) && owner_of(slot) == Some(owner))
    }
}
