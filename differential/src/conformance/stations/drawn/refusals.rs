//! Lists in which operations are refused, each with a look at what is left.

use super::super::events::verdict_of;
use super::draft::Draft;
use crate::plain::session::Ending;
use crate::plain::tables::Slot;
use crate::sessions::NO_SERVICES;

/// One to three times the same, other operations before and after.
fn among(draft: &mut Draft, act: impl Fn(&mut Draft)) {
    draft.some(4, 7);
    for _ in 0..draft.random.range(1, 3) {
        act(draft);
        draft.some(0, 1);
    }
    draft.some(3, 6);
}

fn is_empty(slot: &Slot) -> bool {
    *slot == Slot::Empty
}

/// A slot that is closed; one is closed where there is none.
fn closed_slot(draft: &mut Draft) -> usize {
    if let Some(slot) = draft.slot_that(|slot| verdict_of(slot).is_some()) {
        return slot;
    }
    let slot = draft.unfinished_slot();
    let ending = draft.random.pick(&[Ending::Grant, Ending::Deny]);
    draft.close(slot, ending);
    slot
}

/// An empty slot.
fn empty_slot(draft: &mut Draft) -> usize {
    draft.slot_that(is_empty).unwrap_or(0)
}

pub fn opening_seven(draft: &mut Draft) {
    among(draft, |draft| {
        let (place, past) = (draft.place(), draft.past());
        let slot = draft.random.pick(&[place, place, place, past]);
        let owner = draft.owner();
        let request = draft.random.pick(&NO_SERVICES);
        draft.open(slot, owner, request);
        draft.look(slot);
    });
}

pub fn opening_fourteen(draft: &mut Draft) {
    among(draft, |draft| {
        let (slot, owner) = (draft.past(), draft.owner());
        draft.open_for_some(slot, owner);
        draft.look(slot % 64);
    });
}

/// At fresh and at waiting sessions, by their owner and by others, who in one of four go on to have four themselves.
pub fn opening_fifteen(draft: &mut Draft) {
    among(draft, |draft| {
        let slot = draft.unfinished_slot();
        if draft.random.one_in(2) {
            draft.play_to_wait(slot);
        }
        let owner = draft.owner();
        draft.open_for_some(slot, owner);
        if draft.random.one_in(4) {
            draft.four(owner);
        }
        draft.play_next(slot);
    });
}

/// At empty and at closed slots; in one of four another where 15 applies too.
pub fn opening_sixteen(draft: &mut Draft) {
    draft.some(1, 4);
    for _ in 0..draft.random.range(1, 2) {
        let owner = draft.owner();
        draft.four(owner);
        let free = draft.free_slot();
        if draft.random.one_in(2) {
            let other = draft.other_than(owner);
            draft.open_for_some(free, other);
            let ending = draft.random.pick(&[Ending::Grant, Ending::Deny]);
            draft.close(free, ending);
        }
        draft.open_for_some(free, owner);
        draft.look(free);
        if draft.random.one_in(4) {
            let held = draft.unfinished_slot();
            draft.open_for_some(held, owner);
        }
    }
    draft.some(1, 4);
}

pub fn round_fourteen(draft: &mut Draft) {
    among(draft, |draft| {
        let slot = draft.past();
        draft.play_next(slot);
        draft.look(slot % 64);
    });
}

pub fn round_eight(draft: &mut Draft) {
    among(draft, |draft| {
        let slot = empty_slot(draft);
        draft.play_next(slot);
        draft.look(slot);
    });
}

pub fn round_nine(draft: &mut Draft) {
    among(draft, |draft| {
        let slot = closed_slot(draft);
        draft.play_next(slot);
        draft.look(slot);
    });
}

pub fn preview_fourteen(draft: &mut Draft) {
    among(draft, |draft| {
        let slot = draft.past();
        draft.preview_next(slot);
        draft.look(slot % 64);
    });
}

pub fn preview_eight(draft: &mut Draft) {
    among(draft, |draft| {
        let slot = empty_slot(draft);
        draft.preview_next(slot);
        draft.look(slot);
    });
}

pub fn preview_nine(draft: &mut Draft) {
    among(draft, |draft| {
        let slot = closed_slot(draft);
        draft.preview_next(slot);
        draft.look(slot);
    });
}

/// A slot that is held, one that is empty, and a number that no slot has.
fn three_kinds(draft: &mut Draft) -> [usize; 3] {
    [draft.unfinished_slot(), empty_slot(draft), draft.past()]
}

/// Rounds of each kind under a refused policy, and openings.
pub fn rounds_under_refused(draft: &mut Draft) {
    draft.some(5, 9);
    for slot in three_kinds(draft) {
        draft.play_next(slot);
        draft.look(slot);
    }
    draft.some(4, 8);
}

/// Previews of each kind under a refused policy, and openings.
pub fn previews_under_refused(draft: &mut Draft) {
    draft.some(5, 9);
    for slot in three_kinds(draft) {
        draft.preview_next(slot);
        draft.look(slot);
    }
    draft.some(4, 8);
}
