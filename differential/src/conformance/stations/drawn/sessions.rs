//! Lists about owners and their sessions: a fifth once one is closed, slots that are taken over, sessions in turn, and every slot.

use super::draft::Draft;
use crate::plain::session::Ending;
use crate::plain::tables::MOST_SLOTS;

/// An owner's fifth session refused, one of the four closed, a fifth opened, at the slot that is closed or another, and one more.
pub fn fifth_once_closed(draft: &mut Draft) {
    draft.some(1, 4);
    let owner = draft.owner();
    draft.four(owner);
    let free = draft.free_slot();
    draft.open_for_some(free, owner);
    let ending = draft.random.pick(&[Ending::Grant, Ending::Deny]);
    let Some(closed) = draft.slot_of(owner) else {
        return;
    };
    draft.close(closed, ending);
    let free = draft.free_slot();
    let slot = draft.random.pick(&[closed, free]);
    draft.open_for_some(slot, owner);
    let free = draft.free_slot();
    draft.open_for_some(free, owner);
    draft.some(1, 4);
}

/// A slot closed with this ending, and taken over by the same owner or another.
fn taken_over(draft: &mut Draft, ending: Ending, same: bool) {
    draft.with_owners(3);
    draft.some(1, 4);
    for _ in 0..draft.random.range(1, 2) {
        let (slot, first) = (draft.free_slot(), draft.owner());
        draft.open_for_some(slot, first);
        draft.close(slot, ending);
        for _ in 0..draft.random.below(3) {
            draft.any_elsewhere(slot);
        }
        let other = draft.other_than(first);
        draft.open_for_some(slot, if same { first } else { other });
        draft.play_next(slot);
        if !same && draft.random.one_in(3) {
            draft.four(first);
        }
        draft.play_next(slot);
    }
    draft.some(2, 4);
}

pub fn granted_same(draft: &mut Draft) {
    taken_over(draft, Ending::Grant, true);
}

pub fn granted_other(draft: &mut Draft) {
    taken_over(draft, Ending::Grant, false);
}

pub fn denied_same(draft: &mut Draft) {
    taken_over(draft, Ending::Deny, true);
}

pub fn denied_other(draft: &mut Draft) {
    taken_over(draft, Ending::Deny, false);
}

/// Sessions at three or four slots, their rounds in turn, each with two questions before it goes on as its client likes.
pub fn in_turn(draft: &mut Draft) {
    let count = draft.random.range(3, 4);
    draft.with_places(count);
    for slot in draft.places.clone() {
        let owner = draft.owner();
        draft.open_for_some(slot, owner);
    }
    for turn in 0..4 {
        let mut order = draft.places.clone();
        draft.random.shuffle(&mut order);
        for slot in order {
            match turn {
                0 | 1 => draft.play_to_wait(slot),
                _ => draft.play_next(slot),
            }
        }
    }
    draft.some(0, 4);
}

/// Each of so many owners four times, in any order.
fn each_four_times(draft: &mut Draft) -> Vec<u8> {
    let mut four = draft.owners.repeat(4);
    draft.random.shuffle(&mut four);
    four
}

/// Every slot opened, each by one of sixteen owners who have four each; a few other operations among them.
pub fn every_slot(draft: &mut Draft) {
    draft.with_owners(16);
    let mut slots: Vec<usize> = (0..MOST_SLOTS).collect();
    draft.random.shuffle(&mut slots);
    draft.places = slots.clone();
    for (slot, owner) in slots.into_iter().zip(each_four_times(draft)) {
        draft.open_for_some(slot, owner);
        if draft.random.one_in(12) {
            draft.play_to_wait(slot);
        }
    }
    draft.some(4, 8);
}

/// Four owners with four sessions each, and a fifth of each refused.
pub fn four_owners(draft: &mut Draft) {
    draft.with_owners(4);
    draft.with_places(20);
    for owner in each_four_times(draft) {
        let slot = draft.free_slot();
        draft.open_for_some(slot, owner);
        if draft.random.one_in(6) {
            draft.play_to_wait(slot);
        }
    }
    for owner in draft.owners.clone() {
        let free = draft.free_slot();
        draft.open_for_some(free, owner);
    }
    draft.some(2, 6);
}
