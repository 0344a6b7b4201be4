//! Lists with previews: of each ending, and with their round at once or after operations at other slots.

use super::draft::Draft;
use super::moves::asks;
use crate::plain::session::Ending;

/// Each followed by the very round.
pub fn round_at_once(draft: &mut Draft) {
    draft.some(3, 5);
    for _ in 0..draft.random.range(3, 4) {
        let slot = draft.unfinished_slot();
        let p = draft.next_set(slot);
        draft.preview(slot, p);
        draft.play(slot, p);
        draft.some(0, 1);
    }
    draft.some(1, 3);
}

/// Each followed by two to four operations at other slots, and then by the very round.
pub fn round_later(draft: &mut Draft) {
    draft.some(3, 5);
    for _ in 0..2 {
        let slot = draft.unfinished_slot();
        let p = draft.next_set(slot);
        draft.preview(slot, p);
        for _ in 0..draft.random.range(2, 4) {
            draft.any_elsewhere(slot);
        }
        draft.play(slot, p);
    }
    draft.some(1, 3);
}

/// Rounds that would end so; sent or not, or another one sent.
fn ending(draft: &mut Draft, so: impl Fn(Ending) -> bool) {
    draft.some(3, 6);
    for _ in 0..draft.random.range(2, 3) {
        let slot = draft.unfinished_slot();
        if draft.random.one_in(2) {
            draft.play_to_wait(slot);
        }
        let Some(p) = draft.set_for(slot, &so) else {
            continue;
        };
        draft.preview(slot, p);
        match draft.random.below(3) {
            0 => draft.play(slot, p),
            1 => draft.play_to_wait(slot),
            _ => draft.look(slot),
        }
    }
    draft.some(3, 6);
}

pub fn of_grants(draft: &mut Draft) {
    ending(draft, |ending| ending == Ending::Grant);
}

pub fn of_denials(draft: &mut Draft) {
    ending(draft, |ending| ending == Ending::Deny);
}

pub fn of_questions(draft: &mut Draft) {
    ending(draft, asks);
}
