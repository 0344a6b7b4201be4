//! What has to come up in a list for a shape to be there, by its events alone.

use super::super::events::{owner_of, verdict_of, Answer, Event};
use super::moves::asks;
use crate::plain::session::{Ending, Verdict};
use crate::plain::station::Act;
use crate::plain::tables::{Slot, MOST_SLOTS};

fn opening(event: &Event) -> bool {
    matches!(event.act, Act::Open { .. })
}

fn round(event: &Event) -> bool {
    matches!(event.act, Act::Round { .. })
}

fn preview(event: &Event) -> bool {
    matches!(event.act, Act::Preview { .. })
}

/// Whether one is so, and there is a later one at its slot, or at the one whose number is in its lower six bits.
fn looked_at(events: &[Event], so: impl Fn(&Event) -> bool) -> bool {
    let at = |event: &Event, later: &Event| later.slot == event.slot % MOST_SLOTS;
    events
        .iter()
        .enumerate()
        .any(|(k, event)| so(event) && events[k + 1..].iter().any(|later| at(event, later)))
}

pub fn opening_refused(events: &[Event], number: u8) -> bool {
    looked_at(events, |event| {
        opening(event) && event.answer == Answer::Refused(number)
    })
}

pub fn round_refused(events: &[Event], number: u8) -> bool {
    looked_at(events, |event| {
        round(event) && event.answer == Answer::Refused(number)
    })
}

pub fn preview_refused(events: &[Event], number: u8) -> bool {
    looked_at(events, |event| {
        preview(event) && event.answer == Answer::Refused(number)
    })
}

/// Whether such operations are refused by the policy at a slot that is held, at an empty one and past the end, and openings go on.
fn refused_by_policy(events: &[Event], which: impl Fn(&Event) -> bool) -> bool {
    let by_policy = |event: &&Event| match event.answer {
        Answer::Refused(number) => which(event) && matches!(number, 1..=6 | 12 | 13),
        _ => false,
    };
    let some = |so: fn(&Event) -> bool| events.iter().filter(by_policy).any(so);
    some(|event| event.before != Slot::Empty)
        && some(|event| event.before == Slot::Empty && event.slot < MOST_SLOTS)
        && some(|event| event.slot >= MOST_SLOTS)
        && events.iter().any(Event::opened)
}

pub fn rounds_refused_by_policy(events: &[Event]) -> bool {
    refused_by_policy(events, round)
}

pub fn previews_refused_by_policy(events: &[Event]) -> bool {
    refused_by_policy(events, preview)
}

/// Whether an owner is refused 16, then one of its sessions is closed, and then it opens another.
pub fn fifth_once_closed(events: &[Event]) -> bool {
    let by = |event: &Event| match event.act {
        Act::Open { owner, .. } => Some(owner),
        _ => None,
    };
    let closes = |event: &Event, of| {
        let closed = |ending| !asks(ending);
        let ended = matches!(event.answer, Answer::Ended(ending) if closed(ending));
        round(event) && ended && owner_of(&event.before) == of
    };
    events.iter().enumerate().any(|(k, refused)| {
        let owner = by(refused);
        let after = &events[k + 1..];
        let closed = after.iter().position(|event| closes(event, owner));
        refused.answer == Answer::Refused(16)
            && closed.is_some_and(|at| {
                let mut later = after[at + 1..].iter();
                later.any(|event| event.opened() && by(event) == owner)
            })
    })
}

/// Whether a slot closed with this verdict is taken over by its owner or by another, and played there.
pub fn taken_over(events: &[Event], verdict: Verdict, same: bool) -> bool {
    events.iter().enumerate().any(|(k, event)| {
        let Act::Open { owner, .. } = event.act else {
            return false;
        };
        let mut later = events[k + 1..].iter();
        event.opened()
            && verdict_of(&event.before) == Some(verdict)
            && (owner_of(&event.before) == Some(owner)) == same
            && later.any(|later| later.slot == event.slot && later.played())
    })
}

/// Whether three sessions have three accepted rounds or more, and most rounds are at another slot than the one before.
pub fn in_turn(events: &[Event]) -> bool {
    let mut rounds = [0; MOST_SLOTS];
    let mut long = 0;
    for event in events {
        match event.answer {
            Answer::Opened => rounds[event.slot] = 0,
            _ if event.played() => rounds[event.slot] += 1,
            _ => continue,
        }
        long += usize::from(event.played() && rounds[event.slot] == 3);
    }
    let played: Vec<&Event> = events.iter().filter(|event| event.played()).collect();
    let turns = played.windows(2).filter(|two| two[0].slot != two[1].slot);
    long >= 3 && 2 * turns.count() > played.len()
}

/// The round that was previewed: the same set at the same slot.
fn same_round(preview: &Event, later: &Event) -> bool {
    match (preview.act, later.act) {
        (Act::Preview { p }, Act::Round { p: shown }) => {
            p == shown && preview.slot == later.slot && later.played()
        }
        _ => false,
    }
}

pub fn rounds_at_once(events: &[Event]) -> bool {
    let pairs = events.windows(2);
    pairs.filter(|two| same_round(&two[0], &two[1])).count() >= 3
}

/// Whether two previews have their round after two operations or more, all at other slots.
pub fn rounds_later(events: &[Event]) -> bool {
    let later = |k: usize| {
        let others = &events[k + 1..];
        let next = others.iter().position(|event| event.slot == events[k].slot);
        next.is_some_and(|at| at >= 2 && same_round(&events[k], &others[at]))
    };
    (0..events.len()).filter(|k| later(*k)).count() >= 2
}

/// Whether two previews end so, one of a later round than the first.
fn previews_ending(events: &[Event], so: impl Fn(Ending) -> bool) -> bool {
    let ends = |event: &&Event| matches!(event.answer, Answer::Ended(ending) if so(ending));
    let count = |event: &Event| match event.before {
        Slot::Held { session, .. } => session.count,
        _ => 0,
    };
    let found: Vec<u8> = events
        .iter()
        .filter(|event| preview(event))
        .filter(ends)
        .map(count)
        .collect();
    found.len() >= 2 && found.iter().any(|count| *count > 0)
}

pub fn previews_grant(events: &[Event]) -> bool {
    previews_ending(events, |ending| ending == Ending::Grant)
}

pub fn previews_deny(events: &[Event]) -> bool {
    previews_ending(events, |ending| ending == Ending::Deny)
}

pub fn previews_ask(events: &[Event]) -> bool {
    previews_ending(events, asks)
}

pub fn every_slot(events: &[Event]) -> bool {
    let opened = |slot| {
        events
            .iter()
            .any(|event| event.opened() && event.slot == slot)
    };
    (0..MOST_SLOTS).all(opened)
}

/// Whether four owners have four unfinished sessions each, and each of them is refused a fifth.
pub fn four_owners(events: &[Event]) -> bool {
    let mut refused: Vec<u8> = Vec::new();
    for event in events {
        match (event.act, event.answer) {
            (Act::Open { owner, .. }, Answer::Refused(16)) if event.full >= 4 => {
                refused.push(owner);
            }
            _ => {}
        }
    }
    refused.sort_unstable();
    refused.dedup();
    refused.len() >= 4
}
