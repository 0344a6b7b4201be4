//! Which previews came up in a run.

use crate::calls::{refusal_of, Preview};
use crate::plain::session::{sound, Phase, Session};
use crate::plain::table_bytes::read_table;
use crate::plain::tables::{Slot, MOST_SLOTS};
use crate::table_counts::{add_all, round, LEAST, ROUNDS};
use crate::tester::Previewed;

/// Refusals of a preview.
const NUMBERS: [u32; 12] = [1, 2, 3, 4, 5, 6, 7, 8, 9, 12, 13, 14];

const SESSIONS: [&str; 11] = [
    "a session given",
    "no session given",
    "a session given, the round refused",
    "the policy refused, a fresh session given",
    "the policy refused, a waiting session given",
    "the policy refused, a closed session given",
    "the policy refused, an unsound session given",
    "the policy refused, no session given",
    "the policy refused, bytes that are no slot",
    "14, a session there",
    "the policy refused, and 14 besides, a session there",
];

const AFTER: [&str; 6] = [
    "followed by nothing",
    "followed by the round",
    "followed by operations at other slots and the round",
    "followed by the round, accepted",
    "followed by the round, refused",
    "lists played once more without previews",
];

/// What follows a preview.
#[derive(Clone, Copy, PartialEq, Eq, Debug)]
pub enum Follows {
    Nothing,
    Round,
    /// Operations at other slots, then the round.
    Others,
}

#[derive(Clone, Default)]
pub struct PreviewCounts {
    all: u64,
    rounds: [u64; 16],
    numbers: [u64; 12],
    sessions: [u64; 11],
    after: [u64; 6],
}

/// The session that stands in a slot, also past the 64th.
fn session_at(slots: &[Slot], slot: usize) -> Option<Session> {
    match slots.get(slot) {
        Some(Slot::Held { session, .. }) => Some(*session),
        _ => None,
    }
}

/// The classes of a preview by the session that is given.
fn sessions(slots: &[Slot], slot: usize, seen: &Previewed) -> [bool; 11] {
    let number = refusal_of(seen.reply);
    let of_policy = ![0, 7, 8, 9, 14].contains(&number);
    let there = session_at(slots, slot);
    let outside = slot >= slots.len().min(MOST_SLOTS);
    let here = there.filter(|_| of_policy && seen.given());
    let phase = here.map(|session| session.phase);
    let no_slot = slots.get(slot) == Some(&Slot::Unreadable);
    [
        seen.given(),
        !seen.given(),
        seen.given() && number != 0,
        phase == Some(Phase::Fresh),
        matches!(phase, Some(Phase::Waiting(_))),
        matches!(phase, Some(Phase::Closed(_))),
        here.is_some_and(|session| !sound(&session)),
        of_policy && !seen.given(),
        of_policy && no_slot && !outside,
        number == 14 && there.is_some(),
        of_policy && outside && there.is_some(),
    ]
}

impl PreviewCounts {
    /// Counts a preview on a table by what it shows.
    pub fn preview(&mut self, preview: Preview, table: &[u8], seen: &Previewed) {
        let slots = read_table(table);
        self.all += 1;
        let classes = round(&slots, table, preview.slot, seen.reply);
        add_all(&mut self.rounds, classes.map(u64::from));
        let numbers = NUMBERS.map(|number| number == refusal_of(seen.reply));
        add_all(&mut self.numbers, numbers.map(u64::from));
        let classes = sessions(&slots, preview.slot, seen);
        add_all(&mut self.sessions, classes.map(u64::from));
    }

    /// Counts a preview in a list by what follows it.
    pub fn follows(&mut self, follows: Follows) {
        self.after[follows as usize] += 1;
    }

    /// Counts a round that was previewed, by its reply.
    pub fn came(&mut self, reply: u32) {
        self.after[3 + usize::from(refusal_of(reply) != 0)] += 1;
    }

    /// Counts a list that was played once more without previews.
    pub fn without(&mut self) {
        self.after[5] += 1;
    }

    pub fn add(&mut self, other: &PreviewCounts) {
        self.all += other.all;
        add_all(&mut self.rounds, other.rounds);
        add_all(&mut self.numbers, other.numbers);
        add_all(&mut self.sessions, other.sessions);
        add_all(&mut self.after, other.after);
    }

    fn named(&self) -> Vec<(String, u64)> {
        let rounds = ROUNDS.iter().map(|name| name.to_string());
        let numbers = NUMBERS.iter().map(|number| format!("refused {number}"));
        let others = SESSIONS.iter().chain(&AFTER).map(|name| name.to_string());
        let names = rounds.chain(numbers).chain(others);
        let counts = self.rounds.iter().chain(&self.numbers);
        let counts = counts.chain(&self.sessions).chain(&self.after);
        names.zip(counts.copied()).collect()
    }

    /// What has not come up often enough.
    pub fn missing(&self) -> Vec<String> {
        let all = self.named().into_iter();
        all.filter(|(_, count)| *count < LEAST)
            .map(|(name, count)| format!("previews: {name}, {LEAST} times ({count})"))
            .collect()
    }

    pub fn print(&self) {
        println!("\npreviews of rounds at slots: {}", self.all);
        for (name, count) in self.named() {
            println!("  {count:>10}  {name}");
        }
    }
}
