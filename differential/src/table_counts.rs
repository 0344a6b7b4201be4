//! Which operations on tables came up in a run.

use crate::calls::{ending_of, refusal_of, Operation, DENY, GRANT};
use crate::plain::session::{sound, Phase, Session};
use crate::plain::table_bytes::{read_table, SLOT_BYTES};
use crate::plain::tables::{unfinished, unfinished_of, Slot, MOST_SLOTS, MOST_UNFINISHED};

/// Of each class so many must come up.
pub(crate) const LEAST: u64 = 20;

const OPENINGS: [&str; 26] = [
    "opened in an empty slot",
    "opened in a closed slot of its own",
    "opened in a closed slot of another owner",
    "opened in slot 63",
    "opened, the owner's fourth",
    "opened, four with the owner's closed ones counted",
    "opened, four with the owner's past the 64th slot counted",
    "opened, four with bytes that are no slot counted",
    "opened by owner 0",
    "opened, bytes left over at the end",
    "7",
    "7, and 14 besides",
    "14, past the end",
    "14, past the 64th slot of a longer table",
    "14, a slot's number of more than 32 bits",
    "14, and 16 besides",
    "8, bytes that are no slot",
    "8, bytes that are no slot, and 16 besides",
    "15, fresh",
    "15, waiting",
    "15, and 16 besides",
    "16, a fifth session",
    "16, five and more",
    "16, an unsound one among four",
    "16, the slot closed",
    "16, one of four in slot 63",
];

/// Of rounds, and of previews as of the rounds that they show.
pub(crate) const ROUNDS: [&str; 16] = [
    "ended in grant",
    "ended in deny",
    "ended in a question",
    "accepted in slot 63",
    "accepted, bytes left over at the end",
    "the policy refused",
    "the policy refused, and 14 besides",
    "the policy refused, and an empty slot",
    "14, past the end",
    "14, past the 64th slot of a longer table",
    "14, a slot's number of more than 32 bits",
    "8, an empty slot",
    "8, bytes that are no slot",
    "7",
    "8, an unsound session",
    "9",
];

const LISTS: [&str; 4] = [
    "from an all-empty table",
    "from a table with something in it",
    "under one accepted policy",
    "under changing policies",
];

const SESSIONS: [&str; 3] = [
    "opened after one of the owner's four was closed",
    "sessions held to demand 3",
    "sessions of a cooperative client with the premise",
];

#[derive(Clone, Default)]
pub struct TableCounts {
    /// Openings and rounds in all.
    operations: [u64; 2],
    openings: [u64; 26],
    rounds: [u64; 16],
    lists: [u64; 4],
    sessions: [u64; 3],
}

pub(crate) fn add_all(to: &mut [u64], from: impl IntoIterator<Item = u64>) {
    for (a, b) in to.iter_mut().zip(from) {
        *a += b;
    }
}

/// Whether a slot is past the end, past the 64th of a longer table, and numbered by more than 32 bits.
fn outside(slots: &[Slot], slot: usize) -> [bool; 3] {
    let past = slot >= slots.len();
    let large = slot > u32::MAX as usize;
    [past && !large, !past && slot >= MOST_SLOTS, large]
}

/// The sessions of one owner, those past the 64th slot too.
fn held_by(slots: &[Slot], owner: u8) -> impl Iterator<Item = (usize, Session)> + '_ {
    let all = slots.iter().enumerate();
    all.filter_map(move |(k, slot)| match slot {
        Slot::Held { owner: of, session } if *of == owner => Some((k, *session)),
        _ => None,
    })
}

/// An owner's sessions as they should not be counted: the closed ones too, those past the 64th, bytes that are no slot.
fn miscounted(slots: &[Slot], table: &[u8], owner: u8) -> [bool; 3] {
    let right = unfinished_of(slots, owner);
    let first = held_by(slots, owner).filter(|(k, _)| *k < MOST_SLOTS);
    let past = held_by(slots, owner).filter(|(k, s)| *k >= MOST_SLOTS && unfinished(s));
    let bytes = table.chunks_exact(SLOT_BYTES);
    let no_slots = slots
        .iter()
        .zip(bytes)
        .take(MOST_SLOTS)
        .filter(|(slot, bytes)| **slot == Slot::Unreadable && bytes[0] == owner);
    let counts = [
        first.count(),
        right + past.count(),
        right + no_slots.count(),
    ];
    counts.map(|count| right < MOST_UNFINISHED && count >= MOST_UNFINISHED)
}

/// The classes of an opening that is not refused.
fn opened(slots: &[Slot], table: &[u8], slot: usize, owner: u8) -> [bool; 10] {
    let [closed, past, no_slots] = miscounted(slots, table, owner);
    let (own, other) = match slots[slot] {
        Slot::Held { owner: of, .. } => (of == owner, of != owner),
        _ => (false, false),
    };
    [
        slots[slot] == Slot::Empty,
        own,
        other,
        slot == 63,
        unfinished_of(slots, owner) == 3,
        closed,
        past,
        no_slots,
        owner == 0,
        !table.len().is_multiple_of(SLOT_BYTES),
    ]
}

/// The classes of an opening that is refused.
fn not_opened(slots: &[Slot], slot: usize, owner: u8, number: u32) -> [bool; 16] {
    let count = unfinished_of(slots, owner);
    let sixteen = count >= MOST_UNFINISHED;
    let its: Vec<(usize, Session)> = held_by(slots, owner)
        .filter(|(k, session)| *k < MOST_SLOTS && unfinished(session))
        .collect();
    let phase = match slots.get(slot) {
        Some(Slot::Held { session, .. }) => Some(session.phase),
        _ => None,
    };
    let waiting = matches!(phase, Some(Phase::Waiting(_)));
    let closed = matches!(phase, Some(Phase::Closed(_)));
    let four = number == 16 && count == 4;
    let [past, longer, large] = outside(slots, slot);
    [
        number == 7,
        number == 7 && (past || longer || large),
        number == 14 && past,
        number == 14 && longer,
        number == 14 && large,
        number == 14 && sixteen,
        number == 8,
        number == 8 && sixteen,
        number == 15 && phase == Some(Phase::Fresh),
        number == 15 && waiting,
        number == 15 && sixteen,
        four,
        number == 16 && count > 4,
        four && its.iter().any(|(_, session)| !sound(session)),
        number == 16 && closed,
        four && its.iter().any(|(k, _)| *k == 63),
    ]
}

/// The classes of a round.
pub(crate) fn round(slots: &[Slot], table: &[u8], slot: usize, reply: u32) -> [bool; 16] {
    let (number, ending) = (refusal_of(reply), ending_of(reply));
    let accepted = number == 0;
    let of_policy = [1, 2, 3, 4, 5, 6, 12, 13].contains(&number);
    let [past, longer, large] = outside(slots, slot);
    let outside = past || longer || large;
    let here = slots.get(slot).filter(|_| !outside);
    let empty = here == Some(&Slot::Empty);
    let no_slot = here == Some(&Slot::Unreadable);
    [
        accepted && ending == GRANT,
        accepted && ending == DENY,
        accepted && ending != GRANT && ending != DENY,
        accepted && slot == 63,
        accepted && !table.len().is_multiple_of(SLOT_BYTES),
        of_policy,
        of_policy && outside,
        of_policy && empty,
        number == 14 && past,
        number == 14 && longer,
        number == 14 && large,
        number == 8 && empty,
        number == 8 && no_slot,
        number == 7,
        number == 8 && !empty && !no_slot,
        number == 9,
    ]
}

impl TableCounts {
    /// Counts an operation on a table by its reply.
    pub fn operation(&mut self, operation: Operation, table: &[u8], reply: u32) {
        let slots = read_table(table);
        let opening = matches!(operation, Operation::Open { .. });
        add_all(&mut self.operations, [opening, !opening].map(u64::from));
        match operation {
            Operation::Open { slot, owner, .. } if reply == 0 && slot < slots.len() => {
                let classes = opened(&slots, table, slot, owner);
                add_all(&mut self.openings, classes.map(u64::from));
            }
            Operation::Open { slot, owner, .. } => {
                let classes = not_opened(&slots, slot, owner, refusal_of(reply));
                add_all(&mut self.openings[10..], classes.map(u64::from));
            }
            Operation::Round { slot, .. } => {
                let classes = round(&slots, table, slot, reply);
                add_all(&mut self.rounds, classes.map(u64::from));
            }
        }
    }

    /// Counts a list.
    pub fn list(&mut self, empty: bool, one_policy: bool) {
        let classes = [empty, !empty, one_policy, !one_policy];
        add_all(&mut self.lists, classes.map(u64::from));
    }

    /// Counts an opening by an owner one of whose four sessions was closed.
    pub fn reopened(&mut self) {
        self.sessions[0] += 1;
    }

    /// Counts a session that was held to demand 3.
    pub fn session(&mut self, licensed: bool) {
        add_all(&mut self.sessions[1..], [1, u64::from(licensed)]);
    }

    pub fn add(&mut self, other: &TableCounts) {
        add_all(&mut self.operations, other.operations);
        add_all(&mut self.openings, other.openings);
        add_all(&mut self.rounds, other.rounds);
        add_all(&mut self.lists, other.lists);
        add_all(&mut self.sessions, other.sessions);
    }

    fn named(&self) -> Vec<(String, u64)> {
        let openings = OPENINGS.iter().map(|name| format!("opening: {name}"));
        let rounds = ROUNDS.iter().map(|name| format!("round: {name}"));
        let lists = LISTS.iter().map(|name| format!("lists {name}"));
        let sessions = SESSIONS.iter().map(|name| name.to_string());
        let names = openings.chain(rounds).chain(lists).chain(sessions);
        let counts = self.openings.iter().chain(&self.rounds);
        let counts = counts.chain(&self.lists).chain(&self.sessions);
        names.zip(counts.copied()).collect()
    }

    /// What has not come up often enough.
    pub fn missing(&self) -> Vec<String> {
        let all = self.named().into_iter();
        all.filter(|(_, count)| *count < LEAST)
            .map(|(name, count)| format!("tables: {name}, {LEAST} times ({count})"))
            .collect()
    }

    pub fn print(&self) {
        let [openings, rounds] = self.operations;
        println!("\ntables of slots: {openings} openings, {rounds} rounds");
        for (name, count) in self.named() {
            println!("  {count:>10}  {name}");
        }
    }
}
