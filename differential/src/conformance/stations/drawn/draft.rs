//! A list of operations as it is drawn, with what stands in the slots so far.

use crate::clients::{manner, shows, Manner, Seen};
use crate::conformance::case::{File, Run};
use crate::plain::policy::{read, Record, RECORD_BYTES};
use crate::plain::session::{Ending, Phase};
use crate::plain::station;
use crate::plain::tables::{open_at, preview_at, round_at, Slot, MOST_SLOTS};
use crate::random::Random;
use crate::requests::{named, request};

pub struct Draft<'a> {
    pub random: &'a mut Random,
    pub slots: [Slot; MOST_SLOTS],
    /// Who opens sessions, and at which slots mostly.
    pub owners: Vec<u8>,
    pub places: Vec<usize>,
    policy: Vec<u8>,
    records: Vec<Record>,
    /// How the client of each slot's session answers.
    manners: [Manner; MOST_SLOTS],
    input: Vec<u8>,
}

impl<'a> Draft<'a> {
    pub fn new(random: &'a mut Random, policy: Vec<u8>) -> Draft<'a> {
        Draft {
            random,
            slots: [Slot::Empty; MOST_SLOTS],
            owners: Vec::new(),
            places: Vec::new(),
            records: policy.chunks_exact(RECORD_BYTES).map(read).collect(),
            policy,
            manners: [Manner::Nothing; MOST_SLOTS],
            input: Vec::new(),
        }
    }

    pub fn run(self) -> Run {
        Run {
            file: File::Bytes(self.policy),
            input: self.input,
        }
    }

    fn write(&mut self, operation: u8, slot: usize, owner: u8, word: u16) {
        let [low, high] = word.to_le_bytes();
        self.input.extend([operation, slot as u8, owner, low, high]);
    }

    pub fn open(&mut self, slot: usize, owner: u8, request: u16) {
        self.write(1, slot, owner, request);
        if open_at(&mut self.slots, slot, owner, request).is_ok() {
            self.manners[slot] = manner(self.random);
        }
    }

    /// An opening for a service, mostly one of the policy's.
    pub fn open_for_some(&mut self, slot: usize, owner: u8) {
        let request = request(self.random, &self.records);
        self.open(slot, owner, request);
    }

    /// A round; the owner in its record is any.
    pub fn play(&mut self, slot: usize, p: u16) {
        let unread = self.random.byte();
        self.write(2, slot, unread, p);
        // a refusal leaves the slots
        let _ = round_at(&self.policy, &mut self.slots, slot, p);
    }

    /// A preview; the owner in its record is any.
    pub fn preview(&mut self, slot: usize, p: u16) {
        let unread = self.random.byte();
        self.write(3, slot, unread, p);
    }

    /// A set of the policy's credentials.
    fn any_set(&mut self) -> u16 {
        self.random.credentials(named(&self.records))
    }

    /// What the client of a slot's session shows next; any set where there is none.
    pub fn next_set(&mut self, slot: usize) -> u16 {
        let Some(Slot::Held { session, .. }) = self.slots.get(slot) else {
            return self.any_set();
        };
        let asked = match session.phase {
            Phase::Fresh => None,
            Phase::Waiting(question) => Some(question),
            Phase::Closed(_) => return self.any_set(),
        };
        let seen = Seen {
            round: usize::from(session.count) + 1,
            asked,
            shown: session.shown,
        };
        shows(self.random, self.manners[slot], &seen)
    }

    /// A set with which a round at a slot ends so, if one is found.
    pub fn set_for(&mut self, slot: usize, so: impl Fn(Ending) -> bool) -> Option<u16> {
        let next = self.next_set(slot);
        let all = named(&self.records);
        let any = (0..20).map(|_| self.any_set());
        let tried: Vec<u16> = [next].into_iter().chain(any).chain([0, all]).collect();
        tried.into_iter().find(|p| {
            let (answer, _) = preview_at(&self.policy, &self.slots, slot, *p);
            answer.is_ok_and(&so)
        })
    }

    /// Draws operations at other slots than this one: anew, until they are.
    pub fn elsewhere(&mut self, slot: usize, draw: impl Fn(&mut Draft)) {
        let (slots, length) = (self.slots, self.input.len());
        loop {
            draw(self);
            let mut drawn = self.input[length..].chunks_exact(station::RECORD_BYTES);
            if drawn.all(|record| usize::from(record[1]) != slot) {
                return;
            }
            self.slots = slots;
            self.input.truncate(length);
        }
    }
}
