//! Previews, of the version under test and of the plain version: the reply, the twelve bytes and the guard bytes around them, and
//! that table, policy and their guard bytes are left.

use super::lent::Lent;
use super::{Tester, GUARD};
use crate::calls::{refusal_of, Memory, Preview};
use crate::report::answer;

/// What a preview has shown: a reply, and the slot that is given.
#[derive(Clone, Copy, PartialEq, Eq, Debug)]
pub struct Previewed {
    pub reply: u32,
    pub slot: [u8; 12],
}

impl Previewed {
    /// "Exactly where a session is given byte 1 is 1."
    pub fn given(&self) -> bool {
        self.slot[1] == 1
    }

    /// Whether the round that was previewed, played later, has replied so and left this in its slot, if there is one.
    pub fn comes_true(&self, reply: u32, slot: Option<&[u8]>) -> bool {
        let same = match self.given() {
            true => slot == Some(&self.slot[..]),
            false => refusal_of(reply) != 0 && self.slot == [0; 12],
        };
        same && self.reply == reply
    }
}

impl Tester<'_> {
    /// The answer of the version under test, and whether policy, table and guard bytes are as they were.
    fn previewed(&mut self, at: Preview, table: &[u8], before: Memory) -> ((u32, Memory), bool) {
        let mut memory = before;
        let mut lent = Lent::new(table, GUARD + self.random.below(16));
        let (front, end) = (self.front, self.lent.len() - GUARD);
        let policy = &mut self.lent[front..end];
        let reply = self.subject.preview(at, policy, lent.bytes(), &mut memory);
        let kept = self.policy_kept() && lent.is(table);
        ((reply, memory), kept)
    }

    /// One preview: what it shows, or nothing where there is a disagreement.
    pub fn preview(&mut self, at: Preview, table: &[u8]) -> Option<Previewed> {
        let before = self.memory();
        let (got, kept) = self.previewed(at, table, before);
        let (mut memory, mut lent) = (before, table.to_vec());
        let reply = self
            .oracle
            .preview(at, &mut self.policy, &mut lent, &mut memory);
        let wanted = (reply, memory);
        let seen = Previewed {
            reply,
            slot: memory.slot(),
        };
        self.counts.previews.preview(at, table, &seen);
        if got != wanted || !kept {
            let lines = vec![
                answer("before", 0, &before),
                answer("tested", got.0, &got.1),
                answer("plain ", wanted.0, &wanted.1),
                format!("policy, table and guard bytes kept: {kept}"),
            ];
            self.found_in_table("tested against plain version", at, table, lines);
            return None;
        }
        if self.opinions && !self.preview_confirmed(at, table, before, wanted) {
            return None;
        }
        Some(seen)
    }

    /// The plain version against others.
    fn preview_confirmed(
        &mut self,
        at: Preview,
        table: &[u8],
        before: Memory,
        plain: (u32, Memory),
    ) -> bool {
        let mut agreed = true;
        for (name, version) in &mut self.other_versions(at.round()) {
            let (mut memory, mut lent) = (before, table.to_vec());
            let reply = version.preview(at, &mut self.policy, &mut lent, &mut memory);
            if (reply, memory) != plain || lent != table {
                let title = format!("plain version against {name} version");
                let lines = vec![
                    answer("plain", plain.0, &plain.1),
                    answer(name, reply, &memory),
                ];
                self.found_in_table(&title, at, table, lines);
                agreed = false;
            }
        }
        agreed
    }
}
