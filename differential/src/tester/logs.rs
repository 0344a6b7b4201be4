//! Logs: the record of a round, and two logs compared, of the version under test and of the plain version.

use super::lent::Lent;
use super::{Tester, GUARD};
use crate::calls::{asked_of, Memory, PLACE};
use crate::report::{answer, hex};

impl Tester<'_> {
    /// The record of a round that showed a set, replied so and left this session: its bytes, none where there is no record; or
    /// nothing where the versions disagree.
    pub fn log_record(&mut self, p: u16, reply: u32, session: [u8; 10]) -> Option<Vec<u8>> {
        let (lent, before) = (self.memory_with(session), self.memory());
        let (mut held, mut memory) = (lent, before);
        let written = self.subject.log_record(p, reply, &mut held, &mut memory);
        let (mut other, mut wanted) = (lent, before);
        let bytes = self.oracle.log_record(p, reply, &mut other, &mut wanted);
        self.counts.logs.record(bytes, reply, asked_of(session));
        if (written, held, memory) != (bytes, lent, wanted) {
            let lines = [
                format!("gate_log_record {p:04x} {reply:08x} {}", hex(&session)),
                format!("memory before: {}", hex(&before.0)),
                answer("tested", written, &memory),
                answer("plain ", bytes, &wanted),
                format!("session kept: {}", held == lent),
            ];
            self.found_in("log record, tested against plain version", &lines);
            return None;
        }
        Some(memory.0[PLACE..PLACE + written as usize].to_vec())
    }

    /// Two logs compared; false where the versions disagree.
    pub fn compare_logs(&mut self, first: &[u8], second: &[u8]) -> bool {
        let before = self.memory();
        let fronts = (GUARD + self.random.below(8), GUARD + self.random.below(8));
        let (mut one, mut other) = (Lent::new(first, fronts.0), Lent::new(second, fronts.1));
        let mut memory = before;
        let reply = self
            .subject
            .compare_logs(one.bytes(), other.bytes(), &mut memory);
        let kept = one.is(first) && other.is(second);
        let (wanted, wanted_memory) = self.plain_comparison(first, second, before);
        self.counts.logs.comparison(first, second);
        if kept && (reply, memory) == (wanted, wanted_memory) {
            return true;
        }
        let lines = [
            format!("gate_compare_logs, the first: {}", hex(first)),
            format!("the second: {}", hex(second)),
            format!("memory before: {}", hex(&before.0)),
            answer("tested", reply, &memory),
            answer("plain ", wanted, &wanted_memory),
            format!("logs kept: {kept}"),
        ];
        self.found_in("two logs, tested against plain version", &lines);
        false
    }

    fn plain_comparison(&mut self, first: &[u8], second: &[u8], before: Memory) -> (u32, Memory) {
        let mut memory = before;
        let (mut one, mut other) = (first.to_vec(), second.to_vec());
        let reply = self.oracle.compare_logs(&mut one, &mut other, &mut memory);
        (reply, memory)
    }
}
