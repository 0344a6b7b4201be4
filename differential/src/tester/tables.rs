//! Operations on tables, of the version under test and of the plain version: the whole table compared, bytes around it too.

use super::lent::Lent;
use super::{Tester, GUARD, OPINION_COST, OPINION_IN};
use crate::calls::{refusal_of, Call, Operation, Version};
use crate::definition::{cost, Definition};
use crate::report::hex;
use crate::tuned::Tuned;
use std::fmt::Debug;

/// A reply, and the table after it.
pub type After = (u32, Vec<u8>);

/// What is broken of "A round .. touches nothing else" and "a refusal leaves the list", of an operation at a slot.
fn touched(slot: usize, before: &[u8], reply: u32, after: &[u8]) -> Option<&'static str> {
    let changed = |k: &usize| before[*k] != after[*k];
    let mut places = (0..before.len()).filter(changed);
    if refusal_of(reply) != 0 {
        return places.next().map(|_| "a refusal does not leave the table");
    }
    let elsewhere = places.find(|k| k / 12 != slot);
    elsewhere.map(|_| "something is written outside the slot")
}

fn line(who: &str, after: &After) -> String {
    format!("{who}: reply {:08x}, table {}", after.0, hex(&after.1))
}

impl Tester<'_> {
    /// The answer of the version under test, and whether policy and guard bytes are as they were.
    fn operated(&mut self, operation: Operation, table: &[u8]) -> (After, bool) {
        let mut lent = Lent::new(table, GUARD + self.random.below(16));
        let (front, end) = (self.front, self.lent.len() - GUARD);
        let policy = &mut self.lent[front..end];
        let reply = self.subject.operate(operation, policy, lent.bytes());
        let after = lent.bytes().to_vec();
        let kept = self.policy_kept() && lent.is(&after);
        ((reply, after), kept)
    }

    fn operated_by(&mut self, version: &mut dyn Version, op: Operation, table: &[u8]) -> After {
        let mut after = table.to_vec();
        let reply = version.operate(op, &mut self.policy, &mut after);
        (reply, after)
    }

    /// One operation: the reply and the table after it, or nothing where there is a disagreement.
    pub fn operate(&mut self, operation: Operation, table: &[u8]) -> Option<After> {
        let (got, kept) = self.operated(operation, table);
        let mut after = table.to_vec();
        let reply = self.oracle.operate(operation, &mut self.policy, &mut after);
        let wanted = (reply, after);
        self.counts.tables.operation(operation, table, reply);
        if got != wanted || !kept {
            let lines = [line("tested", &got), line("plain ", &wanted)];
            let kept = format!("policy and guard bytes kept: {kept}");
            let lines = [&lines[..], &[kept]].concat();
            self.found_in_table("tested against plain version", operation, table, lines);
            return None;
        }
        if let Some(what) = touched(operation.slot(), table, got.0, &got.1) {
            self.found_in_table(what, operation, table, vec![line("tested", &got)]);
        }
        if self.opinions && !self.operation_confirmed(operation, table, &got) {
            return None;
        }
        Some(got)
    }

    /// An operation by the version under test alone, nothing compared: the reply, the table changed in place.
    pub fn operate_alone(&mut self, operation: Operation, table: &mut [u8]) -> u32 {
        self.subject.operate(operation, &mut self.policy, table)
    }

    /// The versions that the plain one is held against: the tuned one, and in some cases the definition.
    pub(super) fn other_versions(
        &mut self,
        operation: Operation,
    ) -> Vec<(&'static str, Box<dyn Version>)> {
        let mut versions: Vec<(_, Box<dyn Version>)> = vec![("tuned", Box::new(Tuned))];
        let price = match (operation, &self.rules) {
            (Operation::Round { p, .. }, Some(rules)) => cost(rules, Call::Round(p)),
            _ => 0,
        };
        if self.random.one_in(OPINION_IN) && price <= OPINION_COST {
            versions.push(("definition", Box::new(Definition)));
            self.counts.definition += 1;
        }
        self.counts.tuned += 1;
        versions
    }

    /// The plain version against others.
    fn operation_confirmed(&mut self, operation: Operation, table: &[u8], plain: &After) -> bool {
        let mut agreed = true;
        for (name, version) in &mut self.other_versions(operation) {
            let other = self.operated_by(&mut **version, operation, table);
            if other != *plain {
                let title = format!("plain version against {name} version");
                let lines = vec![line("plain", plain), line(name, &other)];
                self.found_in_table(&title, operation, table, lines);
                agreed = false;
            }
        }
        agreed
    }

    /// A disagreement about an operation or a preview: printed with all that it takes to repeat it.
    pub(super) fn found_in_table(
        &mut self,
        title: &str,
        op: impl Debug,
        table: &[u8],
        answers: Vec<String>,
    ) {
        let mut lines = vec![
            format!("{op:?}"),
            format!("policy: {}", hex(&self.policy)),
            format!("table before: {}", hex(table)),
        ];
        lines.extend(answers);
        self.found_in(&format!("a table, {title}"), &lines);
    }
}
