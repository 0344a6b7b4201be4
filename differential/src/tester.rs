//! Runs cases: one call of the version under test and of the plain version, all that they answer compared.

mod lent;
mod logs;
mod previews;
mod tables;

pub use previews::Previewed;

use crate::calls::{refusal_of, Call, Memory, Version};
use crate::counts::{Counts, Kind};
use crate::definition::{cost, sound, stable_sets, Definition};
use crate::plain::disclosure::disclosable;
use crate::plain::interface::{decode, Plain};
use crate::plain::policy::{check, Policy};
use crate::plain::session::Phase;
use crate::random::Random;
use crate::report::{answer, Finding, Shared, Trail};
use crate::tuned::Tuned;
use std::sync::atomic::Ordering;

/// Bytes after a lent policy, and the fewest before it.
const GUARD: usize = 16;

/// The definition is asked in one of so many cases, where its cost is at most this.
const OPINION_IN: usize = 10;
const OPINION_COST: usize = 100_000;

pub struct Tester<'a> {
    pub random: Random,
    pub counts: Counts,
    pub shared: &'a Shared,
    /// The list that the session is from, if it is from one under one policy.
    pub trail: Option<Trail>,
    subject: Box<dyn Version + 'a>,
    oracle: Box<dyn Version + 'a>,
    opinions: bool,
    policy: Vec<u8>,
    lent: Vec<u8>,
    front: usize,
    rules: Option<Policy>,
}

/// A policy between guard bytes, so many of them in front.
fn guarded(policy: &[u8], front: usize) -> Vec<u8> {
    let mut bytes = vec![0xa5; front];
    bytes.extend(policy);
    bytes.extend([0x5a; GUARD]);
    bytes
}

impl<'a> Tester<'a> {
    /// With opinions, the plain version itself is held against the definition and the tuned version.
    pub fn new(
        subject: Box<dyn Version + 'a>,
        random: Random,
        shared: &'a Shared,
        opinions: bool,
    ) -> Tester<'a> {
        Tester {
            random,
            counts: Counts::default(),
            shared,
            trail: None,
            subject,
            oracle: Box::new(Plain),
            opinions,
            policy: Vec::new(),
            lent: guarded(&[], GUARD),
            front: GUARD,
            rules: Some(Policy::default()),
        }
    }

    /// Another version to be compared with, in the place of the plain one.
    pub fn compared_with(self, oracle: Box<dyn Version + 'a>) -> Tester<'a> {
        Tester { oracle, ..self }
    }

    /// The policy of the cases that follow.
    pub fn set_policy(&mut self, policy: Vec<u8>) {
        self.front = GUARD + self.random.below(8);
        self.lent = guarded(&policy, self.front);
        self.rules = check(&policy).ok();
        self.policy = policy;
    }

    pub fn policy(&self) -> &[u8] {
        &self.policy
    }

    /// The policy's rules, if it is accepted.
    pub fn rules(&self) -> Option<&Policy> {
        self.rules.as_ref()
    }

    /// Memory filled with random bytes.
    pub fn memory(&mut self) -> Memory {
        Memory(std::array::from_fn(|_| self.random.byte()))
    }

    /// Memory with these ten bytes as the session.
    pub fn memory_with(&mut self, session: [u8; 10]) -> Memory {
        let mut memory = self.memory();
        memory.set_session(session);
        memory
    }

    /// The answer of the version under test, and whether the lent bytes are as they were.
    fn ask_subject(&mut self, call: Call, before: Memory) -> (u32, Memory, bool) {
        let mut memory = before;
        let (front, end) = (self.front, self.lent.len() - GUARD);
        let lent = &mut self.lent[front..end];
        let reply = self.subject.call(call, lent, &mut memory);
        (reply, memory, self.policy_kept())
    }

    /// Whether the lent policy and its guard bytes are as they were; they are, afterwards.
    fn policy_kept(&mut self) -> bool {
        let (front, end) = (self.front, self.lent.len() - GUARD);
        let kept = self.lent[front..end] == self.policy
            && self.lent[..front].iter().all(|byte| *byte == 0xa5)
            && self.lent[end..] == [0x5a; GUARD];
        if !kept {
            self.lent = guarded(&self.policy, front);
        }
        kept
    }

    fn ask_oracle(&mut self, call: Call, before: Memory) -> (u32, Memory) {
        let mut memory = before;
        let reply = self.oracle.call(call, &mut self.policy, &mut memory);
        (reply, memory)
    }

    fn ask(&mut self, version: &mut dyn Version, call: Call, before: Memory) -> (u32, Memory) {
        let mut memory = before;
        let reply = version.call(call, &mut self.policy, &mut memory);
        (reply, memory)
    }

    /// One case: the reply and the memory after it, or nothing where there is a disagreement.
    pub fn case(&mut self, kind: Kind, call: Call, before: Memory) -> Option<(u32, Memory)> {
        let (reply, memory, kept) = self.ask_subject(call, before);
        let (wanted, wanted_memory) = self.ask_oracle(call, before);
        self.counts.case(kind, call, wanted);
        self.count_policy(call, wanted);
        self.count_question(call, wanted, wanted_memory);
        if self.counts.cases().is_multiple_of(64) {
            self.shared.cases.fetch_add(64, Ordering::Relaxed);
        }
        if reply != wanted || memory != wanted_memory || !kept {
            self.disagree(call, before);
            return None;
        }
        if self.opinions && !self.confirmed(call, before, reply, memory) {
            return None;
        }
        Some((reply, memory))
    }

    /// A round: a case, and "Every session that opening and rounds give is sound".
    pub fn round(&mut self, kind: Kind, p: u16, before: Memory) -> Option<(u32, Memory)> {
        let call = Call::Round(p);
        let (reply, after) = self.case(kind, call, before)?;
        let session = decode(after.session());
        if refusal_of(reply) == 0 && !session.is_some_and(|s| sound(&s)) {
            let answers = vec![format!("reply {reply:08x}")];
            self.found("an unsound session given".into(), call, after, answers);
        }
        Some((reply, after))
    }

    /// Counts the policy's weights and levels by the reply of its test.
    fn count_policy(&mut self, call: Call, reply: u32) {
        if call == Call::Check {
            let rules = self.rules.as_ref();
            self.counts.weights.policy(&self.policy, rules, reply);
            self.counts.levels.policy(&self.policy, rules, reply);
        }
    }

    /// Counts the question that a round has given, beside what may be asked.
    fn count_question(&mut self, call: Call, reply: u32, after: Memory) {
        let (Some(rules), Some(session)) = (&self.rules, decode(after.session())) else {
            return;
        };
        if let (Call::Round(_), 0, Phase::Waiting(asked)) = (call, refusal_of(reply), session.phase)
        {
            let outside = session.shown | session.declined;
            let may_ask = disclosable(&rules.disclosure, session.shown) & !outside;
            self.counts.questions.sized(may_ask, asked);
            let sets = (may_ask, asked);
            let counts = &mut self.counts.weights;
            counts.question(&self.policy, rules, &session, sets);
        }
    }

    /// The plain version against the tuned one, and in some cases against the definition.
    fn confirmed(&mut self, call: Call, before: Memory, reply: u32, memory: Memory) -> bool {
        self.counts.tuned += 1;
        let mut agreed = self.same(&mut Tuned, "tuned", call, before, (reply, memory));
        if self.random.one_in(OPINION_IN) {
            let price = self.rules.as_ref().map_or(0, |rules| cost(rules, call));
            if price <= OPINION_COST {
                self.counts.definition += 1;
                agreed &= self.same(&mut Definition, "definition", call, before, (reply, memory));
            }
            if let Call::Model(credentials) = call {
                agreed &= self.only_stable_set(credentials, call, before, memory);
            }
        }
        agreed
    }

    fn same(
        &mut self,
        version: &mut dyn Version,
        name: &str,
        call: Call,
        before: Memory,
        plain: (u32, Memory),
    ) -> bool {
        let other = self.ask(version, call, before);
        if other != plain {
            let answers = vec![
                answer("plain", plain.0, &plain.1),
                answer(name, other.0, &other.1),
            ];
            self.found(
                format!("plain version against {name} version"),
                call,
                before,
                answers,
            );
        }
        other == plain
    }

    /// "just one stable set exists; that is the model": all sets tried, where the heads are few.
    fn only_stable_set(&mut self, c: u16, call: Call, before: Memory, after: Memory) -> bool {
        let Some(rules) = &self.rules else {
            return true;
        };
        let heads = rules.access.iter().fold(0u64, |set, r| set | 1 << r.head);
        if heads.count_ones() > 9 || rules.access.len() > 30 {
            return true;
        }
        self.counts.all_stable_sets += 1;
        let mut wanted = before;
        let all = stable_sets(&rules.access, c);
        if let [only] = all[..] {
            wanted.set_model(only);
        }
        let agreed = all.len() == 1 && wanted == after;
        if !agreed {
            let answers = vec![answer("plain", 0, &after), format!("stable sets: {all:x?}")];
            self.found("stable sets".to_string(), call, before, answers);
        }
        agreed
    }

    /// A disagreement with no single call to it, about logs or tables.
    pub fn found_in(&mut self, title: &str, lines: &[String]) {
        self.counts.disagreements += 1;
        if self.counts.first_disagreement == 0 {
            self.counts.first_disagreement = self.counts.cases().max(1);
        }
        self.shared.tell(title, lines);
    }

    /// Writes a finding down with the policy and list as they are.
    pub fn found(&mut self, title: String, call: Call, before: Memory, answers: Vec<String>) {
        self.counts.disagreements += 1;
        if self.counts.first_disagreement == 0 {
            self.counts.first_disagreement = self.counts.cases();
        }
        self.shared.report(&Finding {
            title,
            policy: self.policy.clone(),
            call,
            before,
            trail: self.trail.clone(),
            answers,
        });
    }

    /// The version under test and the plain version differ: the policy is shrunk, then both answers written down.
    fn disagree(&mut self, call: Call, before: Memory) {
        let whole = self.policy.clone();
        let (call, before) = if self.shared.quiet {
            (call, before)
        } else {
            self.shrink(call, before)
        };
        let (reply, memory, kept) = self.ask_subject(call, before);
        let (wanted, wanted_memory) = self.ask_oracle(call, before);
        let mut answers = vec![
            answer("tested", reply, &memory),
            answer("plain ", wanted, &wanted_memory),
        ];
        if !kept {
            answers.push("tested: the lent bytes are changed".to_string());
        }
        self.found("tested against plain version".into(), call, before, answers);
        self.set_policy(whole);
    }

    /// Drops records while a disagreement stays. Leaves the shrunk policy and list in place.
    fn shrink(&mut self, call: Call, before: Memory) -> (Call, Memory) {
        let mut best = (call, before);
        let mut k = self.policy.len() / 18;
        while k > 0 {
            k -= 1;
            let kept = (self.policy.clone(), self.trail.clone());
            let mut fewer = self.policy.clone();
            fewer.drain(18 * k..18 * k + 18);
            self.set_policy(fewer);
            match self.still(best.0, best.1) {
                Some(found) => best = found,
                None => {
                    self.set_policy(kept.0);
                    self.trail = kept.1;
                }
            }
        }
        best
    }

    /// Whether the case, or the list that leads to it, still disagrees under the policy as it is now, and where.
    fn still(&mut self, call: Call, before: Memory) -> Option<(Call, Memory)> {
        let Some(trail) = self.trail.clone() else {
            return self
                .differs(call, before)
                .is_err()
                .then_some((call, before));
        };
        let mut memory = before;
        let calls = trail.shown.iter().map(|p| Call::Round(*p));
        for (k, call) in [Call::Open(trail.request)]
            .into_iter()
            .chain(calls)
            .enumerate()
        {
            match self.differs(call, memory) {
                Ok(after) => memory = after,
                Err(()) => {
                    self.trail = Some(Trail {
                        request: trail.request,
                        shown: trail.shown[..k].to_vec(),
                    });
                    return Some((call, memory));
                }
            }
        }
        None
    }

    /// The memory after a call where both agree.
    fn differs(&mut self, call: Call, before: Memory) -> Result<Memory, ()> {
        let (reply, memory, kept) = self.ask_subject(call, before);
        let plain = self.ask_oracle(call, before);
        if kept && plain == (reply, memory) {
            Ok(memory)
        } else {
            Err(())
        }
    }
}
