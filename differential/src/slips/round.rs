//! Slips in sessions and rounds.

use super::names::{Slip, Slipped};
use crate::calls::{Memory, PLACE};
use crate::plain::interface::{decode, encode, ending_reply};
use crate::plain::policy::{Policy, Refusal};
use crate::plain::session::{Ending, Phase, Session, Verdict};

impl Slipped {
    fn sound(&self, s: &Session) -> bool {
        let joined = s.shown | s.declined;
        let most = 1 + joined.count_ones() + u32::from(self.is(Slip::CountBound));
        let counted = s.count >= 1 && u32::from(s.count) <= most;
        match s.phase {
            Phase::Fresh => joined == 0 && s.count == 0,
            Phase::Waiting(q) if self.is(Slip::QuestionOverlap) => {
                q != 0 && q & s.shown == 0 && counted
            }
            Phase::Waiting(q) => q != 0 && q & joined == 0 && counted,
            Phase::Closed(_) => counted,
        }
    }

    /// Refusals 7 to 9.
    fn turned_back(&self, s: &Session) -> Option<u8> {
        let mask = if self.is(Slip::RequestCut) {
            0xff
        } else {
            0xffff
        };
        let closed = matches!(s.phase, Phase::Closed(_));
        if !(16..63).contains(&(s.request & mask)) {
            Some(7)
        } else if closed && self.is(Slip::NineBeforeEight) {
            Some(9)
        } else if !self.sound(s) {
            Some(8)
        } else {
            closed.then_some(9)
        }
    }

    fn take(&self, s: &Session, question: u16, p: u16) -> Session {
        let mut next = *s;
        let p = if self.is(Slip::AllAlike) { 0 } else { p };
        next.shown |= p;
        if self.is(Slip::DeclineForgotten) && p != 0 {
            next.declined = 0;
        }
        if !self.is(Slip::NeverDeclined) {
            next.declined |= question & !p;
        }
        if self.is(Slip::ShownUndeclined) {
            next.declined &= !p;
        }
        next.count += 1;
        if self.is(Slip::CountInvented) {
            next.count = 1 + (next.shown | next.declined).count_ones() as u8;
        }
        next
    }

    fn round(&self, rules: &Policy, s: &Session, p: u16) -> (Ending, Session) {
        let question = match s.phase {
            Phase::Waiting(question) => question,
            _ => 0,
        };
        let mut next = self.take(s, question, p);
        if self.is(Slip::RequestCut) {
            next.request &= 0xff;
        }
        let ending = if self.is(Slip::SixteenRounds) && next.count == 17 {
            Ending::Deny
        } else if self.unlocks(rules, next.request, next.shown) {
            Ending::Grant
        } else if self.is(Slip::Repeats) && question != 0 {
            Ending::Ask(question)
        } else {
            let d = self.may_ask(rules, &next);
            self.question(rules, &next, d)
                .map_or(Ending::Deny, Ending::Ask)
        };
        next.phase = match ending {
            Ending::Grant => Phase::Closed(Verdict::Grant),
            Ending::Deny => Phase::Closed(Verdict::Deny),
            Ending::Ask(asked) => Phase::Waiting(asked),
        };
        (ending, if self.is(Slip::Untouched) { *s } else { next })
    }

    pub(super) fn call_round(
        &self,
        policy: &[u8],
        p: u16,
        memory: &mut Memory,
    ) -> Result<u32, Refusal> {
        let session = decode(memory.session());
        let turned_back = session.map_or(Some(8), |s| self.turned_back(&s));
        let rules = match (self.check(policy), turned_back) {
            (_, Some(number)) if self.is(Slip::PolicyLast) => {
                return Err(Refusal::without_record(number))
            }
            (rules, _) => rules?,
        };
        let (Some(session), None) = (session, turned_back) else {
            return Err(Refusal::without_record(turned_back.unwrap_or(8)));
        };
        let (ending, next) = self.round(&rules, &session, p);
        let mut bytes = encode(&next);
        if self.is(Slip::AskedTurned) {
            bytes.swap(8, 9);
        }
        memory.set_session(bytes);
        if self.is(Slip::GuardWritten) {
            memory.0[PLACE + 10] = 0;
        }
        Ok(self.reply(ending))
    }

    fn reply(&self, ending: Ending) -> u32 {
        match ending {
            Ending::Ask(asked) if self.is(Slip::AskedInReply) => {
                ending_reply(ending) | u32::from(asked) << 16
            }
            _ => ending_reply(ending),
        }
    }

    pub(super) fn call_open(&self, request: u16, memory: &mut Memory) -> u32 {
        let cut = if self.is(Slip::RequestCut) {
            request & 0xff
        } else {
            request
        };
        if !(16..63).contains(&cut) {
            return 7;
        }
        let mut bytes = [0; 10];
        bytes[..2].copy_from_slice(&cut.to_le_bytes());
        memory.set_session(bytes);
        0
    }
}
