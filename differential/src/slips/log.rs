//! Slips in logs: the record of a round, and two logs compared.

use super::names::{Slip, Slipped};
use crate::calls::{asked_of, refusal_of, Memory, PART};
use crate::plain::interface::replied;
use crate::plain::lists::Accepted;
use crate::plain::log::{entries, entry, write, Entry, ASK, DENY, GRANT};
use crate::plain::session::Ending;

impl Slipped {
    /// How a round ended, by its reply and the set that its session asks for.
    fn replied(&self, reply: u32, asked: u16) -> Option<Ending> {
        let reply = if self.is(Slip::ReplyCut) {
            reply & 0xffff
        } else {
            reply
        };
        match replied(reply, asked) {
            None if self.is(Slip::RefusedLogged) && refusal_of(reply) != 0 => Some(Ending::Deny),
            None if self.is(Slip::NothingAskedLogged) && reply == 0x300 => Some(Ending::Ask(asked)),
            ending => ending,
        }
    }

    pub(super) fn record(&self, p: u16, reply: u32, session: [u8; 10], memory: &mut Memory) -> u32 {
        let Some(ending) = self.replied(reply, asked_of(session)) else {
            if self.is(Slip::RecordCleared) {
                memory.set_record([0; 8]);
            }
            return 0;
        };
        let count = session[6].wrapping_sub(u8::from(self.is(Slip::CountBefore)));
        let mut entry = entry(&Accepted { p, ending }, count);
        if self.is(Slip::AllShown) {
            entry.shown = u16::from_le_bytes([session[2], session[3]]);
        }
        let mut bytes = write(&entry);
        if self.is(Slip::LogBigEndian) {
            bytes.swap(0, 1);
            bytes.swap(3, 4);
        }
        memory.set_record(bytes);
        8
    }

    /// Whether a record is refused 11.
    fn broken(&self, entry: &Entry) -> bool {
        let least = u8::from(!self.is(Slip::AnswerZero));
        let most = ASK + u8::from(self.is(Slip::AnswerFour));
        let pads = [!self.is(Slip::FirstPad), !self.is(Slip::SecondPad)];
        let padded = (0..2).any(|k| pads[k] && entry.pad[k] != 0);
        let question = match entry.answer {
            ASK => entry.asked == 0 && !self.is(Slip::AskNothing),
            GRANT => entry.asked != 0 && !self.is(Slip::GrantAsks),
            DENY => entry.asked != 0 && !self.is(Slip::DenyAsks),
            _ => entry.asked != 0,
        };
        !(least..=most).contains(&entry.answer) || padded || question
    }

    fn log_refusal(&self, log: &[u8]) -> Option<u32> {
        let length = (!log.len().is_multiple_of(8)).then_some(10);
        let record = entries(log).iter().any(|entry| self.broken(entry));
        let record = record.then_some(11);
        if self.is(Slip::ElevenFirst) {
            record.or(length)
        } else {
            length.or(record)
        }
    }

    fn agree(&self, x: &Entry, y: &Entry) -> bool {
        let answer = x.answer == y.answer || self.is(Slip::AskedAlone);
        let asked = match self.0 {
            Slip::AnswerAlone => true,
            Slip::LowByte => x.asked & 0xff == y.asked & 0xff,
            _ => x.asked == y.asked,
        };
        let count = x.count == y.count || !self.is(Slip::CountCompared);
        let shown = x.shown == y.shown || !self.is(Slip::ShownCompared);
        answer && asked && count && shown
    }

    /// Where two logs part.
    fn divergence(&self, first: &[Entry], second: &[Entry]) -> Option<usize> {
        let both = first.len().min(second.len());
        let last = both.saturating_sub(1);
        let differs = |k: &usize| {
            let unread = self.is(Slip::LastUncompared) && *k == last;
            !unread && !self.agree(&first[*k], &second[*k])
        };
        let longer = (first.len() != second.len() && !self.is(Slip::Prefix)).then_some(both);
        (0..both).find(differs).or(longer)
    }

    pub(super) fn compare(&self, first: &[u8], second: &[u8], memory: &mut Memory) -> u32 {
        let (one, other) = (self.log_refusal(first), self.log_refusal(second));
        let refused = if self.is(Slip::SecondFirst) {
            other.or(one)
        } else {
            one.or(other)
        };
        let part = self.divergence(&entries(first), &entries(second));
        match (refused, part) {
            (None, Some(place)) => {
                memory.set_place(place + usize::from(self.is(Slip::FromOne)));
                PART
            }
            _ => {
                if self.is(Slip::PlaceCleared) {
                    memory.set_place(0);
                }
                refused.unwrap_or(0)
            }
        }
    }
}
