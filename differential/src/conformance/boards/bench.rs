//! The bench program over a version of the gate.

use super::flaws::Flaw;
use crate::calls::{asked_of, ending_of, refusal_of, Call, Memory, Version, ASK, GRANT};
use crate::conformance::case::{File, Run};

/// A program that has read its policy and its input.
struct Board<'a> {
    version: &'a mut dyn Version,
    flaw: Flaw,
    policy: Vec<u8>,
    session: Memory,
    text: String,
    /// All that was shown, and the last question.
    shown: u16,
    asked: u16,
    closed: bool,
}

/// What is read of the file.
fn policy(run: &Run, flaw: Flaw) -> Vec<u8> {
    let bytes = run.bytes().unwrap_or(&[]);
    let most = match flaw {
        Flaw::ReadsLess => 2304,
        Flaw::ReadsAll => bytes.len() - bytes.len() % 18,
        _ => 2305,
    };
    bytes[..bytes.len().min(most)].to_vec()
}

/// The records of the input.
fn words(run: &Run, flaw: Flaw) -> Vec<u16> {
    let word = |pair: &[u8]| match (flaw, pair) {
        (Flaw::HighByteFirst, [high, low]) => u16::from_be_bytes([*high, *low]),
        (_, [low, high]) => u16::from_le_bytes([*low, *high]),
        (_, rest) => u16::from(rest[0]),
    };
    let mut words: Vec<u16> = match flaw {
        Flaw::OddByte => run.input.chunks(2).map(word).collect(),
        _ => run.input.chunks_exact(2).map(word).collect(),
    };
    match (flaw, words.first_mut()) {
        (Flaw::RequestUnread, Some(request)) => *request &= 0xff,
        (Flaw::StopsAtSeventeen, Some(_)) => words.truncate(18),
        _ => {}
    }
    words
}

impl Board<'_> {
    fn call(&mut self, call: Call) -> u32 {
        self.version.call(call, &mut self.policy, &mut self.session)
    }

    fn say(&mut self, line: &str) {
        self.text += line;
        if self.flaw == Flaw::ReturnInLines {
            self.text.push('\r');
        }
        self.text.push('\n');
    }

    fn set(&self, set: u16) -> String {
        match self.flaw {
            Flaw::CapitalDigits => format!("{set:04X}"),
            Flaw::ShortDigits => format!("{set:x}"),
            Flaw::DecimalSets => format!("{set}"),
            Flaw::TwoDigits => format!("{set:02x}"),
            _ => format!("{set:04x}"),
        }
    }

    fn refused(&mut self, reply: u32) {
        let (number, record) = (refusal_of(reply), reply >> 8);
        let of_policy = matches!(number, 1..=6 | 12 | 13);
        let left_out = self.flaw == Flaw::RecordLeftOut && number > 6;
        let line = match (of_policy, self.flaw) {
            (true, _) if left_out => format!("refused {number}"),
            (true, Flaw::RecordInHexadecimal) => format!("refused {number} at {record:x}"),
            (true, Flaw::RecordFromOne) => format!("refused {number} at {}", record + 1),
            (true, _) => format!("refused {number} at {record}"),
            (false, Flaw::RecordOfSeven) if number == 7 => "refused 7 at 0".to_string(),
            (false, _) => format!("refused {number}"),
        };
        self.say(&line);
    }

    fn got(&self, p: u16, before: u16) -> u16 {
        match self.flaw {
            Flaw::AllGot => self.shown,
            Flaw::NewGot => p & !before,
            _ => p,
        }
    }

    /// The line of an accepted round.
    fn ended(&mut self, reply: u32, p: u16) {
        let session = self.session.session();
        let before = self.shown;
        self.shown |= p;
        let got = self.set(self.got(p, before));
        let count = match self.flaw {
            Flaw::CountFromNone => format!("{}", session[6].wrapping_sub(1)),
            Flaw::CountInHexadecimal => format!("{:x}", session[6]),
            _ => format!("{}", session[6]),
        };
        let mut ending = match ending_of(reply) {
            ASK => format!("ask {}", self.set(asked_of(session))),
            GRANT => "grant".to_string(),
            _ => "deny".to_string(),
        };
        self.closed = ending_of(reply) != ASK;
        if self.closed && self.flaw == Flaw::AskedInGrant {
            ending += &format!(" {}", self.set(self.asked));
        }
        self.asked = asked_of(session);
        self.say(&format!("round {count} got {got} {ending}"));
    }

    /// The rounds; where the output goes on after a refusal, that line again for each record.
    fn rounds(&mut self, request: u16, shown: &[u16]) {
        for p in shown {
            if self.closed && self.flaw == Flaw::OpensAgain {
                self.call(Call::Open(request));
                self.closed = false;
            }
            let was_closed = self.closed;
            let reply = self.call(Call::Round(*p));
            match refusal_of(reply) {
                0 => self.ended(reply, *p),
                _ => self.refused(reply),
            }
            if was_closed && self.flaw == Flaw::NineOnce {
                return;
            }
        }
        if self.flaw == Flaw::UnfinishedDenied && !self.closed && !shown.is_empty() {
            self.say("deny");
        }
    }

    /// The refusal of policy or request that ends the output, if there is one.
    fn refusal(&mut self, request: u16, rounds: usize) -> Option<u32> {
        let untested = self.flaw == Flaw::PolicyWithRound && rounds == 0;
        let policy = match untested {
            true => 0,
            false => self.call(Call::Check),
        };
        let opened = self.call(Call::Open(request));
        let replies = match self.flaw {
            Flaw::RequestFirst => [opened, policy],
            _ => [policy, opened],
        };
        replies.into_iter().find(|reply| *reply != 0)
    }

    fn run(&mut self, words: &[u16]) {
        let Some((request, shown)) = words.split_first() else {
            let tested = self.flaw == Flaw::PolicyAnyway;
            let reply = if tested { self.call(Call::Check) } else { 0 };
            if reply != 0 {
                self.refused(reply);
            }
            return;
        };
        match self.refusal(*request, shown.len()) {
            None => self.rounds(*request, shown),
            Some(reply) => {
                let again = match self.flaw {
                    Flaw::RefusalGoesOn => shown.len(),
                    _ => 0,
                };
                (0..=again).for_each(|_| self.refused(reply));
            }
        }
    }
}

/// What a program prints that has this version of the gate under it and this flaw.
pub fn bench(version: &mut dyn Version, flaw: Flaw, run: &Run) -> String {
    let missing = run.file == File::Missing;
    let words = words(run, flaw);
    match flaw {
        Flaw::MissingRefused if missing && !words.is_empty() => {
            return "refused 2 at 0\n".to_string()
        }
        Flaw::MissingAsLast if missing => return String::new(),
        _ => {}
    }
    let mut board = Board {
        version,
        flaw,
        policy: policy(run, flaw),
        session: Memory([0; 32]),
        text: String::new(),
        shown: 0,
        asked: 0,
        closed: false,
    };
    board.run(&words);
    let mut text = board.text;
    if flaw == Flaw::LastLineOpen {
        text.pop();
    }
    text
}
