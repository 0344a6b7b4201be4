//! What a run of the bench program brings up, by the plain version.

use super::case::Run;
use crate::plain::disclosure::disclosable;
use crate::plain::model::model;
use crate::plain::policy::{check, read, Policy, Record, BREACH};
use crate::plain::session::{open, round, Ending, Phase, Session};

/// An accepted round: what was shown in it, the session after it, D, and how it ended.
pub struct Round {
    pub p: u16,
    pub after: Session,
    pub may_ask: u16,
    pub ending: Ending,
    /// Whether 63 is in the model of what is shown.
    pub breach: bool,
}

impl Round {
    pub fn asked(&self) -> u16 {
        match self.ending {
            Ending::Ask(asked) => asked,
            _ => 0,
        }
    }
}

pub struct Facts {
    /// What is read of the file.
    pub policy: Vec<u8>,
    pub records: Vec<Record>,
    /// None where the policy is refused.
    pub rules: Option<Policy>,
    /// The number of the policy's refusal or the request's; 0 where there is none.
    pub refused: u8,
    pub request: Option<u16>,
    pub rounds: Vec<Round>,
    /// Rounds after closing.
    pub beyond: usize,
}

impl Facts {
    pub fn new(run: &Run) -> Facts {
        let words = run.words();
        let policy = run.policy().to_vec();
        let mut facts = Facts {
            records: policy.chunks_exact(18).map(read).collect(),
            rules: check(&policy).ok(),
            refused: check(&policy).err().map_or(0, |refusal| refusal.number),
            request: words.first().copied(),
            rounds: Vec::new(),
            beyond: 0,
            policy,
        };
        if let (0, Some((request, shown))) = (facts.refused, words.split_first()) {
            match open(*request) {
                Ok(fresh) => facts.play(fresh, shown),
                Err(refusal) => facts.refused = refusal.number,
            }
        }
        facts
    }

    fn play(&mut self, fresh: Session, shown: &[u16]) {
        let mut session = fresh;
        for p in shown {
            match round(&self.policy, &session, *p) {
                Ok((ending, after)) => {
                    self.rounds.push(self.told(*p, after, ending));
                    session = after;
                }
                Err(_) => self.beyond += 1,
            }
        }
    }

    fn told(&self, p: u16, after: Session, ending: Ending) -> Round {
        let (disclosed, set) = match &self.rules {
            Some(rules) => (
                disclosable(&rules.disclosure, after.shown),
                model(&rules.levels, after.shown),
            ),
            None => (0, 0),
        };
        Round {
            p,
            after,
            may_ask: disclosed & !after.shown & !after.declined,
            ending,
            breach: set >> BREACH & 1 == 1,
        }
    }

    /// How the session ends: none where it is left open, or there is none.
    pub fn closed(&self) -> Option<Ending> {
        let last = self.rounds.last()?;
        matches!(last.after.phase, Phase::Closed(_)).then_some(last.ending)
    }

    pub fn granted(&self) -> bool {
        self.closed() == Some(Ending::Grant)
    }

    pub fn denied(&self) -> bool {
        self.closed() == Some(Ending::Deny)
    }
}
