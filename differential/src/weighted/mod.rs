//! A search by weights against a limit, as the benchmark's own library has it (`probe_search`): what is asked and answered.

pub mod counts;
pub mod plain;
pub mod slips;
pub mod tuned;

/// Searched are the subsets of `within` without `shown`. Weights are by credential number, each 0 to 241.
#[derive(Clone, Copy, Debug)]
pub struct Search {
    pub request: u16,
    pub shown: u16,
    pub within: u16,
    pub weights: [u8; 16],
    pub limit: u32,
}

/// The largest weight.
pub const MOST_WEIGHT: u8 = 241;

/// What is found; trials are the place of the candidate from 1, or how many candidates there are.
#[derive(Clone, Copy, PartialEq, Eq, Debug)]
pub enum Answer {
    Found { trials: u32, set: u16 },
    Nothing { trials: u32 },
    Spent,
    Refused,
}

/// As `probe_search` replies: in bits 0 to 7 0 for found, 1 for nothing (all tried), 2 for spent (the limit reached first), 3 for
/// refused; in bits 8 to 31 the trials; in bits 32 to 47 the set found.
pub fn number(answer: Answer) -> u64 {
    match answer {
        Answer::Found { trials, set } => u64::from(set) << 32 | u64::from(trials) << 8,
        Answer::Nothing { trials } => u64::from(trials) << 8 | 1,
        Answer::Spent => 2,
        Answer::Refused => 3,
    }
}
