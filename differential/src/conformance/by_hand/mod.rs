//! Cases by hand: the policy, the input and every line of the output are written down from the papers' words, none from a run.

mod bodies;
#[cfg(test)]
mod check;
mod closing;
mod crowded;
mod draft;
mod files;
mod heads;
mod inputs;
mod kinds;
mod lengths;
mod levels;
mod limits;
mod lines;
mod marked;
mod models;
mod order;
mod question_weights;
mod questions;
mod records;
mod requests;
mod sessions;
mod weights;
mod words;

use super::case::Case;

/// "Policy A: 16 if 0, 1; 16 if 2, not 3; 63 if 0, 2; disclosure 0 always; 1 if 0; 2 always."
const POLICY_A: &str = "16 if 0, 1; 16 if 2, not 3; 63 if 0, 2; \
    disclosure 0 always; disclosure 1 if 0; disclosure 2 always";

/// "policy B, 16 if 0, 1; 16 if 2, 3; 63 if 0, 2; disclosure of 0 to 3 always"
const POLICY_B: &str = "16 if 0, 1; 16 if 2, 3; 63 if 0, 2; disclosure 0 to 3 always";

/// Two ways in, by one credential each.
const EITHER: &str = "16 if 0; 16 if 1; disclosure 0, 1 always";

/// All cases, subject by subject.
pub fn by_hand() -> Vec<Case> {
    [
        marked::cases(),
        lengths::cases(),
        kinds::cases(),
        heads::cases(),
        bodies::cases(),
        weights::cases(),
        levels::cases(),
        requests::cases(),
        order::cases(),
        files::cases(),
        inputs::cases(),
        closing::cases(),
        records::cases(),
        lines::cases(),
        models::cases(),
        crowded::cases(),
        questions::cases(),
        question_weights::cases(),
        sessions::cases(),
        limits::cases(),
    ]
    .concat()
}
