//! The cases for boards that keep a list of 64 slots and take the station program's input: by hand, and drawn.

pub mod drawn;
mod events;
mod input;
mod left;
mod openings;
mod order;
mod owners;
mod previews;
mod rounds;
mod sentences;
mod steps;
#[cfg(test)]
mod tests;
mod unseen;

pub use unseen::UNSEEN;

use super::case::Case;

/// The cases by hand.
pub fn by_hand() -> Vec<Case> {
    let all = [
        openings::cases(),
        owners::cases(),
        order::cases(),
        left::cases(),
        rounds::cases(),
        previews::cases(),
        input::cases(),
    ];
    all.concat()
}

/// All of them, those by hand first.
pub fn stations() -> Vec<Case> {
    [by_hand(), drawn::cases()].concat()
}
