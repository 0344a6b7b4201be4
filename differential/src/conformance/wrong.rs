//! Wrong boards: programs over the slips of the differential tests, and programs with a flaw of their own. The pack must tell each of
//! them from a right one.

mod unseen;

use super::boards::{bench, log, station, Flaw, FLAWS};
use super::case::Run;
use super::stations;
use crate::slips::{Slip, Slipped, SLIPS};

/// Which cases a board is run on.
#[derive(Clone, Copy, PartialEq, Eq, Debug)]
pub enum Set {
    Bench,
    Logs,
    Station,
}

#[derive(Clone, Copy)]
enum Fault {
    Slip(Slip),
    Flaw(Flaw),
}

#[derive(Clone, Copy)]
pub struct Board {
    pub set: Set,
    fault: Fault,
    /// What is wrong.
    pub text: &'static str,
}

/// A name in lower-case letters, with hyphens between its words.
fn hyphened(name: &str) -> String {
    let mut text = String::new();
    for letter in name.chars() {
        if letter.is_uppercase() && !text.is_empty() {
            text.push('-');
        }
        text.extend(letter.to_lowercase());
    }
    text
}

impl Board {
    pub fn name(&self) -> String {
        match self.fault {
            Fault::Slip(slip) => hyphened(&format!("{slip:?}")),
            Fault::Flaw(flaw) => hyphened(&format!("{flaw:?}")),
        }
    }

    /// What it prints, or writes as its log.
    pub fn prints(&self, run: &Run) -> Vec<u8> {
        match (self.set, self.fault) {
            (Set::Bench, Fault::Slip(slip)) => bench(&mut Slipped(slip), Flaw::None, run).into(),
            (Set::Bench, Fault::Flaw(flaw)) => bench(&mut Slipped(Slip::None), flaw, run).into(),
            (Set::Logs, Fault::Slip(slip)) => log(&mut Slipped(slip), run),
            (Set::Station, Fault::Slip(slip)) => station(&mut Slipped(slip), run).into(),
            (_, Fault::Flaw(_)) => Vec::new(),
        }
    }
}

/// Which cases may show a slip.
fn set_of(text: &str) -> Set {
    match text.split(':').next() {
        Some("tables" | "previews") => Set::Station,
        Some("log record" | "logs") => Set::Logs,
        _ => Set::Bench,
    }
}

/// The slips that no program can show, each with the reason.
pub fn unseen() -> Vec<(Slip, &'static str)> {
    [&unseen::UNSEEN[..], &stations::UNSEEN[..]].concat()
}

/// The boards over slips of which this is so.
fn over(is: impl Fn(Slip) -> bool) -> Vec<Board> {
    let slips = SLIPS.into_iter().filter(|(slip, _)| is(*slip));
    slips
        .map(|(slip, text)| Board {
            set: set_of(text),
            fault: Fault::Slip(slip),
            text,
        })
        .collect()
}

/// Boards whose slip no program can show.
pub fn unseen_boards() -> Vec<Board> {
    let unseen = unseen();
    over(|slip| unseen.iter().any(|(other, _)| *other == slip))
}

/// Every slip that a program can show, and every flaw.
pub fn wrong_boards() -> Vec<Board> {
    let unseen = unseen();
    let slips = over(|slip| unseen.iter().all(|(other, _)| *other != slip));
    let flaws = FLAWS.into_iter().map(|(flaw, text)| Board {
        set: Set::Bench,
        fault: Fault::Flaw(flaw),
        text,
    });
    slips.into_iter().chain(flaws).collect()
}

/// Boards with nothing wrong: the slips' code without a slip, in each set, its candidates sorted or by blocks.
pub fn right_boards() -> Vec<Board> {
    let sets = [Set::Bench, Set::Logs, Set::Station];
    let versions = [Slip::None, Slip::NoneByBlocks];
    let each = sets
        .into_iter()
        .flat_map(|set| versions.map(|slip| (set, slip)));
    each.map(|(set, slip)| Board {
        set,
        fault: Fault::Slip(slip),
        text: "no slip",
    })
    .collect()
}
