//! Clients: what is shown in each round of a list.

use crate::random::Random;

/// How a client answers.
#[derive(Clone, Copy, PartialEq, Eq, Debug)]
pub enum Manner {
    /// Shows random sets.
    Random,
    /// Shows a part of what is asked.
    PartOfAsked,
    /// Never shows anything.
    Nothing,
    /// Shows all that is asked.
    AllAsked,
    /// Shows nothing before this round, and all that is asked from it on.
    Late(usize),
    /// Shows every credential at once.
    Everything,
    /// Shows again what it has shown, and a part of what is asked.
    Again,
    /// "shows in round 1 a part I of what it holds, and answers each question with exactly the asked ones it holds"
    Cooperative { holding: u16, first: u16 },
}

/// A manner for a client who does not cooperate.
pub fn manner(random: &mut Random) -> Manner {
    let round = random.pick(&[2, 3, 4, 5, 6, 7, 8, 9, 11, 13, 15, 16, 17, 17, 17]);
    random.pick(&[
        Manner::Late(round),
        Manner::Random,
        Manner::PartOfAsked,
        Manner::PartOfAsked,
        Manner::PartOfAsked,
        Manner::Nothing,
        Manner::Nothing,
        Manner::AllAsked,
        Manner::Everything,
        Manner::Again,
    ])
}

/// What a client knows of its list.
pub struct Seen {
    /// This round's number.
    pub round: usize,
    /// What the last round asked; none before the first.
    pub asked: Option<u16>,
    /// All that it has shown.
    pub shown: u16,
}

/// What is shown next.
pub fn shows(random: &mut Random, manner: Manner, seen: &Seen) -> u16 {
    let question = seen.asked.unwrap_or(0);
    match manner {
        Manner::Random if random.one_in(3) => random.word(),
        Manner::Random => random.word() & random.word() & random.word(),
        Manner::PartOfAsked if random.one_in(10) => 1 << random.below(16),
        Manner::PartOfAsked => random.credentials(question),
        Manner::Nothing => 0,
        Manner::Late(round) if seen.round < round => 0,
        Manner::Late(_) | Manner::AllAsked => question,
        Manner::Everything => 0xffff,
        Manner::Again => seen.shown | random.credentials(question),
        Manner::Cooperative { holding, first } => match seen.asked {
            None => first,
            Some(question) => question & holding,
        },
    }
}
