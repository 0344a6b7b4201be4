//! Clients that play a session: what they show until it closes.

use crate::clients::{shows, Manner, Seen};
use crate::conformance::case::Run;
use crate::plain::policy::Record;
use crate::plain::session::{open, round, Ending};
use crate::policies::encode;
use crate::random::Random;
use crate::requests;

/// More rounds than any session has.
const MOST_ROUNDS: usize = 30;

/// A client, and how many rounds it plays after the session is closed.
#[derive(Clone, Copy)]
pub struct Client {
    pub manner: Manner,
    pub after: usize,
}

/// Of what is shown in round 1 and later, so many rounds at most.
pub fn shown(
    random: &mut Random,
    policy: &[u8],
    request: u16,
    client: Client,
    most: usize,
) -> Vec<u16> {
    let mut sets: Vec<u16> = Vec::new();
    let mut session = open(request).ok();
    let mut asked = None;
    let mut after = client.after;
    while sets.len() < most {
        let seen = Seen {
            round: sets.len() + 1,
            asked,
            shown: sets.iter().fold(0, |all, set| all | set),
        };
        let p = shows(random, client.manner, &seen);
        match session.and_then(|s| round(policy, &s, p).ok()) {
            Some((ending, next)) => {
                session = Some(next);
                asked = Some(match ending {
                    Ending::Ask(question) => question,
                    _ => 0,
                });
            }
            None if after == 0 => break,
            None => after -= 1,
        }
        sets.push(p);
    }
    sets
}

/// A client's session.
pub fn session(random: &mut Random, records: &[Record], request: u16, client: Client) -> Run {
    let shown = shown(random, &encode(records), request, client, MOST_ROUNDS);
    Run::of(records, request, &shown)
}

/// Few rounds after the close, mostly none.
pub fn after(random: &mut Random) -> usize {
    random.pick(&[0, 0, 0, 1, 2])
}

/// A client of any manner.
pub fn anyone(random: &mut Random) -> Client {
    let late = Manner::Late(random.range(2, 6));
    let manner = random.pick(&[
        Manner::Nothing,
        late,
        Manner::PartOfAsked,
        Manner::PartOfAsked,
        Manner::Again,
        Manner::AllAsked,
        Manner::Random,
    ]);
    let after = after(random);
    Client { manner, after }
}

/// Anyone's session for a service of the policy's.
pub fn any_session(random: &mut Random, records: &[Record]) -> Run {
    let request = requests::request(random, records);
    let client = anyone(random);
    session(random, records, request, client)
}
