//! Random sessions: sound ones, ones with one clause broken, and bytes that are no session.

use crate::plain::interface::encode;
use crate::plain::session::{Phase, Session, Verdict};
use crate::random::Random;

/// Requests that are none, near the bounds and beyond eight bits.
pub const NO_SERVICES: [u16; 10] = [0, 1, 15, 63, 64, 255, 256, 272, 0x3e00, 0xffff];

fn closed(random: &mut Random) -> Phase {
    Phase::Closed(random.pick(&[Verdict::Grant, Verdict::Deny]))
}

/// A count that a session with these sets may have, often the first or the last.
fn count(random: &mut Random, joined: u16) -> u8 {
    let most = 1 + joined.count_ones() as usize;
    match random.below(4) {
        0 => 1,
        1 => most as u8,
        _ => random.range(1, most) as u8,
    }
}

/// A sound session for a service, with credentials from those named or from all.
pub fn sound(random: &mut Random, request: u16, named: u16) -> Session {
    let all = if random.one_in(3) { 0xffff } else { named };
    let question = random.credentials(all);
    let rest = all & !question;
    let mut session = Session {
        request,
        shown: random.credentials(rest),
        declined: random.credentials(rest),
        count: 0,
        phase: Phase::Waiting(question),
    };
    if question == 0 && random.one_in(8) || random.one_in(12) {
        session.shown = 0;
        session.declined = 0;
        session.phase = Phase::Fresh;
        return session;
    }
    if question == 0 || random.one_in(6) {
        session.phase = closed(random);
    }
    session.count = count(random, session.shown | session.declined);
    session
}

fn credential(random: &mut Random) -> u16 {
    1 << random.below(16)
}

/// A fresh session with something in it.
fn touched(random: &mut Random, session: &mut Session) {
    match random.below(3) {
        0 => session.shown = credential(random),
        1 => session.declined = credential(random),
        _ => session.count = random.pick(&[1, 2, 255]),
    }
}

/// A count just outside the range.
fn miscounted(random: &mut Random, session: &mut Session) {
    let most = 1 + (session.shown | session.declined).count_ones() as u8;
    session.count = random.pick(&[0, most + 1, most + 1, most + 2, 18, 255]);
}

/// A question that is empty or shares one credential with what is shown or declined.
fn misasked(random: &mut Random, session: &mut Session, question: u16) {
    let shared = credential(random);
    match random.below(3) {
        0 => session.phase = Phase::Waiting(0),
        1 => {
            session.phase = Phase::Waiting(question | shared);
            session.shown |= shared;
        }
        _ => {
            session.phase = Phase::Waiting(question | shared);
            session.declined |= shared;
        }
    }
}

/// A session with one clause of soundness broken, mostly.
pub fn unsound(random: &mut Random, request: u16, named: u16) -> Session {
    let mut session = sound(random, request, named);
    if random.one_in(6) {
        session.request = random.pick(&NO_SERVICES);
        return session;
    }
    match session.phase {
        Phase::Fresh => touched(random, &mut session),
        Phase::Waiting(question) if random.one_in(2) => misasked(random, &mut session, question),
        _ => miscounted(random, &mut session),
    }
    session
}

/// Ten bytes that stand for no session: no such phase, or a question outside waiting.
pub fn none(random: &mut Random, request: u16, named: u16) -> [u8; 10] {
    let mut bytes = encode(&sound(random, request, named));
    if random.one_in(2) {
        bytes[7] = random.pick(&[4, 5, 128, 129, 255]);
    } else {
        bytes[7] = random.pick(&[0, 2, 3]);
        bytes[8..].copy_from_slice(&credential(random).to_le_bytes());
    }
    if random.one_in(4) {
        bytes[0] = random.byte();
    }
    bytes
}

/// Ten random bytes; half of them with a phase and a request that may be.
pub fn any(random: &mut Random) -> [u8; 10] {
    let mut bytes = std::array::from_fn(|_| random.byte());
    if random.one_in(2) {
        bytes[0] = random.range(14, 64) as u8;
        bytes[1] = 0;
        bytes[6] = random.below(19) as u8;
        bytes[7] = random.below(5) as u8;
    }
    bytes
}
