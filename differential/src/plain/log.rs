//! Logs (document 02, R-1, "Two boards, one session").

use super::lists::{asked, Accepted};
use super::session::Ending;

/// "A log record is 8 bytes, no header"
pub const ENTRY_BYTES: usize = 8;

/// "answer (one byte: 1 grant, 2 deny, 3 ask)"
pub const GRANT: u8 = 1;
pub const DENY: u8 = 2;
pub const ASK: u8 = 3;

/// "shown set (that round's p, 2), answer (one byte: 1 grant, 2 deny, 3 ask), asked set (2), count of rounds (1), two zero bytes"
#[derive(Clone, Copy, PartialEq, Eq, Debug)]
pub struct Entry {
    pub shown: u16,
    pub answer: u8,
    pub asked: u16,
    pub count: u8,
    pub pad: [u8; 2],
}

/// "sets are little-endian"
pub fn write(entry: &Entry) -> [u8; ENTRY_BYTES] {
    let [shown_low, shown_high] = entry.shown.to_le_bytes();
    let [asked_low, asked_high] = entry.asked.to_le_bytes();
    let [first, second] = entry.pad;
    [
        shown_low,
        shown_high,
        entry.answer,
        asked_low,
        asked_high,
        entry.count,
        first,
        second,
    ]
}

/// What eight bytes say.
pub fn read(bytes: &[u8]) -> Entry {
    Entry {
        shown: u16::from_le_bytes([bytes[0], bytes[1]]),
        answer: bytes[2],
        asked: u16::from_le_bytes([bytes[3], bytes[4]]),
        count: bytes[5],
        pad: [bytes[6], bytes[7]],
    }
}

/// "Each accepted round gives its record as 8 bytes."
pub fn entry(round: &Accepted, count: u8) -> Entry {
    let answer = match round.ending {
        Ending::Grant => GRANT,
        Ending::Deny => DENY,
        Ending::Ask(_) => ASK,
    };
    Entry {
        shown: round.p,
        answer,
        asked: asked(round),
        count,
        pad: [0, 0],
    }
}

/// The log of a list: its accepted rounds, the first of them counted 1.
pub fn log(rounds: &[Accepted]) -> Vec<u8> {
    let counted = rounds.iter().zip(1..);
    counted.flat_map(|(r, n)| write(&entry(r, n))).collect()
}

/// The whole records of a log.
pub fn entries(log: &[u8]) -> Vec<Entry> {
    log.chunks_exact(ENTRY_BYTES).map(read).collect()
}

/// "answer outside 1 to 3, pad not zero, or an asked set empty with 3 or not empty without it"
pub fn broken(entry: &Entry) -> bool {
    let outside = entry.answer < GRANT || entry.answer > ASK;
    let empty = entry.asked == 0;
    outside || entry.pad != [0, 0] || empty == (entry.answer == ASK)
}

/// "10, a log's length is no multiple of 8; 11, answer outside ..", "10 before 11"
pub fn refusal(log: &[u8]) -> Option<u8> {
    if !log.len().is_multiple_of(ENTRY_BYTES) {
        Some(10)
    } else {
        entries(log).iter().any(broken).then_some(11)
    }
}

/// "they agree at a record if answer and asked set are equal"
fn agree(x: &Entry, y: &Entry) -> bool {
    x.answer == y.answer && x.asked == y.asked
}

/// "The result is the first record, from 0, where they part (the shorter log's end counts), or agreement."
pub fn divergence(first: &[Entry], second: &[Entry]) -> Option<usize> {
    let same = first.iter().zip(second).take_while(|(x, y)| agree(x, y));
    let place = same.count();
    (place < first.len().max(second.len())).then_some(place)
}

/// "The first log is tested first, 10 before 11; the number alone is given."
pub fn compare(first: &[u8], second: &[u8]) -> Result<Option<usize>, u8> {
    match refusal(first).or(refusal(second)) {
        Some(number) => Err(number),
        None => Ok(divergence(&entries(first), &entries(second))),
    }
}
