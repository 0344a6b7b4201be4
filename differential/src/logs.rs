//! Logs that are made up: records of any reply and session, pairs of random logs, and logs that are damaged.

use crate::plain::log::{read, write, Entry, ASK, DENY, ENTRY_BYTES, GRANT};
use crate::random::Random;
use crate::sessions;
use crate::tester::Tester;

/// A record that a round could give.
fn entry(random: &mut Random) -> Entry {
    let answer = random.pick(&[GRANT, DENY, ASK, ASK, ASK]);
    let asked = match random.below(3) {
        _ if answer != ASK => 0,
        0 => 1 << random.below(16),
        _ => random.word().max(1),
    };
    Entry {
        shown: random.word(),
        answer,
        asked,
        count: random.byte(),
        pad: [0, 0],
    }
}

/// A log that is not refused.
fn log(random: &mut Random) -> Vec<u8> {
    let records = match random.below(60) {
        0 => random.range(100, 400),
        1..=9 => 0,
        _ => random.range(1, 9),
    };
    (0..records).flat_map(|_| write(&entry(random))).collect()
}

/// A record with one fault.
fn faulty(random: &mut Random) -> Entry {
    let mut right = entry(random);
    let byte = random.pick(&[1, 2, 128, 255]);
    match random.below(6) {
        0 => right.answer = random.pick(&[0, 4, 5, 128, 255]),
        1 => {
            right.answer = random.pick(&[0, 4, 255]);
            right.asked = 0;
        }
        2 => right.pad = [byte, 0],
        3 => right.pad = [0, byte],
        4 => (right.answer, right.asked) = (ASK, 0),
        _ => {
            right.answer = random.pick(&[GRANT, DENY]);
            right.asked = 1 << random.below(16);
        }
    }
    right
}

/// The same record with another answer or question, or with what nobody compares changed.
fn varied(random: &mut Random, mut entry: Entry) -> Entry {
    match (random.below(4), entry.answer) {
        (0, _) => entry.shown ^= 1 << random.below(16),
        (1, _) => entry.count ^= 1 << random.below(8),
        (_, GRANT) => entry.answer = DENY,
        (_, DENY) => entry.answer = GRANT,
        (2, _) => entry.asked ^= 0x0100 << random.below(8),
        _ => entry.asked ^= 1 << random.below(8),
    }
    entry
}

/// One record changed.
fn change_record(random: &mut Random, log: &mut [u8]) {
    let records = log.len() / ENTRY_BYTES;
    if records == 0 {
        return;
    }
    let at = match random.below(3) {
        0 => records - 1,
        _ => random.below(records),
    };
    let bytes = &mut log[ENTRY_BYTES * at..ENTRY_BYTES * (at + 1)];
    let before = read(bytes);
    let after = match random.below(8) {
        0 => entry(random),
        1 | 2 => faulty(random),
        _ => varied(random, before),
    };
    bytes.copy_from_slice(&write(&after));
}

/// All that nobody compares changed.
fn change_unseen(random: &mut Random, log: &mut [u8]) {
    for bytes in log.chunks_exact_mut(ENTRY_BYTES) {
        bytes[..2].copy_from_slice(&random.word().to_le_bytes());
        bytes[5] = random.byte();
    }
}

/// Two records of a log change places.
fn swap_records(random: &mut Random, log: &mut [u8]) {
    let records = log.len() / ENTRY_BYTES;
    if records > 0 {
        let (one, other) = (random.below(records), random.below(records));
        for k in 0..ENTRY_BYTES {
            log.swap(ENTRY_BYTES * one + k, ENTRY_BYTES * other + k);
        }
    }
}

/// A log shorter or longer, by records or bytes.
fn change_length(random: &mut Random, log: &mut Vec<u8>) {
    let records = log.len() / ENTRY_BYTES;
    match random.below(5) {
        0 => log.truncate(ENTRY_BYTES * records.saturating_sub(1)),
        1 => log.truncate(ENTRY_BYTES * random.below(records + 1)),
        2 => log.truncate(random.below(log.len() + 1)),
        3 => log.extend(write(&entry(random))),
        _ => log.extend((0..random.range(1, 9)).map(|_| random.byte())),
    }
}

/// The log cut, longer, with a byte or a record changed, or with two records swapped.
pub fn damaged(random: &mut Random, log: &[u8]) -> Vec<u8> {
    let mut log = log.to_vec();
    for _ in 0..random.pick(&[1, 1, 1, 2]) {
        match random.below(8) {
            0 | 1 => change_length(random, &mut log),
            2 => swap_records(random, &mut log),
            3 => change_unseen(random, &mut log),
            4 if !log.is_empty() => {
                let at = random.below(log.len());
                log[at] ^= 1 << random.below(8);
            }
            _ => change_record(random, &mut log),
        }
    }
    log
}

/// Two logs: one and itself, two that have nothing to do with each other, and one or both damaged.
fn pair(random: &mut Random) -> (Vec<u8>, Vec<u8>) {
    let log = log(random);
    match random.below(8) {
        0 => (log.clone(), log),
        1 => (log, self::log(random)),
        2 | 3 => (damaged(random, &log), damaged(random, &log)),
        4 | 5 => (damaged(random, &log), log),
        _ => {
            let other = damaged(random, &log);
            (log, other)
        }
    }
}

/// A reply that a round may give, or one near it.
fn reply(random: &mut Random) -> u32 {
    let ending = random.pick(&[0x100, 0x200, 0x300]);
    match random.below(8) {
        0..=3 => ending,
        4 => random.range(1, 9) as u32 | random.pick(&[0, ending, 0x8000]),
        5 => random.pick(&[0, 0x400, 1, 2, 3, 0x10, 0xff00]),
        6 => ending | 1 << random.below(32),
        _ => random.number() as u32,
    }
}

/// Records of any reply and any session, and comparisons.
pub fn logs(tester: &mut Tester) {
    for _ in 0..4 {
        let (p, reply) = (tester.random.word(), reply(&mut tester.random));
        let mut session = sessions::any(&mut tester.random);
        if tester.random.one_in(3) {
            session[8..].fill(0);
        }
        tester.log_record(p, reply, session);
    }
    for _ in 0..8 {
        let (first, second) = pair(&mut tester.random);
        tester.compare_logs(&first, &second);
    }
}

/// A log against itself, another one and a damaged one, either way round.
pub fn compare_with(tester: &mut Tester, log: &[u8], other: &[u8]) {
    let damaged = damaged(&mut tester.random, log);
    tester.compare_logs(log, log);
    for second in [other, &damaged] {
        tester.compare_logs(log, second);
        tester.compare_logs(second, log);
    }
}

/// Every answer and pad byte with questions for nothing and something, every length of a short log, in either place.
pub fn every_log(tester: &mut Tester) {
    let right = write(&entry(&mut tester.random)).repeat(5);
    let mut logs: Vec<Vec<u8>> = (0..=40).map(|length| right[..length].to_vec()).collect();
    for byte in 0..=255 {
        for asked in [0, 1, 0x0100] {
            for k in [2, 6, 7] {
                let answer = if asked == 0 { GRANT } else { ASK };
                let mut bytes = write(&Entry {
                    shown: 0,
                    answer,
                    asked,
                    count: byte,
                    pad: [0, 0],
                });
                bytes[k] = byte;
                logs.push(bytes.to_vec());
            }
        }
    }
    for log in logs {
        tester.compare_logs(&log, &right);
        tester.compare_logs(&right, &log);
        tester.compare_logs(&log, &log);
    }
}
