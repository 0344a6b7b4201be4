//! A run made smaller while it still shows what it showed.

use super::case::{File, Run};

/// Bytes of a policy's record, of a round and of an operation at a slot.
const RECORD: usize = 18;
const ROUND: usize = 2;
const OPERATION: usize = 5;

/// The bytes without the k-th part, if there is one.
fn without(bytes: &[u8], width: usize, k: usize) -> Option<Vec<u8>> {
    let part = width * k..width * (k + 1);
    (part.end <= bytes.len()).then(|| [&bytes[..part.start], &bytes[part.end..]].concat())
}

/// The run without the policy's k-th record.
fn less_policy(run: &Run, k: usize) -> Option<Run> {
    let file = File::Bytes(without(run.bytes()?, RECORD, k)?);
    let input = run.input.clone();
    Some(Run { file, input })
}

/// The run without the k-th part of its input.
fn less_input(run: &Run, width: usize, k: usize) -> Option<Run> {
    let input = without(&run.input, width, k)?;
    let file = run.file.clone();
    Some(Run { file, input })
}

/// Parts left out, the last first, each that can be.
fn shorter(
    run: Run,
    parts: usize,
    less: impl Fn(&Run, usize) -> Option<Run>,
    shows: &dyn Fn(&Run) -> bool,
) -> Run {
    (0..parts).rev().fold(run, |run, k| match less(&run, k) {
        Some(other) if shows(&other) => other,
        _ => run,
    })
}

/// The run without rounds or operations, and then without records, that it does not need.
pub fn smaller(run: &Run, station: bool, shows: impl Fn(&Run) -> bool) -> Run {
    let width = if station { OPERATION } else { ROUND };
    let inputs = run.input.len() / width;
    let records = run.bytes().map_or(0, |bytes| bytes.len() / RECORD);
    let less = |run: &Run, k: usize| less_input(run, width, k);
    let run = shorter(run.clone(), inputs, less, &shows);
    shorter(run, records, less_policy, &shows)
}
