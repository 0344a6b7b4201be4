//! Runs of the bench program itself, its whole output compared with the plain version's text.

use crate::bench_counts::BenchCounts;
use crate::calls::{Call, Memory};
use crate::conformance::case::Run;
use crate::conformance::program::Program;
use crate::conformance::shapes::{any, subjects};
use crate::plain::bench::output;
use crate::random::Random;
use crate::report::{Finding, Shared, Trail};
use std::fs;
use std::path::{Path, PathBuf};

/// Writes a run down whose output is not what it should be.
fn report(shared: &Shared, run: &Run, text: &str, wanted: &str) {
    let words = run.words();
    let trail = words.split_first().map(|(request, shown)| Trail {
        request: *request,
        shown: shown.to_vec(),
    });
    shared.report(&Finding {
        title: "bench program against plain version's text".to_string(),
        policy: run.bytes().unwrap_or(&[]).to_vec(),
        call: Call::Check,
        before: Memory([0; 32]),
        trail,
        answers: vec![format!("program: {text:?}"), format!("plain: {wanted:?}")],
    });
}

/// One run, counted by what should be printed.
fn compare(
    shared: &Shared,
    folder: &Path,
    run: &Run,
    counts: &mut BenchCounts,
) -> std::io::Result<()> {
    let printed = Program::at(&shared.bench).prints(folder, run)?;
    let wanted = output(run.bytes(), &run.input);
    counts.run(&wanted);
    if printed != wanted.as_bytes() {
        counts.disagreed += 1;
        report(shared, run, &String::from_utf8_lossy(&printed), &wanted);
    }
    Ok(())
}

/// So many runs in a folder of their own, of the conformance pack's shapes.
pub fn bench_runs(
    shared: &Shared,
    seed: u64,
    thread: u64,
    count: u64,
) -> Result<BenchCounts, String> {
    let folder: PathBuf = shared.folder.join(format!("bench-{thread}"));
    let mut random = Random::new(seed, 1_000_000 + thread);
    let mut counts = BenchCounts::default();
    let failed = |error: std::io::Error| format!("bench program: {error}");
    fs::create_dir_all(&folder).map_err(failed)?;
    let subjects = subjects();
    for _ in 0..count {
        if shared.stopped() {
            return Ok(counts);
        }
        let run = any(&subjects, &mut random).run(&mut random);
        compare(shared, &folder, &run, &mut counts).map_err(failed)?;
    }
    fs::remove_dir_all(&folder).map_err(failed)?;
    Ok(counts)
}
