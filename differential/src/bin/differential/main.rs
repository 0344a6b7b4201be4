//! The differential tests: the gate against documents 01 and 02 in plain Rust.

mod slips;

use differential::bench_runs::bench_runs;
use differential::calls::Version;
use differential::counts::Counts;
use differential::definition::Definition;
use differential::exhaustive::exhaustive;
use differential::gate::Gate;
use differential::marked::marked;
use differential::options::{parse, Options, USAGE};
use differential::plain::interface::Plain;
use differential::random::Random;
use differential::replay::replay;
use differential::report::Shared;
use differential::scenarios::scenario;
use differential::slips::{Slipped, SLIPS};
use differential::tester::Tester;
use differential::tuned::Tuned;
use differential::weighted_runs::weighted_runs;
use std::io::IsTerminal;
use std::process::ExitCode;
use std::sync::atomic::{AtomicBool, Ordering};
use std::thread;
use std::time::{Duration, Instant};

/// A run of fewer cases need not have brought everything up, and leaves out the cases that are not random.
const ENOUGH_FOR_COVERAGE: u64 = 500_000;

/// The gate, or the wrong version that was asked for.
fn tested(options: &Options) -> Box<dyn Version> {
    let slip = options.slip.checked_sub(1).map(|place| place as usize);
    match slip.and_then(|place| SLIPS.get(place)) {
        Some((slip, _)) => Box::new(Slipped(*slip)),
        None => Box::new(Gate::default()),
    }
}

/// One thread's share of the cases.
fn test(shared: &Shared, options: &Options, thread: u64) -> Counts {
    let share = share(options, options.cases, thread);
    let random = Random::new(options.seed, thread);
    let mut tester = Tester::new(tested(options), random, shared, true);
    if thread == 0 && options.cases >= ENOUGH_FOR_COVERAGE {
        exhaustive(&mut tester);
    }
    while tester.counts.cases() < share && !shared.stopped() {
        scenario(&mut tester);
    }
    tester.counts
}

/// What one thread has to do of so many.
fn share(options: &Options, all: u64, thread: u64) -> u64 {
    all * (thread + 1) / options.threads - all * thread / options.threads
}

/// One thread's share of everything.
fn test_all(shared: &Shared, options: &Options, thread: u64) -> Result<Counts, String> {
    let mut counts = test(shared, options, thread);
    let runs = share(options, options.bench_runs, thread);
    counts.bench = bench_runs(shared, options.seed, thread, runs)?;
    let searches = share(options, options.searches, thread);
    counts.weighted = weighted_runs(shared, options.seed, thread, searches);
    counts.disagreements += counts.bench.disagreed + counts.weighted.disagreed;
    Ok(counts)
}

/// Says how far the run is: in place on a terminal, else every ten seconds.
fn progress(shared: &Shared, done: &AtomicBool) {
    let terminal = std::io::stderr().is_terminal();
    let start = Instant::now();
    let mut ticks = 0;
    while !done.load(Ordering::Relaxed) {
        thread::sleep(Duration::from_millis(100));
        ticks += 1;
        if ticks % if terminal { 10 } else { 100 } != 0 {
            continue;
        }
        let seconds = start.elapsed().as_secs_f64();
        let cases = shared.cases.load(Ordering::Relaxed);
        let wrong = shared.disagreements.load(Ordering::Relaxed);
        let line = format!(
            "{cases} cases, {:.0} a second, {seconds:.0} s, {wrong} disagreements",
            cases as f64 / seconds
        );
        if terminal {
            eprint!("\r{line}   ");
        } else {
            eprintln!("{line}");
        }
    }
    if terminal {
        eprintln!();
    }
}

/// The tests of the gate: the joint counts of all threads.
fn run_threads(shared: &Shared, options: &Options) -> Result<Counts, String> {
    let done = AtomicBool::new(false);
    thread::scope(|scope| {
        let threads: Vec<_> = (0..options.threads)
            .map(|number| scope.spawn(move || test_all(shared, options, number)))
            .collect();
        scope.spawn(|| progress(shared, &done));
        let mut total = Counts::default();
        let mut failed = None;
        for handle in threads {
            match handle.join() {
                Ok(Ok(counts)) => total.add(&counts),
                Ok(Err(error)) => failed = Some(error),
                Err(_) => failed = Some("a thread stopped".to_string()),
            }
        }
        done.store(true, Ordering::Relaxed);
        failed.map_or(Ok(total), Err)
    })
}

/// Document 01's own examples and those of document 02, of the version under test and of the others.
fn test_marked(options: &Options) -> Result<(), String> {
    let mut tested = tested(options);
    let mut versions: [(&str, &mut dyn Version); 4] = [
        ("tested", &mut *tested),
        ("plain", &mut Plain),
        ("tuned", &mut Tuned),
        ("definition", &mut Definition),
    ];
    for (name, version) in &mut versions {
        for (case, right) in marked(*version) {
            if !right {
                return Err(format!("example {case}: the {name} version fails"));
            }
        }
    }
    Ok(())
}

/// Says what should have come up and did not; a short run need not have brought up everything.
fn covered(total: &Counts) -> bool {
    let missing = total.missing();
    if total.cases() < ENOUGH_FOR_COVERAGE {
        println!("\na short run: {} things did not come up", missing.len());
        return true;
    }
    for what in &missing {
        println!("did not come up: {what}");
    }
    missing.is_empty()
}

fn test_gate(options: &Options) -> Result<bool, String> {
    let start = Instant::now();
    if options.slip == 0 {
        test_marked(options)?;
    }
    let shared = Shared::new(&options.root, false);
    let total = run_threads(&shared, options)?;
    let seconds = start.elapsed().as_secs_f64();
    println!("seed {}, threads {}", options.seed, options.threads);
    total.print();
    let covered = covered(&total);
    let rate = total.cases() as f64 / seconds;
    println!("\n{seconds:.1} s, {rate:.0} cases a second");
    println!(
        "{} cases, {} disagreements",
        total.cases(),
        total.disagreements
    );
    Ok(total.disagreements == 0 && covered)
}

fn run() -> Result<bool, String> {
    let options = parse(std::env::args().skip(1)).map_err(|e| format!("{e}\n{USAGE}"))?;
    if options.help {
        println!("{USAGE}");
        return Ok(true);
    }
    match &options.replay {
        Some(folder) => replay(folder),
        None if options.slips => slips::test_slips(&options),
        None => test_gate(&options),
    }
}

fn main() -> ExitCode {
    match run() {
        Ok(true) => ExitCode::SUCCESS,
        Ok(false) => ExitCode::FAILURE,
        Err(error) => {
            eprintln!("differential: {error}");
            ExitCode::from(2)
        }
    }
}
