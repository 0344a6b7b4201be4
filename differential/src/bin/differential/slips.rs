//! The tests against wrong versions: each must be found out.

use differential::options::Options;
use differential::random::Random;
use differential::report::Shared;
use differential::scenarios::scenario;
use differential::slips::{Slip, Slipped, CONTROLS, SLIPS};
use differential::tester::Tester;
use differential::weighted::slips::{Slip as SearchSlip, SLIPS as SEARCH_SLIPS};
use differential::weighted_runs::found_out;
use std::sync::atomic::{AtomicUsize, Ordering};
use std::sync::Mutex;
use std::thread;

/// Demand 3, soundness, and what lists say of their logs and tables, are tried alone in one case of so many.
const ALONE: u64 = 6;

/// The cases in which a slip is found out: by comparing answers, and by demand 3, soundness and lists alone.
#[derive(Clone, Copy, Default)]
struct Found {
    compared: Option<u64>,
    alone: Option<u64>,
}

fn tester_of<'a>(options: &Options, slip: Slip, shared: &'a Shared) -> Tester<'a> {
    let random = Random::new(options.seed, 0);
    Tester::new(Box::new(Slipped(slip)), random, shared, false)
}

/// The case with the first disagreement, if there is one in so many cases.
fn first(cases: u64, tester: &mut Tester) -> Option<u64> {
    while tester.counts.cases() < cases && !tester.shared.stopped() {
        scenario(tester);
    }
    let case = tester.counts.first_disagreement;
    (case > 0).then_some(case)
}

fn find_out(options: &Options, slip: Slip) -> Found {
    let (one, other) = (
        Shared::new(&options.root, true),
        Shared::new(&options.root, true),
    );
    let mut compared = tester_of(options, slip, &one);
    let mut alone = tester_of(options, slip, &other).compared_with(Box::new(Slipped(slip)));
    Found {
        compared: first(options.slip_cases, &mut compared),
        alone: first(options.slip_cases / ALONE, &mut alone),
    }
}

/// Every slip must be found out by comparing; the same code without a slip must not be found out at all.
pub fn test_slips(options: &Options) -> Result<bool, String> {
    let next = AtomicUsize::new(0);
    let all: Vec<(Slip, &str)> = CONTROLS.into_iter().chain(SLIPS).collect();
    let results = Mutex::new(vec![Found::default(); all.len()]);
    thread::scope(|scope| {
        for _ in 0..options.threads {
            scope.spawn(|| loop {
                let this = next.fetch_add(1, Ordering::Relaxed);
                let Some((slip, _)) = all.get(this) else {
                    return;
                };
                let found = find_out(options, *slip);
                if let Ok(mut results) = results.lock() {
                    results[this] = found;
                }
            });
        }
    });
    let results = results.into_inner().map_err(|_| "a thread stopped")?;
    let (controls, slips) = results.split_at(CONTROLS.len());
    let all_found = print_slips(options, controls, slips);
    Ok(test_searches(options) && all_found)
}

/// The same of searches by weights.
fn test_searches(options: &Options) -> bool {
    let most = options.searches;
    println!("\nthe search by weights, of {most} at most, in which each slip is found out\n");
    let find = |slip| found_out(options.seed, slip, most);
    let mut all = true;
    for (place, (slip, text)) in SEARCH_SLIPS.iter().enumerate() {
        let found = find(*slip);
        println!("{:>8}  slip {}: {text}", show(found), place + 1);
        all &= found.is_some();
    }
    let control = find(SearchSlip::None);
    println!("{:>8}  no slip", show(control));
    all && control.is_none()
}

fn show(case: Option<u64>) -> String {
    case.map_or("-".to_string(), |case| case.to_string())
}

fn print_slips(options: &Options, controls: &[Found], results: &[Found]) -> bool {
    println!(
        "seed {}: the case in which each slip is found out,",
        options.seed
    );
    println!(
        "by comparing answers ({} cases at most), and by demand 3, soundness and lists alone ({})\n",
        options.slip_cases,
        options.slip_cases / ALONE
    );
    for (place, ((_, text), found)) in SLIPS.iter().zip(results).enumerate() {
        let (compared, alone) = (show(found.compared), show(found.alone));
        println!("{compared:>8} {alone:>8}  slip {}: {text}", place + 1);
    }
    for ((_, text), found) in CONTROLS.iter().zip(controls) {
        let (compared, alone) = (show(found.compared), show(found.alone));
        println!("{compared:>8} {alone:>8}  {text}");
    }
    let found = results
        .iter()
        .filter(|found| found.compared.is_some())
        .count();
    let alone = results.iter().filter(|found| found.alone.is_some()).count();
    println!(
        "\n{} slips, {found} found out, {alone} of them by demand 3, soundness and lists alone",
        SLIPS.len()
    );
    let clean = |found: &Found| found.compared.is_none() && found.alone.is_none();
    found == SLIPS.len() && controls.iter().all(clean)
}
