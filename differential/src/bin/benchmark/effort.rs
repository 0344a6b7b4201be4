//! What a worst round comes to: body tests, and stack.

use crate::inputs::{Input, Inputs};
use crate::timing::Times;
use differential::calls::{Operation, Preview};
use differential::gate;
use differential::plain::disclosure::disclosable;
use differential::plain::policy::check;
use differential::plain::weights::weights;
use differential::stack;
use differential::weighted::{tuned, Answer, Search};

/// Tests of a rule's body in passes over all levels, for every part of sixteen credentials.
fn body_tests(policy: &[u8]) -> u64 {
    let levels = check(policy).map_or(Vec::new(), |policy| policy.levels);
    let mut tests = 0;
    for credentials in 0..=u16::MAX {
        let mut set = u64::from(credentials);
        for rules in &levels {
            let below = set;
            let mut last = None;
            while last != Some(set) {
                last = Some(set);
                tests += rules.len() as u64;
                for rule in rules {
                    if rule.negative & below | rule.positive & !set == 0 {
                        set |= 1 << rule.head;
                    }
                }
            }
        }
    }
    tests
}

/// The worst rounds that were timed, each with its input.
fn worst<'a>(inputs: &'a Inputs, times: &'a [Times]) -> Vec<(&'a Input, &'a Times)> {
    let timed = |input: &Input| {
        let name = format!("worst round, {}, request", input.name);
        times.iter().find(|item| item.name.starts_with(&name))
    };
    let all = inputs.full.iter().chain(&inputs.chains);
    all.filter_map(|input| Some((input, timed(input)?)))
        .collect()
}

pub fn print_tests(inputs: &Inputs, times: &[Times]) {
    let worst = worst(inputs, times);
    if worst.is_empty() {
        return;
    }
    println!("\nBody tests in a worst round, one candidate at a time, and each version's time for one (median):\n");
    println!("| | body tests, million | gate, ns | plain, ns | tuned, ns |");
    println!("|---|---:|---:|---:|---:|");
    for (input, item) in worst {
        let tests = body_tests(&input.policy) as f64;
        let [gate, plain, tuned] = item.median.map(|seconds| seconds / tests * 1e9);
        let name = &input.name;
        println!(
            "| {name} | {:.1} | {gate:.3} | {plain:.2} | {tuned:.2} |",
            tests / 1e6
        );
    }
}

/// The place of the candidate asked for in the first round, or of how many there are where none is.
fn trials(input: &Input) -> Option<u32> {
    let policy = check(&input.policy).ok()?;
    let search = Search {
        request: input.request,
        shown: 0,
        within: disclosable(&policy.disclosure, 0),
        weights: weights(&policy.weights),
        limit: u32::MAX,
    };
    match tuned::answer(&input.policy, &search) {
        Answer::Found { trials, .. } | Answer::Nothing { trials } => Some(trials),
        _ => None,
    }
}

/// The deepest stack of each call, in bytes.
fn depths(input: &Input) -> [Option<usize>; 6] {
    let [a, b, c, d, e, f] = std::array::from_fn(|_| input.policy.clone());
    let mut session = [0; 10];
    session[..2].copy_from_slice(&input.request.to_le_bytes());
    let mut table = [0, 1].into_iter().chain(session).collect::<Vec<u8>>();
    let (at_slot, previewed) = (Operation::Round { slot: 0, p: 0 }, table.clone());
    [
        stack::depth(move || gate::check(&a)),
        stack::depth(move || gate::model(&b, 0xffff)),
        stack::depth(move || gate::disclosable(&c, 0)),
        stack::depth(move || gate::round(&d, &mut session, 0)),
        stack::depth(move || gate::operate(at_slot, &e, &mut table)),
        stack::depth(move || gate::preview(Preview { slot: 0, p: 0 }, &f, &previewed)),
    ]
}

/// The deepest stack of a search by weights.
fn search_depth(input: &Input) -> Option<usize> {
    let (policy, search) = (input.policy.clone(), crate::searches::search(input, 65_535));
    stack::depth(move || gate::search(&policy, &search))
}

pub fn print_stack(inputs: &Inputs) {
    let nothing = show(stack::depth(|| ()));
    println!(
        "\nDeepest stack below the caller, in bytes, of the gate; with nothing called {nothing}:\n"
    );
    println!("| | check | model | disclosable set | first round | at a slot | previewed | its trials | sixteen weights |");
    println!("|---|---:|---:|---:|---:|---:|---:|---:|---:|");
    for input in inputs.all() {
        let cells = depths(input).map(show).join(" | ");
        let trials = trials(input).map_or("-".to_string(), |trials| trials.to_string());
        let search = show(search_depth(input));
        println!("| {} | {cells} | {trials} | {search} |", input.name);
    }
}

fn show(depth: Option<usize>) -> String {
    depth.map_or("not measured".to_string(), |bytes| bytes.to_string())
}
