//! The benchmark: the gate, the plain version and the tuned version, on the same inputs in the same run; and clingo.

mod clingo;
mod effort;
mod inputs;
mod items;
mod levelled;
mod program;
mod searches;
mod slots;
mod solver;
mod tables;
mod timing;
mod weights;

use inputs::Inputs;
use std::path::PathBuf;
use std::process::ExitCode;
use timing::Times;

const USAGE: &str =
    "usage: benchmark FOLDER [--runs N] [WORD]: so many runs, only items with this word";

struct Options {
    folder: PathBuf,
    runs: usize,
    word: String,
}

fn options(mut words: impl Iterator<Item = String>) -> Option<Options> {
    let mut options = Options {
        folder: PathBuf::from(words.next()?),
        runs: 1,
        word: String::new(),
    };
    while let Some(word) = words.next() {
        if word == "--runs" {
            options.runs = words.next()?.parse().ok().filter(|runs| *runs > 0)?;
        } else {
            options.word = word;
        }
    }
    Some(options)
}

fn processor() -> String {
    let text = std::fs::read_to_string("/proc/cpuinfo").unwrap_or_default();
    let line = text.lines().find(|line| line.starts_with("model name"));
    line.and_then(|line| line.split(": ").nth(1))
        .unwrap_or("unknown")
        .to_string()
}

/// All items that have the word in their name, once.
fn measured(inputs: &Inputs, word: &str) -> Result<Vec<Times>, String> {
    let mut items = items::items(inputs);
    items.extend(slots::items(&inputs.short[0]));
    items.extend(searches::items(inputs));
    let mut times = Vec::new();
    for item in items.iter().filter(|item| item.name.contains(word)) {
        eprintln!("{}", item.name);
        times.push(timing::measure(item)?);
    }
    Ok(times)
}

fn run() -> Result<(), String> {
    let options = options(std::env::args().skip(1)).ok_or(USAGE)?;
    let inputs = Inputs::read(&options.folder)?;
    println!("processor: {}", processor());
    let mut runs = Vec::new();
    for _ in 0..options.runs {
        runs.push(measured(&inputs, &options.word)?);
    }
    let last = &runs[runs.len() - 1];
    tables::medians(last);
    tables::ranges(&runs);
    weights::print(&inputs, &options.word);
    clingo::print(&inputs, &options.word)?;
    effort::print_tests(&inputs, last);
    effort::print_stack(&inputs);
    Ok(())
}

fn main() -> ExitCode {
    match run() {
        Ok(()) => ExitCode::SUCCESS,
        Err(error) => {
            eprintln!("benchmark: {error}");
            ExitCode::FAILURE
        }
    }
}
