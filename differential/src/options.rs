//! The command line.

use std::path::PathBuf;

pub const USAGE: &str = "options of differential/run:
  --cases N        cases in all (default 4000000)
  --seed S         seed of the random numbers (default 1)
  --threads T      threads (default 2)
  --bench-runs N   runs of the bench program (default 1000; 0: none)
  --searches N     searches by weights (default 50000)
  --slips          test wrong versions instead of the gate; each must be found out
  --slip N         test the N-th wrong version as if it were the gate, its disagreements written down
  --slip-cases N   cases in which a slip must be found out (default 300000)
  --replay DIR     replay a disagreement that was written down
  --no-build       library and bench program as they stand
  --board COMMAND  last: try this program, with --bench-runs and --seed, in place of ours; --station: it takes station input
  --help           this text";

pub struct Options {
    pub cases: u64,
    pub seed: u64,
    pub threads: u64,
    pub bench_runs: u64,
    pub searches: u64,
    pub slips: bool,
    pub slip: u64,
    pub slip_cases: u64,
    pub replay: Option<PathBuf>,
    pub help: bool,
    /// The repository's root.
    pub root: PathBuf,
}

impl Default for Options {
    fn default() -> Options {
        Options {
            cases: 4_000_000,
            seed: 1,
            threads: 2,
            bench_runs: 1000,
            searches: 50_000,
            slips: false,
            slip: 0,
            slip_cases: 300_000,
            replay: None,
            help: false,
            root: PathBuf::from("."),
        }
    }
}

/// A number, with underscores or commas allowed in it.
fn number(name: &str, text: Option<String>) -> Result<u64, String> {
    let text = text.ok_or(format!("{name} needs a number"))?;
    let digits: String = text.chars().filter(|c| !"_,".contains(*c)).collect();
    digits
        .parse()
        .map_err(|_| format!("{name} {text}: no number"))
}

/// The options, or what is wrong with them.
pub fn parse(mut words: impl Iterator<Item = String>) -> Result<Options, String> {
    let mut options = Options::default();
    while let Some(word) = words.next() {
        match word.as_str() {
            "--cases" => options.cases = number(&word, words.next())?,
            "--seed" => options.seed = number(&word, words.next())?,
            "--threads" => options.threads = number(&word, words.next())?.max(1),
            "--bench-runs" => options.bench_runs = number(&word, words.next())?,
            "--searches" => options.searches = number(&word, words.next())?,
            "--slips" => options.slips = true,
            "--slip" => options.slip = number(&word, words.next())?,
            "--slip-cases" => options.slip_cases = number(&word, words.next())?,
            "--replay" => {
                options.replay = Some(words.next().ok_or("--replay needs a folder")?.into())
            }
            "--root" => options.root = words.next().ok_or("--root needs a folder")?.into(),
            "--help" => options.help = true,
            _ => return Err(format!("unknown option {word}")),
        }
    }
    Ok(options)
}
