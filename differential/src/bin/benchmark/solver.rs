//! Runs of clingo, which reads rules as they are written, and of clasp, its solver, which reads a ground program.

use crate::program::{read, Said};
use crate::timing::median;
use std::io::Write;
use std::process::{Command, Stdio};
use std::time::Instant;

/// Runs of each program.
const RUNS: usize = 41;

/// The two with their options; a run that lasts too long is cut off, and its answer is then no answer.
pub const CLINGO: [&str; 4] = ["clingo", "--outf=2", "--warn=none", "--time-limit=20"];
pub const CLASP: [&str; 3] = ["clasp", "--outf=2", "--time-limit=20"];

/// The first line of a program's version, if it is there.
pub fn version(program: &str) -> Option<String> {
    let output = Command::new(program).arg("--version").output().ok()?;
    let text = String::from_utf8(output.stdout).ok()?;
    text.lines().next().map(str::to_string)
}

/// One run: the seconds that the process takes, and what it prints.
fn run(command: &[&str], input: &str) -> std::io::Result<(f64, String)> {
    let start = Instant::now();
    let mut child = Command::new(command[0])
        .args(&command[1..])
        .stdin(Stdio::piped())
        .stdout(Stdio::piped())
        .stderr(Stdio::null())
        .spawn()?;
    if let Some(mut stdin) = child.stdin.take() {
        stdin.write_all(input.as_bytes())?;
    }
    let output = child.wait_with_output()?;
    let seconds = start.elapsed().as_secs_f64();
    Ok((
        seconds,
        String::from_utf8_lossy(&output.stdout).into_owned(),
    ))
}

/// The program as clasp reads it.
pub fn ground(program: &str) -> Result<String, String> {
    let command = ["clingo", "--mode=gringo", "--warn=none"];
    let (_, text) = run(&command, program).map_err(|e| format!("clingo: {e}"))?;
    Ok(text)
}

/// Medians of all runs in seconds: of the process, of what it takes beyond one with an empty program right before, of its own
/// time, of its own time for solving; and the answers.
pub struct Runs {
    pub process: f64,
    pub beyond: f64,
    pub total: f64,
    pub solving: f64,
    pub sets: Vec<Option<u64>>,
}

/// All runs of a program, each after one of an empty program; each answer must be understood.
pub fn runs(command: &[&str], program: &str, empty: &str) -> Result<Runs, String> {
    let failed = |error| format!("{command:?}: {error}");
    let (mut process, mut beyond) = (Vec::new(), Vec::new());
    let mut said: Vec<Said> = Vec::new();
    for _ in 0..RUNS {
        let (nothing, _) = run(command, empty).map_err(failed)?;
        let (seconds, text) = run(command, program).map_err(failed)?;
        process.push(seconds);
        beyond.push(seconds - nothing);
        said.push(read(&text).ok_or(format!("{command:?} says {text}"))?);
    }
    Ok(Runs {
        process: median(process.into_iter()),
        beyond: median(beyond.into_iter()),
        total: median(said.iter().map(|said| said.total)),
        solving: median(said.iter().map(|said| said.solving)),
        sets: said.iter().map(|said| said.set).collect(),
    })
}
