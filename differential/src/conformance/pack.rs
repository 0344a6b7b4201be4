//! The whole pack: cases by hand, drawn ones, and every two faults in each order.

use super::by_hand::by_hand;
use super::case::{Case, Run, Sentence};
use super::edges::edges;
use super::pairs::pairs;
use super::shapes::{subjects, Shape};
use super::stations;
use crate::plain::bench::output;
use crate::plain::station;
use crate::random::Random;

/// The seed of the drawn cases.
pub const SEED: u64 = 20;

/// The cases of one file of the pack.
pub struct Part {
    pub name: &'static str,
    pub cases: Vec<Case>,
}

/// A case whose output is the plain version's.
pub fn bench_case(name: String, tests: Sentence, run: Run) -> Case {
    let prints = output(run.bytes(), &run.input);
    Case {
        name,
        tests,
        run,
        prints,
    }
}

/// The same for the station program.
pub fn station_case(name: String, tests: Sentence, run: Run) -> Case {
    let prints = station::output(run.bytes(), &run.input);
    Case {
        name,
        tests,
        run,
        prints,
    }
}

/// The cases of a shape, no two of them alike.
fn drawn(shape: &Shape, random: &mut Random) -> Vec<Case> {
    let mut runs: Vec<Run> = Vec::new();
    while runs.len() < shape.cases {
        let run = shape.run(random);
        if !runs.contains(&run) {
            runs.push(run);
        }
    }
    let numbered = runs.into_iter().zip(1..);
    numbered
        .map(|(run, n)| bench_case(format!("{}-{n:02}", shape.name), shape.tests, run))
        .collect()
}

/// The cases by hand, named as such.
fn hand() -> Vec<Case> {
    let cases = by_hand().into_iter();
    cases
        .map(|case| Case {
            name: format!("hand-{}", case.name),
            ..case
        })
        .collect()
}

/// The stream of random numbers of a shape, by its name, so that other shapes leave its cases as they are.
fn stream(name: &str) -> u64 {
    let mix = |hash: u64, byte: u8| (hash ^ u64::from(byte)).wrapping_mul(0x100_0000_01b3);
    name.bytes().fold(0xcbf2_9ce4_8422_2325, mix)
}

/// The part of each subject.
pub fn bench_parts() -> Vec<Part> {
    let part = |name, cases| Part { name, cases };
    let mut parts = vec![
        part("by-hand", hand()),
        part("edges", edges()),
        part("pairs", pairs()),
    ];
    for subject in subjects() {
        let mut cases = Vec::new();
        for shape in &subject.shapes {
            cases.extend(drawn(shape, &mut Random::new(SEED, stream(&shape.name))));
        }
        parts.push(part(subject.name, cases));
    }
    parts
}

/// The station program's, by hand and drawn.
pub fn station_parts() -> Vec<Part> {
    let part = |name, cases| Part { name, cases };
    vec![
        part("by-hand", stations::by_hand()),
        part("drawn", stations::drawn::cases()),
    ]
}
