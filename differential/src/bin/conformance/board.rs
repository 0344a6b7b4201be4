//! A board tried at random, by the pack's shapes; a difference becomes a case of its own.

use differential::conformance::case::{Case, File, Run, Sentence};
use differential::conformance::folder::write;
use differential::conformance::pack::{bench_case, station_case};
use differential::conformance::program::Program;
use differential::conformance::shapes::{any, subjects};
use differential::conformance::shrink::smaller;
use differential::conformance::stations::drawn::any as any_station;
use differential::random::Random;
use std::path::{Path, PathBuf};

/// After so many differences it stops.
const MOST: usize = 20;

struct Options {
    folder: PathBuf,
    seed: u64,
    runs: u64,
    station: bool,
    program: Program,
}

fn number(name: &str, word: Option<&String>) -> Result<u64, String> {
    let digits: Option<String> = word.map(|w| w.replace(['_', ','], ""));
    let number = digits.and_then(|digits| digits.parse().ok());
    number.ok_or(format!("{name} needs a number"))
}

fn options(words: &[String]) -> Result<Options, String> {
    let (folder, mut words) = words.split_first().ok_or("no folder")?;
    let (mut seed, mut runs, mut station) = (1, 1000, false);
    loop {
        let (word, rest) = words.split_first().ok_or("no command")?;
        match word.as_str() {
            "--seed" => seed = number(word, rest.first())?,
            "--runs" => runs = number(word, rest.first())?,
            "--station" => station = true,
            "--" => {
                let program = Program(rest.to_vec());
                if !program.is_there() {
                    return Err(format!("{:?} cannot be run", rest.join(" ")));
                }
                let program = program.from_anywhere().map_err(|error| error.to_string())?;
                let folder = folder.into();
                return Ok(Options {
                    folder,
                    seed,
                    runs,
                    station,
                    program,
                });
            }
            _ => return Err(format!("no option {word}")),
        }
        words = match word.as_str() {
            "--station" => rest,
            _ => &rest[1..],
        };
    }
}

/// A board in a folder to run it in.
struct Trial<'a> {
    options: &'a Options,
    place: &'a Path,
}

impl Trial<'_> {
    /// The case with what has to be printed.
    fn case(&self, name: String, tests: Sentence, run: Run) -> Case {
        match self.options.station {
            true => station_case(name, tests, run),
            false => bench_case(name, tests, run),
        }
    }

    fn prints(&self, case: &Case) -> Result<Vec<u8>, String> {
        let printed = self.options.program.prints(self.place, &case.run);
        printed.map_err(|error| format!("{}: {error}", self.options.program.0.join(" ")))
    }

    /// The difference made smaller, and written down.
    fn found(&self, case: &Case) -> Result<(), String> {
        let free = |n: &usize| !self.options.folder.join(found_name(*n)).exists();
        let name = found_name((1..).find(free).unwrap_or(0));
        let differs = |run: &Run| {
            let other = self.case(name.clone(), case.tests, run.clone());
            self.prints(&other)
                .is_ok_and(|printed| printed != other.prints.as_bytes())
        };
        let run = smaller(&case.run, self.options.station, differs);
        let small = self.case(name.clone(), case.tests, run);
        let printed = self.prints(&small)?;
        let folder = self.options.folder.join(&small.name);
        write(&folder, &small, &printed).map_err(|error| error.to_string())?;
        println!(
            "DIFFERENT {}: {} records",
            folder.display(),
            records(&small.run)
        );
        println!(
            "  drawn for document {} \"{}\"",
            small.tests.document, small.tests.words
        );
        println!("  should print {:?}", small.prints);
        println!("  prints       {:?}", String::from_utf8_lossy(&printed));
        Ok(())
    }
}

/// The folder of the n-th difference.
fn found_name(n: usize) -> String {
    format!("found-{n:03}")
}

fn records(run: &Run) -> usize {
    match &run.file {
        File::Bytes(bytes) => bytes.len() / 18,
        File::Missing => 0,
    }
}

/// Runs one after the other, by the shapes of the set, each with the sentence that it tests.
fn drawing(station: bool) -> Box<dyn Fn(&mut Random) -> (Sentence, Run)> {
    if station {
        return Box::new(any_station);
    }
    let subjects = subjects();
    Box::new(move |random| {
        let shape = any(&subjects, random);
        (shape.tests, shape.run(random))
    })
}

/// Whether no run differed.
pub fn board(words: &[String]) -> Result<bool, String> {
    let options = options(words)?;
    let place = options.folder.join(format!("run-{}", std::process::id()));
    std::fs::create_dir_all(&place).map_err(|error| error.to_string())?;
    let trial = Trial {
        options: &options,
        place: &place,
    };
    let draw = drawing(options.station);
    let mut random = Random::new(options.seed, 2_000_000);
    let (mut runs, mut found) = (0, 0);
    while runs < options.runs && found < MOST {
        let (tests, run) = draw(&mut random);
        let case = trial.case("run".to_string(), tests, run);
        runs += 1;
        if trial.prints(&case)? != case.prints.as_bytes() {
            found += 1;
            trial.found(&case)?;
        }
    }
    let _ = std::fs::remove_dir_all(&place);
    println!("{runs} runs, {found} differences");
    Ok(found == 0)
}
