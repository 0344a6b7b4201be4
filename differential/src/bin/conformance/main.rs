//! The conformance pack's program: makes the pack, says which wrong boards it tells apart, is one of these, and tries a board at
//! random.

mod be;
mod board;
mod make;
mod stored;
mod table;

use std::path::PathBuf;
use std::process::ExitCode;

const USAGE: &str = "conformance make ROOT [--check]     write the pack's cases, or say whether they are what is made
conformance slips ROOT [--check]    the same of the table of wrong boards
conformance be NAME                 be a wrong board; without NAME, list them
conformance board FOLDER [--seed S] [--runs N] [--station] -- COMMAND [ARGUMENT ...]
                                    try a board at random, and write differences to the folder";

/// The folder and whether files are only to be checked.
fn place(words: &[String]) -> Option<(PathBuf, bool)> {
    match words {
        [root] => Some((root.into(), false)),
        [root, check] if check == "--check" => Some((root.into(), true)),
        _ => None,
    }
}

fn run(words: &[String]) -> Result<bool, String> {
    let usage = || USAGE.to_string();
    let (command, rest) = words.split_first().ok_or_else(usage)?;
    match command.as_str() {
        "make" => {
            let (root, check) = place(rest).ok_or_else(usage)?;
            make::make(&root, check)
        }
        "slips" => {
            let (root, check) = place(rest).ok_or_else(usage)?;
            table::table(&root, check)
        }
        "be" => be::be(rest.first().map(String::as_str)),
        "board" => board::board(rest),
        _ => Err(usage()),
    }
}

fn main() -> ExitCode {
    let words: Vec<String> = std::env::args().skip(1).collect();
    match run(&words) {
        Ok(true) => ExitCode::SUCCESS,
        Ok(false) => ExitCode::FAILURE,
        Err(error) => {
            eprintln!("{error}");
            ExitCode::from(2)
        }
    }
}
