//! A wrong board as a program: it reads policy.bin and standard input and prints, as the program would that it stands for.

use differential::conformance::case::{File, Run};
use differential::conformance::wrong::{right_boards, wrong_boards, Board};
use std::io::{Read, Write};

/// What stands in the folder and on standard input.
fn given() -> Result<Run, String> {
    let mut input = Vec::new();
    let read = std::io::stdin().read_to_end(&mut input);
    read.map_err(|error| format!("standard input: {error}"))?;
    let file = match std::fs::read("policy.bin") {
        Ok(bytes) => File::Bytes(bytes),
        Err(_) => File::Missing,
    };
    Ok(Run { file, input })
}

fn list(boards: &[Board]) {
    for board in boards {
        println!("{}\t{:?}\t{}", board.name(), board.set, board.text);
    }
}

pub fn be(name: Option<&str>) -> Result<bool, String> {
    let mut boards = wrong_boards();
    let Some(name) = name else {
        list(&boards);
        return Ok(true);
    };
    boards.extend(right_boards());
    let named = boards.iter().find(|board| board.name() == name);
    let board = named.ok_or(format!("no wrong board {name}"))?;
    let printed = board.prints(&given()?);
    let written = std::io::stdout().write_all(&printed);
    written.map_err(|error| format!("standard output: {error}"))?;
    Ok(true)
}
