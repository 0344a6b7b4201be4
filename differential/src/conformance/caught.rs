//! Which cases catch which wrong boards.

use super::case::Case;
use super::text::log;
use super::wrong::{Board, Set};
use std::sync::atomic::{AtomicUsize, Ordering};
use std::sync::Mutex;
use std::thread;

/// So many cases are counted at most.
pub const MOST: usize = 20;

/// So many must catch a wrong board.
pub const LEAST: usize = 3;

const THREADS: usize = 2;

/// What a case of this set expects.
fn expected(set: Set, case: &Case) -> Vec<u8> {
    match set {
        Set::Logs => log(&case.prints).concat(),
        Set::Bench | Set::Station => case.prints.clone().into_bytes(),
    }
}

/// The names of cases that catch a board, the first of them.
pub fn catching(board: &Board, cases: &[&Case]) -> Vec<String> {
    let caught = |case: &&&Case| board.prints(&case.run) != expected(board.set, case);
    let names = cases.iter().filter(caught).map(|case| case.name.clone());
    names.take(MOST).collect()
}

/// Short inputs before long ones, so that most boards are caught soon.
fn by_length<'a>(cases: &'a [Case]) -> Vec<&'a Case> {
    let mut cases: Vec<&Case> = cases.iter().collect();
    cases.sort_by_key(|case| case.run.policy().len() + 20 * case.run.input.len());
    cases
}

/// The same of each board, on the cases of the bench program or of the station program.
pub fn all_catching(boards: &[Board], bench: &[Case], station: &[Case]) -> Vec<Vec<String>> {
    let next = AtomicUsize::new(0);
    let results = Mutex::new(vec![Vec::new(); boards.len()]);
    let (bench, station) = (by_length(bench), by_length(station));
    thread::scope(|scope| {
        for _ in 0..THREADS {
            scope.spawn(|| loop {
                let this = next.fetch_add(1, Ordering::Relaxed);
                let Some(board) = boards.get(this) else {
                    return;
                };
                let cases = match board.set {
                    Set::Station => &station,
                    Set::Bench | Set::Logs => &bench,
                };
                let names = catching(board, cases);
                results.lock().expect("no thread has stopped")[this] = names;
            });
        }
    });
    results.into_inner().expect("no thread has stopped")
}
