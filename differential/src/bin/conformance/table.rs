//! The table of wrong boards, with the cases that catch each.

use crate::stored::store;
use differential::conformance::case::Case;
use differential::conformance::caught::{all_catching, LEAST, MOST};
use differential::conformance::pack::{bench_parts, station_parts, Part};
use differential::conformance::wrong::{
    right_boards, unseen, unseen_boards, wrong_boards, Board, Set,
};
use differential::slips::SLIPS;
use std::path::Path;

/// So many names in a row.
const NAMED: usize = 3;

const HEADER: &str = "# Wrong boards, and the cases that catch them

Programs that are wrong on purpose: over the slips of the differential tests (`differential/src/slips`), and with a flaw of the
bench program's own (`differential/src/conformance/boards/flaws.rs`). Each fails at least three cases of the pack.
`conformance/wrong-board NAME` is the program; `conformance/make --slips` makes this page.

";

fn cases(parts: Vec<Part>) -> Vec<Case> {
    parts.into_iter().flat_map(|part| part.cases).collect()
}

fn row(board: &Board, names: &[String]) -> String {
    let count = match names.len() {
        MOST => format!("{MOST} and more"),
        count => count.to_string(),
    };
    let first: Vec<&str> = names.iter().take(NAMED).map(String::as_str).collect();
    let name = board.name();
    format!(
        "| `{name}` | {} | {count} | {} |\n",
        board.text,
        first.join(", ")
    )
}

/// The rows of one set.
fn section(title: &str, set: Set, boards: &[Board], caught: &[Vec<String>]) -> String {
    let head =
        "| name | what is wrong | cases that catch it | the first of them |\n|---|---|---|---|\n";
    let mut text = format!("## {title}\n\n{head}");
    for (board, names) in boards
        .iter()
        .zip(caught)
        .filter(|(board, _)| board.set == set)
    {
        text += &row(board, names);
    }
    text + "\n"
}

/// The slips that no case can show.
fn section_unseen() -> String {
    let mut text = String::from("## What the pack cannot see\n\n| slip | why |\n|---|---|\n");
    for (slip, why) in unseen() {
        let named = SLIPS.iter().find(|(other, _)| *other == slip);
        let what = named.map_or("", |(_, text)| text);
        text += &format!("| {what} | {why} |\n");
    }
    text
}

/// Whether each of these boards is caught by so many cases.
fn hold(boards: &[Board], caught: &[Vec<String>], is: impl Fn(usize) -> bool) -> bool {
    let all = boards.iter().zip(caught);
    let other: Vec<_> = all.filter(|(_, names)| !is(names.len())).collect();
    for (board, names) in &other {
        let (name, first) = (board.name(), names.first());
        println!("{name} is caught by {} cases: {first:?}", names.len());
    }
    other.is_empty()
}

/// Whether each wrong board is caught, and the page is, or now is, what is made.
pub fn table(root: &Path, check: bool) -> Result<bool, String> {
    let (bench, station) = (cases(bench_parts()), cases(station_parts()));
    let boards = wrong_boards();
    let caught = all_catching(&boards, &bench, &station);
    let quiet = [right_boards(), unseen_boards()].concat();
    let uncaught = all_catching(&quiet, &bench, &station);
    let text = HEADER.to_string()
        + &section("The bench program's cases", Set::Bench, &boards, &caught)
        + &section("The same cases, logs", Set::Logs, &boards, &caught)
        + &section(
            "The station program's cases",
            Set::Station,
            &boards,
            &caught,
        )
        + &section_unseen();
    let same = store(&root.join("conformance/SLIPS.md"), text.as_bytes(), check)?;
    let told = hold(&boards, &caught, |count| count >= LEAST);
    let untold = hold(&quiet, &uncaught, |count| count == 0);
    println!("{} wrong boards", boards.len());
    Ok(told && untold && same)
}
