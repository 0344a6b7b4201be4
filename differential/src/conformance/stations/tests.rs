//! That the cases are right by every right version, of the form that the pack has, and show the slips.

use super::drawn::{shapes, EACH, LEAST, MOST};
use super::events::{events, Event};
use super::{stations, UNSEEN};
use crate::calls::Version;
use crate::conformance::boards::station;
use crate::conformance::case::Case;
use crate::conformance::text::text;
use crate::definition::Definition;
use crate::plain::interface::Plain;
use crate::plain::station::output;
use crate::slips::{Slip, Slipped, CONTROLS, SLIPS};
use crate::tuned::Tuned;
use std::collections::HashSet;

/// The most bytes of text.
const MOST_TEXT: usize = 700 * 1024;

/// So many cases show a slip that can be shown.
const LEAST_SHOWN: usize = 3;

#[test]
fn printed_by_plain_station() {
    for case in stations() {
        let printed = output(case.run.bytes(), &case.run.input);
        assert_eq!(printed, case.prints, "{}", case.name);
    }
}

#[test]
fn printed_by_right_versions() {
    let mut versions: Vec<Box<dyn Version>> =
        vec![Box::new(Plain), Box::new(Tuned), Box::new(Definition)];
    for (control, _) in CONTROLS {
        versions.push(Box::new(Slipped(control)));
    }
    for case in stations() {
        for version in &mut versions {
            let printed = station(version.as_mut(), &case.run);
            assert_eq!(printed, case.prints, "{}", case.name);
        }
    }
}

#[test]
fn names_and_sizes() {
    let cases = stations();
    let names: HashSet<&str> = cases.iter().map(|case| &case.name[..]).collect();
    assert_eq!(names.len(), cases.len());
    let allowed = |c: char| c.is_ascii_lowercase() || c.is_ascii_digit() || c == '-';
    for name in names {
        assert!(
            name.starts_with("station-") && name.chars().all(allowed),
            "{name}"
        );
    }
    let runs = cases.iter().map(|case| (case.run.bytes(), &case.run.input));
    assert_eq!(runs.collect::<HashSet<_>>().len(), cases.len());
    let length = text(&cases, false).len();
    assert!(length <= MOST_TEXT, "{length}");
}

#[test]
fn sentences_are_one_line() {
    for case in stations() {
        let words = case.tests.words;
        assert!(!words.contains(['\n', '"']), "{}: {words}", case.name);
    }
}

#[test]
fn every_shape_comes_up() {
    let cases = stations();
    let all: Vec<(&Case, Vec<Event>)> =
        cases.iter().map(|case| (case, events(&case.run))).collect();
    for shape in shapes() {
        let begins = format!("station-drawn-{}-", shape.name);
        let fitting = all.iter().filter(|(_, events)| (shape.fits)(events));
        let own = fitting.filter(|(case, _)| case.name.starts_with(&begins));
        assert_eq!(own.count(), EACH, "{}", shape.name);
    }
    for (case, events) in all {
        let drawn = case.name.starts_with("station-drawn-");
        assert!(
            !drawn || (LEAST..=MOST).contains(&events.len()),
            "{}",
            case.name
        );
    }
}

/// In how many cases something else is printed.
fn shown(slip: Slip, cases: &[Case]) -> usize {
    let prints = |case: &Case| station(&mut Slipped(slip), &case.run);
    cases
        .iter()
        .filter(|case| prints(case) != case.prints)
        .count()
}

#[test]
fn slips_are_shown() {
    let cases = stations();
    let of_tables = |text: &str| text.starts_with("tables:") || text.starts_with("previews:");
    let slips = SLIPS.iter().filter(|(_, text)| of_tables(text));
    let mut unseen = 0;
    for (slip, text) in slips {
        let count = shown(*slip, &cases);
        match UNSEEN.iter().any(|(other, _)| other == slip) {
            true => {
                unseen += 1;
                assert_eq!(count, 0, "{text}");
            }
            false => assert!(count >= LEAST_SHOWN, "{text}: {count}"),
        }
    }
    assert_eq!(unseen, UNSEEN.len());
}
