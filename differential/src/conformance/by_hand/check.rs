//! What has to hold of the cases: their outputs are the plain version's, and their names are folders.

use super::marked::BYTES_OF_A;
use super::words::policy;
use super::{by_hand, POLICY_A};
use crate::plain::bench::output;
use crate::policies::encode;
use std::collections::HashSet;

#[test]
fn outputs_are_the_plain_version_s() {
    for case in by_hand() {
        let plain = output(case.run.bytes(), &case.run.input);
        assert_eq!(case.prints, plain, "{}", case.name);
    }
}

#[test]
fn names_are_folders() {
    let mut names = HashSet::new();
    for case in by_hand() {
        let letter = |c: char| c.is_ascii_lowercase() || c.is_ascii_digit() || c == '-';
        assert!(case.name.chars().all(letter), "{}", case.name);
        assert!(names.insert(case.name.clone()), "{} twice", case.name);
    }
}

#[test]
fn no_two_cases_are_the_same() {
    let mut runs: Vec<_> = by_hand().into_iter().map(|case| case.run).collect();
    while let Some(run) = runs.pop() {
        assert!(!runs.contains(&run), "twice: {run:?}");
    }
}

#[test]
fn sentences_are_one_line() {
    for case in by_hand() {
        let words = case.tests.words;
        assert!(!words.contains(['\n', '"']), "{}: {words}", case.name);
    }
}

#[test]
fn words_are_records() {
    assert_eq!(encode(&policy(POLICY_A)), BYTES_OF_A.concat());
}
