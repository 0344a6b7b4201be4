//! The pack as it is stored: text for the runner, and bytes for the program under the proofs' gate.

use super::case::{Case, File, Sentence};
use crate::plain::lists::Accepted;
use crate::plain::log::{entry, write};
use crate::plain::session::Ending;
use crate::report::hex;

/// Bytes of a record of a policy, a line of the text.
const RECORD_BYTES: usize = 18;

/// Bytes of the input and of the log in a line of the text.
const INPUT_BYTES: usize = 60;
const LOG_BYTES: usize = 64;

/// The round of a line, with its count, if the line is of a round.
fn round_of(line: &str) -> Option<(Accepted, u8)> {
    let words: Vec<&str> = line.split(' ').collect();
    let set = |digits: &str| u16::from_str_radix(digits, 16).ok();
    let (count, p, ending) = match words[..] {
        ["round", count, "got", p, "grant"] => (count, p, Ending::Grant),
        ["round", count, "got", p, "deny"] => (count, p, Ending::Deny),
        ["round", count, "got", p, "ask", asked] => (count, p, Ending::Ask(set(asked)?)),
        _ => return None,
    };
    Some((Accepted { p: set(p)?, ending }, count.parse().ok()?))
}

/// "Each accepted round gives its record as 8 bytes.": the log of a session that prints this.
pub fn log(prints: &str) -> Vec<[u8; 8]> {
    let rounds = prints.lines().filter_map(round_of);
    rounds
        .map(|(round, count)| write(&entry(&round, count)))
        .collect()
}

fn lines(word: &str, bytes: &[u8], width: usize) -> String {
    let parts = bytes.chunks(width);
    parts
        .map(|part| format!("{word} {}\n", hex(part)))
        .collect()
}

/// A line for each record; of several alike, one after the other, one line with their number.
fn records(bytes: &[u8]) -> String {
    let parts: Vec<&[u8]> = bytes.chunks(RECORD_BYTES).collect();
    let alike = parts.chunk_by(|one, other| one == other);
    let line = |same: &[&[u8]]| match same.len() {
        1 => format!("policy {}\n", hex(same[0])),
        times => format!("policy {} {times}\n", hex(same[0])),
    };
    alike.map(line).collect()
}

/// One case.
fn case_text(case: &Case, logged: bool) -> String {
    let mut text = format!("case {}\n", case.name);
    match &case.run.file {
        File::Bytes(bytes) => text += &records(bytes),
        File::Missing => text += "missing\n",
    }
    text += &lines("input", &case.run.input, INPUT_BYTES);
    for line in case.prints.lines() {
        text += &format!("prints {line}\n");
    }
    if logged {
        text += &lines("logs", &log(&case.prints).concat(), LOG_BYTES);
    }
    text
}

fn tests(sentence: &Sentence) -> String {
    format!("tests {} \"{}\"\n", sentence.document, sentence.words)
}

/// Cases in a file, and their number; where programs keep a log, with the log.
pub fn text(cases: &[Case], logged: bool) -> String {
    let mut text = String::new();
    let mut last = None;
    for case in cases {
        if last != Some(case.tests) {
            text += &tests(&case.tests);
            last = Some(case.tests);
        }
        text += &case_text(case, logged);
    }
    text + &format!("end {}\n", cases.len())
}

/// The same in bytes, cases one after the other: which program it is for, how long policy and input are, these two.
pub fn compact(program: u8, cases: &[&Case]) -> Vec<u8> {
    let mut bytes = Vec::new();
    for case in cases {
        let (policy, input) = (case.run.policy(), &case.run.input);
        bytes.push(program);
        bytes.extend((policy.len() as u16).to_le_bytes());
        bytes.extend((input.len() as u16).to_le_bytes());
        bytes.extend(policy);
        bytes.extend(input);
    }
    bytes
}
