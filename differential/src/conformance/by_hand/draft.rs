//! How a case is put down.

use super::words::policy;
use crate::conformance::case::{Case, File, Run, Sentence};
use crate::policies::encode;
use crate::report::Trail;

/// A case without its output.
pub struct Draft {
    name: &'static str,
    tests: Sentence,
    run: Run,
}

/// A case with this file, and no input yet.
pub fn stored(name: &'static str, tests: Sentence, file: File) -> Draft {
    let input = Vec::new();
    let run = Run { file, input };
    Draft { name, tests, run }
}

/// A case whose file has these bytes.
pub fn bytes(name: &'static str, tests: Sentence, bytes: &[u8]) -> Draft {
    stored(name, tests, File::Bytes(bytes.to_vec()))
}

/// A case with a policy in words.
pub fn written(name: &'static str, tests: Sentence, words: &str) -> Draft {
    bytes(name, tests, &encode(&policy(words)))
}

/// One with request 16 and a first round that shows nothing.
pub fn first_round(name: &'static str, tests: Sentence, words: &str) -> Draft {
    written(name, tests, words).plays(16, &[0x0000])
}

impl Draft {
    /// The input byte by byte.
    pub fn reads(mut self, input: &[u8]) -> Draft {
        self.run.input = input.to_vec();
        self
    }

    /// The request, and what is shown in each round.
    pub fn plays(self, request: u16, shown: &[u16]) -> Draft {
        let shown = shown.to_vec();
        self.reads(&Trail { request, shown }.input())
    }

    /// The whole output, line by line.
    pub fn prints(self, lines: &[&str]) -> Case {
        Case {
            name: self.name.to_string(),
            tests: self.tests,
            run: self.run,
            prints: lines.iter().map(|line| format!("{line}\n")).collect(),
        }
    }
}
