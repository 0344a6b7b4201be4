//! A case: a policy file, an input, what has to be printed, and the sentence of the papers that it tests.

use crate::plain::policy::Record;
use crate::policies::encode;
use crate::report::Trail;

/// "It reads the file policy.bin (at most 2,305 bytes of it)"
const MOST_READ: usize = 2305;

/// What stands as policy.bin.
#[derive(Clone, PartialEq, Eq, Debug)]
pub enum File {
    Missing,
    Bytes(Vec<u8>),
}

/// What a program is given.
#[derive(Clone, PartialEq, Eq, Debug)]
pub struct Run {
    pub file: File,
    pub input: Vec<u8>,
}

impl Run {
    /// A file of these records, a request, and what is shown in each round.
    pub fn of(records: &[Record], request: u16, shown: &[u16]) -> Run {
        let trail = Trail {
            request,
            shown: shown.to_vec(),
        };
        Run {
            file: File::Bytes(encode(records)),
            input: trail.input(),
        }
    }

    /// The bytes of the file, if there is one.
    pub fn bytes(&self) -> Option<&[u8]> {
        match &self.file {
            File::Bytes(bytes) => Some(bytes),
            File::Missing => None,
        }
    }

    /// What is read of the file: "a missing policy file counts as empty".
    pub fn policy(&self) -> &[u8] {
        let bytes = self.bytes().unwrap_or(&[]);
        &bytes[..bytes.len().min(MOST_READ)]
    }

    /// "2-byte little-endian records", "A last odd byte counts for nothing"
    pub fn words(&self) -> Vec<u16> {
        let pairs = self.input.chunks_exact(2);
        pairs
            .map(|pair| u16::from_le_bytes([pair[0], pair[1]]))
            .collect()
    }
}

/// A sentence of a document, word for word.
#[derive(Clone, Copy, PartialEq, Eq, Debug)]
pub struct Sentence {
    pub document: &'static str,
    pub words: &'static str,
}

/// A sentence of document 01.
pub const fn scope(words: &'static str) -> Sentence {
    Sentence {
        document: "01",
        words,
    }
}

/// A sentence of document 02.
pub const fn request(words: &'static str) -> Sentence {
    Sentence {
        document: "02",
        words,
    }
}

#[derive(Clone, PartialEq, Eq, Debug)]
pub struct Case {
    /// Lower-case letters, digits and hyphens: a folder's name.
    pub name: String,
    pub tests: Sentence,
    pub run: Run,
    /// The whole output.
    pub prints: String,
}
