//! A case as a folder.

use super::case::{Case, File};
use std::fs;
use std::io::Result;
use std::path::Path;

/// Writes policy.bin, if there is one, the input, what is expected and what is printed instead, and the sentence that it was drawn
/// for: what is left of the case may break another one.
pub fn write(folder: &Path, case: &Case, printed: &[u8]) -> Result<()> {
    fs::create_dir_all(folder)?;
    if let File::Bytes(bytes) = &case.run.file {
        fs::write(folder.join("policy.bin"), bytes)?;
    }
    fs::write(folder.join("input"), &case.run.input)?;
    fs::write(folder.join("expected"), &case.prints)?;
    fs::write(folder.join("printed"), printed)?;
    let sentence = &case.tests;
    let tests = format!(
        "{} \"{}\" (drawn for it)\n",
        sentence.document, sentence.words
    );
    fs::write(folder.join("tests"), tests)
}
