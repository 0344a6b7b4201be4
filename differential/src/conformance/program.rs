//! A program that is run: in a folder that has the policy file, the input on standard input.

use super::case::{File, Run};
use std::fs;
use std::io::{Error, Result, Write};
use std::path::{Path, PathBuf};
use std::process::{Command, Stdio};

/// A command and its arguments.
#[derive(Clone)]
pub struct Program(pub Vec<String>);

fn place(folder: &Path, file: &File) -> Result<()> {
    let path = folder.join("policy.bin");
    match file {
        File::Bytes(bytes) => fs::write(&path, bytes),
        File::Missing if path.exists() => fs::remove_file(&path),
        File::Missing => Ok(()),
    }
}

impl Program {
    /// One without arguments.
    pub fn at(path: &Path) -> Program {
        Program(vec![path.display().to_string()])
    }

    /// The same with the command's whole path, since it is run in another folder, and stopped after ten seconds where there is a
    /// command for it.
    pub fn from_anywhere(self) -> Result<Program> {
        let Program(mut words) = self;
        let command = words.first_mut().ok_or(Error::other("no command"))?;
        if command.contains('/') {
            let whole: PathBuf = fs::canonicalize(&*command)?;
            *command = whole.display().to_string();
        }
        let limit = ["timeout", "-k", "1", "10"].map(str::to_string).to_vec();
        let there = Command::new("timeout").args(["9", "true"]).status();
        match there.is_ok_and(|status| status.success()) {
            true => Ok(Program([limit, words].concat())),
            false => Ok(Program(words)),
        }
    }

    /// Whether the command is there to be run.
    pub fn is_there(&self) -> bool {
        let command = self.0.first().map_or("", String::as_str);
        let found = Command::new("sh")
            .args(["-c", "command -v \"$1\"", "sh", command])
            .stdout(Stdio::null())
            .status();
        found.is_ok_and(|status| status.success())
    }

    /// What it prints. How it exits is not looked at: the papers do not speak of it.
    pub fn prints(&self, folder: &Path, run: &Run) -> Result<Vec<u8>> {
        place(folder, &run.file)?;
        let mut child = Command::new(&self.0[0])
            .args(&self.0[1..])
            .current_dir(folder)
            .stdin(Stdio::piped())
            .stdout(Stdio::piped())
            .stderr(Stdio::null())
            .spawn()?;
        if let Some(mut stdin) = child.stdin.take() {
            // a program that ends early leaves the rest of its input unread
            let _ = stdin.write_all(&run.input);
        }
        Ok(child.wait_with_output()?.stdout)
    }
}
