//! Disagreements: what is shared between threads, and how one is written down.

use crate::calls::{Call, Memory};
use std::fs;
use std::path::{Path, PathBuf};
use std::sync::atomic::{AtomicBool, AtomicU64, Ordering};
use std::sync::Mutex;

/// Disagreements after which a run stops.
pub const MOST: u64 = 20;

/// How a session came about: opened for a request, then shown these sets under one policy.
#[derive(Clone, Default)]
pub struct Trail {
    pub request: u16,
    pub shown: Vec<u16>,
}

impl Trail {
    /// The bench program's input.
    pub fn input(&self) -> Vec<u8> {
        let mut bytes = self.request.to_le_bytes().to_vec();
        for p in &self.shown {
            bytes.extend(p.to_le_bytes());
        }
        bytes
    }
}

/// A disagreement.
pub struct Finding {
    pub title: String,
    pub policy: Vec<u8>,
    pub call: Call,
    pub before: Memory,
    /// None where the session is not one that opening and rounds under this policy give.
    pub trail: Option<Trail>,
    /// Who answered what.
    pub answers: Vec<String>,
}

/// What threads share.
pub struct Shared {
    pub cases: AtomicU64,
    pub disagreements: AtomicU64,
    pub stop: AtomicBool,
    pub folder: PathBuf,
    pub bench: PathBuf,
    pub quiet: bool,
    printing: Mutex<()>,
}

pub fn hex(bytes: &[u8]) -> String {
    bytes.iter().map(|byte| format!("{byte:02x}")).collect()
}

/// An answer as a line: the reply, and the memory after it.
pub fn answer(who: &str, reply: u32, memory: &Memory) -> String {
    format!("{who}: reply {reply:08x}, memory {}", hex(&memory.0))
}

impl Shared {
    /// Of a repository that stands in this folder.
    pub fn new(root: &Path, quiet: bool) -> Shared {
        Shared {
            cases: AtomicU64::new(0),
            disagreements: AtomicU64::new(0),
            stop: AtomicBool::new(false),
            folder: root.join("target/differential"),
            bench: root.join("target/bin/bench"),
            quiet,
            printing: Mutex::new(()),
        }
    }

    pub fn stopped(&self) -> bool {
        self.stop.load(Ordering::Relaxed)
    }

    /// Counts a disagreement; its number.
    fn counted(&self) -> u64 {
        let number = 1 + self.disagreements.fetch_add(1, Ordering::Relaxed);
        if number >= MOST || self.quiet {
            self.stop.store(true, Ordering::Relaxed);
        }
        number
    }

    /// A disagreement with no policy or round to it: printed with all that it takes to repeat it.
    pub fn tell(&self, title: &str, lines: &[String]) {
        let number = self.counted();
        if self.quiet {
            return;
        }
        let _printing = self.printing.lock();
        println!("\ndisagreement {number}: {title}");
        for line in lines {
            println!("  {line}");
        }
    }

    /// Counts a disagreement, and writes it down unless told to be quiet.
    pub fn report(&self, finding: &Finding) {
        let number = self.counted();
        if self.quiet {
            return;
        }
        let _printing = self.printing.lock();
        let folder = self.folder.join(format!("disagreement-{number:03}"));
        if let Err(error) = write(&folder, finding) {
            println!("{} cannot be written: {error}", folder.display());
        }
        self.print(number, &folder, finding);
    }

    fn print(&self, number: u64, folder: &Path, finding: &Finding) {
        let place = folder.display();
        println!("\ndisagreement {number}: {}", finding.title);
        println!(
            "  call {} {:04x}",
            finding.call.name(),
            finding.call.argument()
        );
        println!("  policy.bin: {}", hex(&finding.policy));
        println!("  input: {}", hex(&input(finding)));
        println!("  session before: {}", hex(&finding.before.session()));
        for line in &finding.answers {
            println!("  {line}");
        }
        if bench_replays(finding) {
            println!("  replay: (cd {place} && {} < input)", self.bench.display());
        } else {
            println!("  the bench program cannot be handed this session or call; see below");
        }
        println!("  replay both versions: differential/run --replay {place}");
    }
}

/// Whether the bench program gets to this call by itself.
fn bench_replays(finding: &Finding) -> bool {
    let fresh = finding.before.session()[2..] == [0; 8];
    match finding.call {
        Call::Check | Call::Open(_) => true,
        Call::Round(_) => finding.trail.is_some() || fresh,
        Call::Model(_) | Call::Disclosable(_) => finding.trail.is_some(),
    }
}

/// What the bench program would be given.
fn input(finding: &Finding) -> Vec<u8> {
    match (&finding.trail, finding.call) {
        (Some(trail), _) => trail.input(),
        (None, Call::Open(request)) => request.to_le_bytes().to_vec(),
        (None, Call::Round(p)) => {
            let mut bytes = finding.before.session()[..2].to_vec();
            bytes.extend(p.to_le_bytes());
            bytes
        }
        (None, _) => vec![16, 0],
    }
}

fn write(folder: &Path, finding: &Finding) -> std::io::Result<()> {
    fs::create_dir_all(folder)?;
    fs::write(folder.join("policy.bin"), &finding.policy)?;
    fs::write(folder.join("input"), input(finding))?;
    fs::write(folder.join("session"), finding.before.session())?;
    let case = format!(
        "{} {:04x} {}\n",
        finding.call.name(),
        finding.call.argument(),
        hex(&finding.before.0)
    );
    fs::write(folder.join("case"), case)
}
