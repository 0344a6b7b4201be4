//! Which runs of the bench program came up.

/// So many runs must have every number of rounds among them.
const ENOUGH: u64 = 1000;

/// Runs by what they print.
#[derive(Clone, Default)]
pub struct BenchCounts {
    /// By rounds accepted.
    rounds: [u64; 18],
    granted: u64,
    denied: u64,
    /// Runs with a round after closing.
    beyond: u64,
    refused_policy: u64,
    /// Policies refused 12 and 13.
    refused_weight: [u64; 2],
    refused_request: u64,
    nothing: u64,
    pub disagreed: u64,
}

impl BenchCounts {
    /// Counts a run by the text that it has to print.
    pub fn run(&mut self, text: &str) {
        let rounds = text.lines().filter(|line| line.starts_with("round"));
        self.rounds[rounds.count().min(17)] += 1;
        let has = |end: &str| u64::from(text.lines().any(|line| line.ends_with(end)));
        self.granted += has("grant");
        self.denied += has("deny");
        self.beyond += has("refused 9");
        self.refused_request += has("refused 7");
        self.refused_policy += u64::from(text.contains(" at "));
        let refused = |line: &str| u64::from(text.starts_with(line));
        self.refused_weight[0] += refused("refused 12 at");
        self.refused_weight[1] += refused("refused 13 at");
        self.nothing += u64::from(text.is_empty());
    }

    pub fn add(&mut self, other: &BenchCounts) {
        for (a, b) in self.rounds.iter_mut().zip(other.rounds) {
            *a += b;
        }
        self.granted += other.granted;
        self.denied += other.denied;
        self.beyond += other.beyond;
        self.refused_policy += other.refused_policy;
        self.refused_weight[0] += other.refused_weight[0];
        self.refused_weight[1] += other.refused_weight[1];
        self.refused_request += other.refused_request;
        self.nothing += other.nothing;
        self.disagreed += other.disagreed;
    }

    fn runs(&self) -> u64 {
        self.rounds.iter().sum()
    }

    /// What should have come up and did not, in a run with enough of them.
    pub fn missing(&self) -> Vec<String> {
        if self.runs() < ENOUGH {
            return Vec::new();
        }
        let mut missing = Vec::new();
        for (rounds, count) in self.rounds.iter().enumerate() {
            if *count == 0 {
                missing.push(format!("runs of the bench program with {rounds} rounds"));
            }
        }
        for (count, name) in self.endings() {
            if count == 0 {
                missing.push(format!("runs of the bench program: {name}"));
            }
        }
        missing
    }

    fn endings(&self) -> [(u64, &'static str); 8] {
        [
            (self.granted, "granted"),
            (self.denied, "denied"),
            (self.beyond, "with rounds after closing"),
            (self.refused_policy, "policy refused"),
            (self.refused_weight[0], "policy refused 12"),
            (self.refused_weight[1], "policy refused 13"),
            (self.refused_request, "request refused"),
            (self.nothing, "without output"),
        ]
    }

    pub fn print(&self) {
        println!("\nruns of the bench program: {}", self.runs());
        let cells: Vec<String> = self
            .rounds
            .iter()
            .enumerate()
            .map(|(rounds, count)| format!("{rounds}:{count}"))
            .collect();
        println!("  by rounds accepted: {}", cells.join(" "));
        for (count, name) in self.endings() {
            println!("  {name}: {count}");
        }
    }
}
