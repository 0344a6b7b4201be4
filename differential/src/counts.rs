//! What came up in a run: cases by kind, replies, lists.

use crate::bench_counts::BenchCounts;
use crate::calls::{ending_of, refusal_of, Call, DENY, GRANT};
use crate::level_counts::LevelCounts;
use crate::log_counts::LogCounts;
use crate::preview_counts::PreviewCounts;
use crate::question_counts::QuestionCounts;
use crate::table_counts::TableCounts;
use crate::weight_counts::WeightCounts;
use crate::weighted::counts::WeightedCounts;

/// What a case was made as.
#[derive(Clone, Copy, PartialEq, Eq, Debug)]
pub enum Kind {
    CheckAccepted,
    CheckBoundary,
    CheckDamaged,
    Model,
    ModelDamaged,
    Disclosable,
    DisclosableDamaged,
    Open,
    RoundSound,
    RoundUnsound,
    RoundAnyBytes,
    RoundNoSession,
    RoundDamaged,
    RoundQuestion,
    ListOpening,
    ListClient,
    ListCooperative,
    ListChanging,
    Exhaustive,
}

pub const KINDS: [&str; 19] = [
    "check, policy of the written form",
    "check, policy at a boundary",
    "check, damaged policy",
    "model",
    "model, damaged policy",
    "disclosable",
    "disclosable, damaged policy",
    "open",
    "round, random sound session",
    "round, one clause of soundness broken",
    "round, ten random bytes",
    "round, bytes that are no session",
    "round, damaged policy",
    "round, made for its question",
    "opening of a list",
    "round of a list, any client",
    "round of a list, cooperative client",
    "round of a list, policies changing",
    "every length, head, body atom, small loop, weight, request; small sessions",
];

/// Replies of the policy's test, and of rounds, by refusal number; 0 is not refused.
const POLICY_REPLIES: [u32; 9] = [0, 1, 2, 3, 4, 5, 6, 12, 13];
const ROUND_REPLIES: [u32; 12] = [0, 1, 2, 3, 4, 5, 6, 7, 8, 9, 12, 13];

/// Counters, each of one thread; `add` joins them.
#[derive(Clone, Default)]
pub struct Counts {
    pub kinds: [u64; 19],
    /// Replies of gate_check, in the order of `POLICY_REPLIES`.
    pub policies: [u64; 9],
    /// Replies of gate_open: fresh sessions, refusals 7.
    pub openings: [u64; 2],
    /// Replies of gate_round, in the order of `ROUND_REPLIES`.
    pub refusals: [u64; 12],
    pub grants: u64,
    pub denies: u64,
    pub questions: QuestionCounts,
    /// Lists under one policy, by accepted rounds when closed; 0 where the list ended open.
    pub lists: [u64; 18],
    pub lists_at_d_plus_1: u64,
    pub cooperative: u64,
    pub licensed: u64,
    pub licensed_lacking: u64,
    pub licensed_at_bound: u64,
    pub licensed_at_bound_lacking: u64,
    pub changing: u64,
    /// Second opinions on the plain version: by the definition, by all stable sets tried, by the tuned version.
    pub definition: u64,
    pub all_stable_sets: u64,
    pub tuned: u64,
    pub weights: WeightCounts,
    pub levels: LevelCounts,
    pub logs: LogCounts,
    pub tables: TableCounts,
    pub previews: PreviewCounts,
    pub bench: BenchCounts,
    pub weighted: WeightedCounts,
    pub disagreements: u64,
    /// The case with the first disagreement; 0 where there is none.
    pub first_disagreement: u64,
}

fn add_all(to: &mut [u64], from: &[u64]) {
    for (a, b) in to.iter_mut().zip(from) {
        *a += b;
    }
}

/// One more of a refusal number.
fn count(counts: &mut [u64], numbers: &[u32], number: u32) {
    if let Some(place) = numbers.iter().position(|other| *other == number) {
        counts[place] += 1;
    }
}

impl Counts {
    pub fn cases(&self) -> u64 {
        self.kinds.iter().sum()
    }

    /// Counts one case.
    pub fn case(&mut self, kind: Kind, call: Call, reply: u32) {
        self.kinds[kind as usize] += 1;
        let number = refusal_of(reply);
        match call {
            Call::Check => count(&mut self.policies, &POLICY_REPLIES, number),
            Call::Open(_) => self.openings[usize::from(number != 0)] += 1,
            Call::Round(_) => self.round(reply),
            _ => {}
        }
    }

    fn round(&mut self, reply: u32) {
        let number = refusal_of(reply);
        count(&mut self.refusals, &ROUND_REPLIES, number);
        match ending_of(reply) {
            _ if number != 0 => {}
            GRANT => self.grants += 1,
            DENY => self.denies += 1,
            _ => {}
        }
    }

    pub fn add(&mut self, other: &Counts) {
        add_all(&mut self.kinds, &other.kinds);
        add_all(&mut self.policies, &other.policies);
        add_all(&mut self.openings, &other.openings);
        add_all(&mut self.refusals, &other.refusals);
        self.questions.add(&other.questions);
        add_all(&mut self.lists, &other.lists);
        self.grants += other.grants;
        self.denies += other.denies;
        self.lists_at_d_plus_1 += other.lists_at_d_plus_1;
        self.cooperative += other.cooperative;
        self.licensed += other.licensed;
        self.licensed_lacking += other.licensed_lacking;
        self.licensed_at_bound += other.licensed_at_bound;
        self.licensed_at_bound_lacking += other.licensed_at_bound_lacking;
        self.changing += other.changing;
        self.definition += other.definition;
        self.all_stable_sets += other.all_stable_sets;
        self.tuned += other.tuned;
        self.weights.add(&other.weights);
        self.levels.add(&other.levels);
        self.logs.add(&other.logs);
        self.tables.add(&other.tables);
        self.previews.add(&other.previews);
        self.bench.add(&other.bench);
        self.weighted.add(&other.weighted);
        self.disagreements += other.disagreements;
    }

    /// What should have come up and did not.
    pub fn missing(&self) -> Vec<String> {
        let mut missing = Vec::new();
        let mut need = |count: u64, what: String| {
            if count == 0 {
                missing.push(what);
            }
        };
        for (kind, name) in KINDS.iter().enumerate() {
            need(self.kinds[kind], format!("cases: {name}"));
        }
        for (number, count) in POLICY_REPLIES.iter().zip(&self.policies) {
            need(*count, format!("gate_check: reply {number}"));
        }
        for (number, count) in ROUND_REPLIES.iter().zip(&self.refusals) {
            need(*count, format!("gate_round: refusal {number}"));
        }
        need(self.grants, "grants".to_string());
        need(self.denies, "denies".to_string());
        for (rounds, count) in self.lists.iter().enumerate() {
            need(*count, format!("lists of {rounds} rounds, 0 left open"));
        }
        need(self.licensed_at_bound_lacking, "bound 2 + u".to_string());
        missing.extend(self.questions.missing());
        missing.extend(self.weights.missing());
        missing.extend(self.levels.missing());
        missing.extend(self.logs.missing());
        missing.extend(self.tables.missing());
        missing.extend(self.previews.missing());
        missing.extend(self.bench.missing());
        missing.extend(self.weighted.missing());
        missing
    }

    /// The summary's lines.
    pub fn print(&self) {
        println!("\ncases by kind");
        for (name, count) in KINDS.iter().zip(self.kinds) {
            println!("  {count:>10}  {name}");
        }
        println!("\nreplies");
        row(
            "policies by refusal, 0 accepted",
            &self.policies,
            POLICY_REPLIES,
        );
        row("openings: fresh, refused 7", &self.openings, [0, 7]);
        row(
            "rounds by refusal, 0 accepted",
            &self.refusals,
            ROUND_REPLIES,
        );
        println!("  rounds ended in grant: {}", self.grants);
        println!("  rounds ended in deny: {}", self.denies);
        self.questions.print();
        self.weights.print();
        self.levels.print();
        self.print_lists();
        println!("\nsecond opinions on the plain version");
        println!("  by the definition: {}", self.definition);
        println!("  by all stable sets tried: {}", self.all_stable_sets);
        println!("  by the tuned version: {}", self.tuned);
        self.logs.print();
        self.tables.print();
        self.previews.print();
        self.bench.print();
        self.weighted.print();
    }

    fn print_lists(&self) {
        println!("\nlists of rounds");
        println!(
            "  under one accepted policy: {}",
            self.lists.iter().sum::<u64>()
        );
        println!("  left open: {}", self.lists[0]);
        row("closed, by rounds, from 1", &self.lists[1..], 1..=17);
        println!("  closed in round d + 1: {}", self.lists_at_d_plus_1);
        println!("  with a cooperative client: {}", self.cooperative);
        println!("  of these with the premise: {}", self.licensed);
        println!("    and u > 0: {}", self.licensed_lacking);
        println!("    granted in round 2 + u: {}", self.licensed_at_bound);
        println!("      and u > 0: {}", self.licensed_at_bound_lacking);
        println!("  under changing policies: {}", self.changing);
    }
}

/// A histogram in one line, each count with its number.
fn row(name: &str, counts: &[u64], numbers: impl IntoIterator<Item = u32>) {
    let cells: Vec<String> = numbers
        .into_iter()
        .zip(counts)
        .map(|(number, count)| format!("{number}:{count}"))
        .collect();
    println!("  {name}: {}", cells.join(" "));
}
