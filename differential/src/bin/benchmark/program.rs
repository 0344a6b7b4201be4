//! Policies as programs for clingo, and its answers.

use differential::plain::disclosure::disclosable;
use differential::plain::policy::{atoms, check, Policy};
use differential::plain::weights::weights;
use std::fmt::Write;

/// The access rules, an atom k as `ak`.
fn rules(policy: &Policy) -> String {
    let mut text = String::new();
    for rule in &policy.access {
        let held = atoms(rule.positive).map(|atom| format!("a{atom}"));
        let not = atoms(rule.negative).map(|atom| format!("not a{atom}"));
        let body: Vec<String> = held.chain(not).collect();
        let _ = match body.is_empty() {
            true => writeln!(text, "a{}.", rule.head),
            false => writeln!(text, "a{} :- {}.", rule.head, body.join(", ")),
        };
    }
    text
}

/// The model of no credentials.
pub fn model(bytes: &[u8]) -> Option<String> {
    Some(rules(&check(bytes).ok()?))
}

/// A part of the disclosable set by which the service comes and 63 does not: least in weight and count first, both in one number
/// for each credential, then least as a number. The weights are the policy's, or those given.
pub fn question(bytes: &[u8], request: u16, given: Option<[u8; 16]>) -> Option<String> {
    let policy = check(bytes).ok()?;
    let weights = given.unwrap_or_else(|| weights(&policy.weights));
    let may_ask = disclosable(&policy.disclosure, 0);
    let each = |part: &dyn Fn(u8) -> String| {
        let parts: Vec<String> = atoms(may_ask.into()).map(part).collect();
        parts.join("; ")
    };
    let mut text = rules(&policy);
    let cost = |k: u8| 17 * u32::from(weights[usize::from(k)]) + 1;
    let choice = each(&|k| format!("a{k}"));
    let first = each(&|k| format!("{}@2,{k} : a{k}", cost(k)));
    let second = each(&|k| format!("{}@1,{k} : a{k}", 1u32 << k));
    let _ = writeln!(text, "{{ {choice} }}.\n:- not a{request}.\n:- a63.");
    let _ = writeln!(text, "#minimize {{ {first} }}.\n#minimize {{ {second} }}.");
    Some(text)
}

/// What clingo says, with --outf=2: the last set of atoms, if it has found one; and its own times, whole and solving, in seconds.
pub struct Said {
    pub set: Option<u64>,
    pub total: f64,
    pub solving: f64,
}

/// A number after a name.
fn field(text: &str, name: &str) -> Option<f64> {
    let (_, rest) = text.split_once(&format!("\"{name}\": "))?;
    let end = rest.find([',', '\n', '}'])?;
    rest[..end].trim().parse().ok()
}

/// Reads its answer; nothing where it is neither a set that is settled nor that there is none.
pub fn read(text: &str) -> Option<Said> {
    let last = text.rsplit_once("\"Value\": [");
    let settled = text.contains("\"OPTIMUM FOUND\"") || text.contains("\"More\": \"no\"");
    let set = match last {
        Some((_, rest)) if settled => {
            let (names, _) = rest.split_once(']')?;
            let names = names.split(',').map(|name| name.trim().trim_matches('"'));
            let numbers = names.filter_map(|name| name.strip_prefix('a')?.parse::<u32>().ok());
            Some(numbers.fold(0, |set, k| set | 1u64 << k))
        }
        None if text.contains("\"UNSATISFIABLE\"") => None,
        _ => return None,
    };
    Some(Said {
        set,
        total: field(text, "Total")?,
        solving: field(text, "Solve")?,
    })
}
