//! Examples of tables: what is answered to a few operations and previews under policy A, of any version.

use crate::calls::{ending_of, refusal_of, Memory, Operation, Preview, Version, ASK, DENY, GRANT};
use crate::marked::policy_a;

fn open(slot: usize, owner: u8) -> Operation {
    let request = 16;
    Operation::Open {
        slot,
        owner,
        request,
    }
}

fn play(slot: usize, p: u16) -> Operation {
    Operation::Round { slot, p }
}

/// What is answered, one word each: opened, what is asked, how a round ends, or a refusal's number.
fn answers(version: &mut dyn Version, slots: usize, operations: &[Operation]) -> String {
    let mut table = vec![0; 12 * slots];
    let mut words = Vec::new();
    for operation in operations {
        let reply = version.operate(*operation, &mut policy_a(), &mut table);
        let asked = |slot: usize| table[12 * slot + 10];
        words.push(match (refusal_of(reply), ending_of(reply)) {
            (0, GRANT) => "grant".to_string(),
            (0, DENY) => "deny".to_string(),
            (0, ASK) => format!("ask {}", asked(operation.slot())),
            (0, _) => "opened".to_string(),
            (number, _) => number.to_string(),
        });
    }
    words.join(", ")
}

/// Four of one owner, a fifth, one closed, and a fifth again.
fn four() -> Vec<Operation> {
    let mut operations: Vec<Operation> = (60..65).map(|slot| open(slot, 7)).collect();
    operations.extend([open(0, 7), open(60, 7), open(0, 8)]);
    operations.extend([play(63, 4), open(63, 7), open(1, 7)]);
    operations.extend([play(62, 5), open(62, 8), open(1, 7)]);
    operations
}

/// A slot of owner 7 with a fresh session for request 16.
const FRESH: [u8; 12] = [7, 1, 16, 0, 0, 0, 0, 0, 0, 0, 0, 0];

/// Whether a preview in a table of such a slot and an empty one replies so, gives these twelve bytes, and leaves the table.
fn shows(v: &mut dyn Version, mut policy: Vec<u8>, at: Preview, wanted: (u32, [u8; 12])) -> bool {
    let table = [FRESH, [0; 12]].concat();
    let (mut lent, mut memory) = (table.clone(), Memory([0xa5; 32]));
    let reply = v.preview(at, &mut policy, &mut lent, &mut memory);
    let mut after = Memory([0xa5; 32]);
    after.set_slot(wanted.1);
    (reply, memory) == (wanted.0, after) && lent == table
}

/// Examples of previews.
fn previews(v: &mut dyn Version) -> Vec<(&'static str, bool)> {
    let at = |slot, p| Preview { slot, p };
    let (a, refused) = (policy_a(), vec![0; 18]);
    let question = [7, 1, 16, 0, 0, 0, 0, 0, 1, 1, 4, 0];
    let granted = [7, 1, 16, 0, 4, 0, 0, 0, 1, 2, 0, 0];
    let none = [0; 12];
    let all = [
        ("a question previewed", &a, at(0, 0), (ASK << 8, question)),
        ("a grant previewed", &a, at(0, 4), (GRANT << 8, granted)),
        ("an empty slot previewed", &a, at(1, 0), (8, none)),
        ("past the end previewed", &a, at(2, 0), (14, none)),
        ("a refused policy", &refused, at(0, 0), (3, FRESH)),
        ("a refused policy, empty", &refused, at(1, 0), (3, none)),
        ("a refused policy, 14", &refused, at(64, 0), (3, none)),
    ];
    all.map(|(name, policy, at, wanted)| (name, shows(v, policy.clone(), at, wanted)))
        .to_vec()
}

/// Each example with whether the version gives what document 02 says.
pub fn examples(v: &mut dyn Version) -> Vec<(&'static str, bool)> {
    let mut all = operations(v);
    all.extend(previews(v));
    all
}

/// Examples of openings and rounds.
fn operations(v: &mut dyn Version) -> Vec<(&'static str, bool)> {
    let turns = [
        open(0, 1),
        open(4, 2),
        play(0, 0),
        play(4, 0),
        play(0, 0),
        play(4, 4),
        play(0, 3),
        play(4, 0),
    ];
    let away = [
        open(5, 1),
        play(5, 0),
        play(4, 0),
        open(usize::MAX, 1),
        open(4, 1),
        open(4, 2),
    ];
    let fours = "opened, opened, opened, opened, 14, 16, 15, opened, grant, opened, 16, deny, opened, opened";
    vec![
        (
            "two sessions in turn",
            answers(v, 5, &turns) == "opened, opened, ask 4, ask 4, ask 3, grant, grant, 9",
        ),
        (
            "turned away",
            answers(v, 5, &away) == "14, 14, 8, 14, opened, 15",
        ),
        ("four of one owner", answers(v, 70, &four()) == fours),
        (
            "no slots",
            answers(v, 0, &[open(0, 1), play(0, 0)]) == "14, 14",
        ),
    ]
}
