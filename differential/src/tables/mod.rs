//! Lists of openings, rounds and previews on a table of slots, held to R-5's bound and to demand 3.

mod draw;
mod every;
mod examples;
mod ledger;
mod previews;

pub use every::every_table;
pub use examples::examples;

use crate::calls::{refusal_of, Operation};
use crate::clients::{manner, shows, Manner};
use crate::damage::damaged;
use crate::demands::{licensed, Played};
use crate::plain::interface::replied;
use crate::plain::lists::Accepted;
use crate::plain::policy::Record;
use crate::plain::table_bytes::SLOT_BYTES;
use crate::policies;
use crate::requests::{named, request};
use crate::sessions::NO_SERVICES;
use crate::tester::Tester;
use draw::{empty, length, number, owners, table, Callers};
use ledger::{Ledger, Opened};
use previews::{hold_without, previewed};

/// What a list has in it beside previews: another policy, or an operation with its reply.
enum Step {
    Policy(Vec<u8>),
    Operation(Operation, u32),
}

/// A list as it is played.
struct List {
    records: Vec<Record>,
    callers: Callers,
    /// What a cooperative client holds, where there is one.
    holding: Option<u16>,
    /// The table at first, and as it stands.
    first: Vec<u8>,
    table: Vec<u8>,
    from_empty: bool,
    one_policy: bool,
    ledger: Ledger,
    steps: Vec<Step>,
}

/// The policy of a list, and what a cooperative client holds.
fn policy(tester: &mut Tester) -> (Vec<Record>, Option<u16>) {
    match tester.random.below(4) {
        0 => (policies::accepted(&mut tester.random), None),
        1 => {
            let (records, held) = policies::licensed(&mut tester.random);
            (records, Some(held))
        }
        _ => (policies::talkative(&mut tester.random), None),
    }
}

fn start(tester: &mut Tester) -> List {
    let (records, holding) = policy(tester);
    let policy = policies::encode(&records);
    tester.set_policy(policy.clone());
    let random = &mut tester.random;
    let callers = Callers {
        owners: owners(random),
        request: request(random, &records),
        named: named(&records),
    };
    let (length, from_empty) = (length(random), random.one_in(2));
    let first = match from_empty {
        true => empty(random, length),
        false => table(random, length, &callers),
    };
    List {
        table: first.clone(),
        first,
        records,
        callers,
        holding,
        from_empty,
        one_policy: !random.one_in(3),
        ledger: Ledger::default(),
        steps: vec![Step::Policy(policy)],
    }
}

fn opening(tester: &mut Tester, list: &List) -> Operation {
    let random = &mut tester.random;
    let again = list.ledger.places(false);
    let slot = match random.below(3) {
        0 if !again.is_empty() => random.pick(&again),
        _ => number(random, list.table.len() / SLOT_BYTES),
    };
    Operation::Open {
        slot,
        owner: random.pick(&list.callers.owners),
        request: match random.below(14) {
            0 => random.pick(&NO_SERVICES),
            1..=4 => list.callers.request,
            _ => request(random, &list.records),
        },
    }
}

fn round(tester: &mut Tester, list: &List) -> Operation {
    let random = &mut tester.random;
    let unfinished = list.ledger.places(true);
    let slot = match random.below(10) {
        0..=7 if !unfinished.is_empty() => random.pick(&unfinished),
        8 if !unfinished.is_empty() => random.pick(&list.ledger.places(false)),
        _ => number(random, list.table.len() / SLOT_BYTES),
    };
    let p = shown_at(tester, list, slot);
    Operation::Round { slot, p }
}

/// What is shown at a slot: what the client would show whose session was opened there in the list, or any set.
fn shown_at(tester: &mut Tester, list: &List, slot: usize) -> u16 {
    let random = &mut tester.random;
    match list.ledger.at(slot) {
        Some(opened) => shows(random, opened.manner, &opened.seen()),
        None => random.credentials(list.callers.named),
    }
}

/// How a new session's client answers.
fn new_manner(tester: &mut Tester, list: &List) -> Manner {
    match list.holding {
        Some(holding) if !tester.random.one_in(4) => Manner::Cooperative {
            holding,
            first: match tester.random.below(3) {
                0 => tester.random.credentials(holding),
                _ => 0,
            },
        },
        _ => manner(&mut tester.random),
    }
}

/// Demand 3 of a session that was opened at a slot under one accepted policy.
fn hold_to_demands(tester: &mut Tester, slot: usize, opened: &Opened) {
    let Some(rules) = tester.rules() else {
        return;
    };
    let played = Played {
        policy: rules,
        bytes: tester.policy(),
        request: opened.request,
        accepted: &opened.accepted,
        rounds: opened.rounds,
    };
    let mut broken = played.broken();
    let mut premise = false;
    if let Manner::Cooperative { holding, first } = opened.manner {
        premise = licensed(rules, opened.request, holding, first);
        if premise {
            broken.extend(played.broken_licence(holding));
        }
    }
    tester.counts.tables.session(premise);
    for clause in broken {
        let lines = [format!("slot {slot}, request {}", opened.request)];
        tester.found_in(&format!("demand 3 at a slot: {clause}"), &lines);
    }
}

/// What the list and its answers say after an opening that was not refused.
fn opened(tester: &mut Tester, list: &mut List, slot: usize, owner: u8, request: u16) {
    let session = Opened {
        owner,
        request,
        manner: new_manner(tester, list),
        accepted: Vec::new(),
        rounds: 0,
    };
    let (last, reopened) = list.ledger.open(slot, session);
    if reopened {
        tester.counts.tables.reopened();
    }
    if let Some(last) = last.filter(|_| list.one_policy) {
        hold_to_demands(tester, slot, &last);
    }
}

/// What the list and its answers say after a round.
fn played(tester: &Tester, list: &mut List, slot: usize, p: u16, reply: u32) {
    let place = SLOT_BYTES * slot.min(list.table.len());
    let asked = list.table.get(place + 10..place + 12);
    let asked = asked.map_or(0, |bytes| u16::from_le_bytes([bytes[0], bytes[1]]));
    let accepted = replied(reply, asked).map(|ending| Accepted { p, ending });
    if tester.rules().is_some() {
        list.ledger.round(slot, accepted);
    }
}

/// What the list alone says of an operation, from an all-empty table: whether it is refused so. False where it is not.
fn hold_to_list(tester: &mut Tester, list: &List, operation: Operation, reply: u32) -> bool {
    let opening = matches!(operation, Operation::Open { .. });
    if !list.from_empty || !opening && tester.rules().is_none() {
        return true;
    }
    let slots = list.table.len() / SLOT_BYTES;
    let (wanted, got) = (list.ledger.refusal(operation, slots), refusal_of(reply));
    if wanted != got {
        let lines = [format!(
            "{operation:?}: refused {got}, by the list {wanted}"
        )];
        tester.found_in("a list on an all-empty table", &lines);
    }
    wanted == got
}

/// One operation more: its reply, or nothing where there is a disagreement.
fn operate(tester: &mut Tester, list: &mut List, operation: Operation) -> Option<u32> {
    let (reply, after) = tester.operate(operation, &list.table)?;
    if !hold_to_list(tester, list, operation, reply) {
        return None;
    }
    list.table = after;
    list.steps.push(Step::Operation(operation, reply));
    match operation {
        Operation::Open {
            slot,
            owner,
            request,
        } if refusal_of(reply) == 0 => opened(tester, list, slot, owner, request),
        Operation::Open { .. } => {}
        Operation::Round { slot, p } => played(tester, list, slot, p, reply),
    }
    let above = list.ledger.above_four().filter(|_| list.from_empty);
    if let Some(owner) = above {
        let lines = [format!("owner {owner}, by {operation:?}")];
        tester.found_in("more than four unfinished sessions", &lines);
    }
    above.is_none().then_some(reply)
}

/// Another policy, refused ones among them.
fn change_policy(tester: &mut Tester, list: &mut List) {
    let policy = match tester.random.below(3) {
        0 => damaged(&mut tester.random),
        1 => policies::encode(&policies::accepted(&mut tester.random)),
        _ => policies::encode(&list.records),
    };
    list.steps.push(Step::Policy(policy.clone()));
    tester.set_policy(policy);
}

/// The next of a list: an opening, a round, or a preview and what follows it. False where there is a disagreement.
fn next(tester: &mut Tester, list: &mut List) -> bool {
    let operation = match tester.random.below(5) {
        0 | 1 => opening(tester, list),
        2 | 3 => round(tester, list),
        _ => return previewed(tester, list),
    };
    operate(tester, list, operation).is_some()
}

/// A list of operations.
pub fn tables(tester: &mut Tester) {
    let mut list = start(tester);
    tester.counts.tables.list(list.from_empty, list.one_policy);
    for _ in 0..tester.random.range(20, 100) {
        if !list.one_policy && tester.random.one_in(5) {
            change_policy(tester, &mut list);
        }
        if !next(tester, &mut list) {
            return;
        }
    }
    hold_without(tester, &list);
    if list.one_policy {
        for (slot, opened) in list.ledger.into_sessions() {
            hold_to_demands(tester, slot, &opened);
        }
    }
}
