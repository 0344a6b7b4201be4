//! Previews in a list: what follows them, what the list alone says of them, and the same list without them.

use super::draw::number;
use super::{opening, operate, round, shown_at, List, Step};
use crate::calls::{refusal_of, Operation, Preview};
use crate::plain::table_bytes::SLOT_BYTES;
use crate::preview_counts::Follows;
use crate::tester::{Previewed, Tester};

/// What is previewed: a round as it would be played next, or at any slot; with any set where nothing follows, now and then.
fn drawn(tester: &mut Tester, list: &List, follows: Follows) -> Preview {
    let slot = match tester.random.one_in(3) {
        true => number(&mut tester.random, list.table.len() / SLOT_BYTES),
        false => round(tester, list).slot(),
    };
    let p = match follows {
        Follows::Nothing if tester.random.one_in(2) => tester.random.word(),
        _ => shown_at(tester, list, slot),
    };
    Preview { slot, p }
}

/// What the list alone says of a preview, from an all-empty table: refused as the round would be, a session given just where one
/// was opened. False where it is not so.
fn hold_to_list(tester: &mut Tester, list: &List, preview: Preview, seen: &Previewed) -> bool {
    if !list.from_empty {
        return true;
    }
    let slots = list.table.len() / SLOT_BYTES;
    let (wanted, got) = (
        list.ledger.refusal(preview.round(), slots),
        refusal_of(seen.reply),
    );
    let refused = (tester.rules().is_some() && wanted != got).then_some("another refusal");
    let broken = refused.or(list.ledger.broken_preview(preview.slot, seen));
    if let Some(what) = broken {
        let lines = [format!("{preview:?}: {what}; {seen:x?}")];
        tester.found_in("a preview in a list on an all-empty table", &lines);
    }
    broken.is_none()
}

/// An operation at another slot.
fn elsewhere(tester: &mut Tester, list: &List, slot: usize) -> Operation {
    loop {
        let operation = match tester.random.one_in(2) {
            true => opening(tester, list),
            false => round(tester, list),
        };
        if operation.slot() != slot {
            return operation;
        }
    }
}

/// The very round that was previewed: its answer and its slot are the previewed ones. False where there is a disagreement.
fn play(tester: &mut Tester, list: &mut List, preview: Preview, seen: &Previewed) -> bool {
    let Some(reply) = operate(tester, list, preview.round()) else {
        return false;
    };
    tester.counts.previews.came(reply);
    let slot = list.table.chunks_exact(SLOT_BYTES).nth(preview.slot);
    if seen.comes_true(reply, slot) {
        return true;
    }
    let lines = [format!(
        "{preview:?}: {seen:x?}; then {reply:08x}, {slot:x?}"
    )];
    tester.found_in("a round is not as it was previewed", &lines);
    false
}

/// A preview, and then nothing, the very round, or operations at other slots and then that round. False where there is a
/// disagreement.
pub(super) fn previewed(tester: &mut Tester, list: &mut List) -> bool {
    let all = [Follows::Nothing, Follows::Round, Follows::Others];
    let follows = tester.random.pick(&all);
    let preview = drawn(tester, list, follows);
    let Some(seen) = tester.preview(preview, &list.table) else {
        return false;
    };
    if !hold_to_list(tester, list, preview, &seen) {
        return false;
    }
    tester.counts.previews.follows(follows);
    let others = match follows {
        Follows::Nothing => return true,
        Follows::Round => 0,
        Follows::Others => tester.random.range(1, 4),
    };
    for _ in 0..others {
        let operation = elsewhere(tester, list, preview.slot);
        if operate(tester, list, operation).is_none() {
            return false;
        }
    }
    play(tester, list, preview, &seen)
}

/// The same list with the previews taken out, on a second table: the same answers, and the same table in the end.
pub(super) fn hold_without(tester: &mut Tester, list: &List) {
    let mut table = list.first.clone();
    for step in &list.steps {
        match step {
            Step::Policy(policy) => tester.set_policy(policy.clone()),
            Step::Operation(operation, reply) => {
                let without = tester.operate_alone(*operation, &mut table);
                if without != *reply {
                    let lines = [format!("{operation:?}: {reply:08x}, without {without:08x}")];
                    return tester.found_in("a list without its previews", &lines);
                }
            }
        }
    }
    tester.counts.previews.without();
    if table != list.table {
        tester.found_in("a list without its previews leaves another table", &[]);
    }
}
