//! What is timed: the same call to the gate, the plain and the tuned version.

use crate::inputs::{Input, Inputs};
use differential::gate;
use differential::plain::disclosure::disclosable;
use differential::plain::interface::{encode, ending_reply, refusal_reply};
use differential::plain::model::model;
use differential::plain::policy::{check, Policy};
use differential::plain::session::{open, round};
use differential::tuned;
use std::hint::black_box;

/// One thing that is timed: three versions, each giving a number that must be the same.
pub struct Item {
    pub name: String,
    pub versions: [Box<dyn Fn() -> u64>; 3],
}

/// A copy of the policy for each version.
fn copies(input: &Input) -> [Vec<u8>; 3] {
    std::array::from_fn(|_| input.policy.clone())
}

fn check_item(input: &Input) -> Item {
    let [a, b, c] = copies(input);
    Item {
        name: format!("check, {}", input.name),
        versions: [
            Box::new(move || gate::check(black_box(&a)).into()),
            Box::new(move || {
                let tested = check(black_box(&b));
                tested.map_or_else(refusal_reply, |_| 0).into()
            }),
            Box::new(move || {
                let tested = tuned::check(black_box(&c));
                tested.map_or_else(refusal_reply, |_| 0).into()
            }),
        ],
    }
}

fn model_item(input: &Input, credentials: u16) -> Item {
    let [a, b, c] = copies(input);
    Item {
        name: format!("model, {}", input.name),
        versions: [
            Box::new(move || gate::model(black_box(&a), black_box(credentials)).1),
            Box::new(move || {
                check(black_box(&b)).map_or(0, |p| model(&p.levels, black_box(credentials)))
            }),
            Box::new(move || tuned::model(black_box(&c), black_box(credentials)).unwrap_or(0)),
        ],
    }
}

fn disclosable_item(input: &Input, shown: u16) -> Item {
    let [a, b, c] = copies(input);
    Item {
        name: format!("disclosable set, {}", input.name),
        versions: [
            Box::new(move || gate::disclosable(black_box(&a), black_box(shown)).1.into()),
            Box::new(move || {
                let set = |p: Policy| disclosable(&p.disclosure, black_box(shown));
                check(black_box(&b)).map_or(0, set).into()
            }),
            Box::new(move || {
                let set = tuned::disclosable(black_box(&c), black_box(shown));
                set.unwrap_or(0).into()
            }),
        ],
    }
}

/// The reply and the session of a round, as one number.
fn number(reply: u32, session: [u8; 10]) -> u64 {
    let tail = u64::from_le_bytes(session[2..].try_into().expect("eight bytes"));
    u64::from(reply) << 32 ^ tail
}

/// The gate's first round of a session that shows nothing.
pub fn gate_round(input: &Input) -> Option<Box<dyn Fn() -> u64>> {
    let policy = input.policy.clone();
    let bytes = encode(&open(input.request).ok()?);
    Some(Box::new(move || {
        let mut session = black_box(bytes);
        let reply = gate::round(black_box(&policy), &mut session, black_box(0));
        number(reply, session)
    }))
}

/// The same of all three.
fn round_item(what: &str, input: &Input) -> Option<Item> {
    let [_, b, c] = copies(input);
    let session = open(input.request).ok()?;
    let answer = |done: Result<(_, _), _>| match done {
        Ok((ending, next)) => number(ending_reply(ending), encode(&next)),
        Err(_) => 0,
    };
    Some(Item {
        name: format!("{what}, {}, request {}", input.name, input.request),
        versions: [
            gate_round(input)?,
            Box::new(move || answer(round(black_box(&b), &black_box(session), black_box(0)))),
            Box::new(move || {
                answer(tuned::round(
                    black_box(&c),
                    &black_box(session),
                    black_box(0),
                ))
            }),
        ],
    })
}

pub fn items(inputs: &Inputs) -> Vec<Item> {
    let (a, middle, full) = (&inputs.short[0], &inputs.short[1], &inputs.full);
    let tested = [a, middle].into_iter().chain(full);
    let tested = tested.chain(&inputs.chains).chain(&inputs.levelled);
    let mut items: Vec<Item> = tested.map(check_item).collect();
    items.push(model_item(a, 0b11));
    items.push(model_item(middle, 0xff));
    let large = || full.iter().chain(&inputs.chains);
    items.extend(large().map(|input| model_item(input, 0x5555)));
    items.extend([a, middle, &full[0]].map(|input| disclosable_item(input, 0)));
    let first = [a, middle].into_iter().chain(&inputs.asking);
    items.extend(first.filter_map(|input| round_item("first round", input)));
    items.extend(large().filter_map(|input| round_item("worst round", input)));
    let first = inputs.short_weighed.iter().chain(&inputs.asking_weighed);
    items.extend(first.filter_map(|input| round_item("first round", input)));
    let worst = inputs.fewer.iter().chain(&inputs.fewer_weighed);
    items.extend(worst.filter_map(|input| round_item("worst round", input)));
    items
}
