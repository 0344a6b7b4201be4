//! Searches by weights against a limit, timed.

use crate::inputs::{weights, Input, Inputs};
use crate::items::Item;
use differential::gate;
use differential::weighted::{number, plain, tuned, Search};
use std::hint::black_box;

/// No search has more candidates.
const ALL: u32 = 65_535;

/// All sixteen credentials searched, nothing shown.
pub fn search(input: &Input, limit: u32) -> Search {
    Search {
        request: input.request,
        shown: 0,
        within: 0xffff,
        weights: weights(),
        limit,
    }
}

fn item(input: &Input, limit: u32) -> Item {
    let [a, b, c] = std::array::from_fn(|_| input.policy.clone());
    let search = search(input, limit);
    let name = format!(
        "sixteen weights, {}, {}, request {}",
        match limit {
            ALL => "no limit".to_string(),
            100 => "limit 100".to_string(),
            _ => "limit 20,000".to_string(),
        },
        input.name,
        input.request
    );
    Item {
        name,
        versions: [
            Box::new(move || gate::search(black_box(&a), &black_box(search))),
            Box::new(move || number(plain::answer(black_box(&b), &black_box(search)))),
            Box::new(move || number(tuned::answer(black_box(&c), &black_box(search)))),
        ],
    }
}

pub fn items(inputs: &Inputs) -> Vec<Item> {
    let mut items = Vec::new();
    for limit in [ALL, 100, 20_000] {
        items.extend(inputs.full.iter().map(|input| item(input, limit)));
    }
    items.extend(inputs.asking.iter().map(|input| item(input, ALL)));
    items
}
