//! Rounds with weights beside the same rounds without, the gate's alone.

use crate::inputs::{Input, Inputs};
use crate::items::gate_round;
use crate::tables::{ratio, time};
use crate::timing::in_turn;

/// So many times the round without weights, and no more, is wanted.
const MOST: f64 = 2.0;

/// A row of the table, where its name has the word in it; and its ratio.
fn row(what: &str, pair: (&Input, &Input), word: &str) -> Option<f64> {
    let (without, with) = pair;
    let name = format!("{what}, {}, request {}", with.name, with.request);
    let (one, other) = (gate_round(without)?, gate_round(with)?);
    if !name.contains(word) {
        return None;
    }
    eprintln!("{name}, and without");
    let times = in_turn(&*one, &*other);
    let cells = [time(times.first), time(times.second), ratio(times.ratio)];
    println!("| {name} | {} |", cells.join(" | "));
    Some(times.ratio)
}

/// The table, and the largest ratio of the worst rounds.
pub fn print(inputs: &Inputs, word: &str) {
    println!("\nRounds of the gate with weights beside the same without, samples in turn:\n");
    println!("| | without | with | ratio |");
    println!("|---|---:|---:|---:|");
    for pair in inputs.short.iter().zip(&inputs.short_weighed) {
        row("first round", pair, word);
    }
    let worst = inputs.fewer.iter().zip(&inputs.fewer_weighed);
    let ratios = worst.filter_map(|pair| row("worst round", pair, word));
    let Some(largest) = ratios.reduce(f64::max) else {
        return;
    };
    let word = if largest <= MOST { "met" } else { "NOT MET" };
    println!(
        "\nThe largest ratio of worst rounds is {}; at most {MOST} is wanted: {word}.",
        ratio(largest)
    );
}
