//! The tables that are printed, as docs/PERFORMANCE.md has them.

use crate::timing::Times;

/// A time with a unit, three digits.
pub fn time(seconds: f64) -> String {
    let (number, unit) = match seconds {
        s if s < 1e-6 => (s * 1e9, "ns"),
        s if s < 1e-3 => (s * 1e6, "µs"),
        s => (s * 1e3, "ms"),
    };
    let digits = usize::from(number < 100.0) + usize::from(number < 10.0);
    format!("{number:.digits$} {unit}")
}

/// A ratio with two digits after the point, or three where it is small.
pub fn ratio(number: f64) -> String {
    let digits = if number < 0.095 { 3 } else { 2 };
    format!("{number:.digits$}")
}

/// Medians and ratios of the last run.
pub fn medians(times: &[Times]) {
    println!("\nMedians:\n");
    println!("| | gate | plain | tuned | gate/plain | gate/tuned |");
    println!("|---|---:|---:|---:|---:|---:|");
    for item in times {
        let times = item.median.map(time).join(" | ");
        let ratios = item.ratios.map(ratio).join(" | ");
        println!("| {} | {times} | {ratios} |", item.name);
    }
}

/// The least and the largest of a ratio over all runs.
fn range(runs: &[Vec<Times>], row: usize, which: usize) -> String {
    let all = || runs.iter().map(|times| times[row].ratios[which]);
    let least = all().fold(f64::MAX, f64::min);
    let most = all().fold(0.0, f64::max);
    format!("{} to {}", ratio(least), ratio(most))
}

/// The range of both ratios over all runs, and the minima of the last.
pub fn ranges(runs: &[Vec<Times>]) {
    let Some(last) = runs.last() else {
        return;
    };
    println!(
        "\nRatios over {} runs, and minima of the last:\n",
        runs.len()
    );
    println!("| | gate/plain | gate/tuned | gate, minimum | plain, minimum | tuned, minimum |");
    println!("|---|---:|---:|---:|---:|---:|");
    for (row, item) in last.iter().enumerate() {
        let ratios = [range(runs, row, 0), range(runs, row, 1)].join(" | ");
        let least = item.least.map(time).join(" | ");
        println!("| {} | {ratios} | {least} |", item.name);
    }
}
