//! Samples, medians and minima.

use crate::items::Item;
use std::hint::black_box;
use std::time::{Duration, Instant};

/// A sample lasts about this long, by as many calls as it takes.
const SAMPLE: Duration = Duration::from_micros(300);

/// Samples of short and of long calls.
const SHORT_SAMPLES: usize = 201;
const LONG_SAMPLES: usize = 21;

/// Median and minimum for each version, in seconds for one call; and the gate's time as a multiple of the others'.
pub struct Times {
    pub name: String,
    pub median: [f64; 3],
    pub least: [f64; 3],
    /// Medians of the ratios of samples taken one after the other.
    pub ratios: [f64; 2],
}

/// Seconds for one call, over so many calls.
fn sample(version: &dyn Fn() -> u64, calls: u32) -> f64 {
    let start = Instant::now();
    for _ in 0..calls {
        black_box(version());
    }
    start.elapsed().as_secs_f64() / f64::from(calls)
}

/// As many calls as make up a sample of the gate.
fn calibrate(version: &dyn Fn() -> u64) -> u32 {
    let mut calls = 1;
    while calls < 1 << 20 && sample(version, calls) * f64::from(calls) < SAMPLE.as_secs_f64() {
        calls *= 2;
    }
    calls
}

/// The three versions in turn, again and again: one row of samples each time.
fn samples(item: &Item) -> Vec<[f64; 3]> {
    let calls = calibrate(&*item.versions[0]);
    let rows = if calls == 1 {
        LONG_SAMPLES
    } else {
        SHORT_SAMPLES
    };
    let row = |_| std::array::from_fn(|k| sample(&*item.versions[k], calls));
    (0..rows).map(row).collect()
}

fn sorted(numbers: impl Iterator<Item = f64>) -> Vec<f64> {
    let mut numbers: Vec<f64> = numbers.collect();
    numbers.sort_by(f64::total_cmp);
    numbers
}

/// The middle one of some numbers.
pub fn median(numbers: impl Iterator<Item = f64>) -> f64 {
    let sorted = sorted(numbers);
    sorted[sorted.len() / 2]
}

/// The median time of one call of one version.
pub fn typical(version: &dyn Fn() -> u64) -> f64 {
    let calls = calibrate(version);
    median((0..LONG_SAMPLES).map(|_| sample(version, calls)))
}

pub fn measure(item: &Item) -> Result<Times, String> {
    let answers: Vec<u64> = item.versions.iter().map(|version| version()).collect();
    if answers.iter().any(|answer| *answer != answers[0]) {
        return Err(format!("{}: different answers {answers:x?}", item.name));
    }
    let rows = samples(item);
    let times = |k: usize| rows.iter().map(move |row| row[k]);
    let ratio = |k: usize| median(rows.iter().map(move |row| row[0] / row[k]));
    Ok(Times {
        name: item.name.clone(),
        median: std::array::from_fn(|k| median(times(k))),
        least: std::array::from_fn(|k| times(k).fold(f64::MAX, f64::min)),
        ratios: [ratio(1), ratio(2)],
    })
}

/// Medians of two versions, and the median of the second's time as a multiple of the first's.
pub struct Turns {
    pub first: f64,
    pub second: f64,
    pub ratio: f64,
}

/// Two versions in turn, again and again.
pub fn in_turn(first: &dyn Fn() -> u64, second: &dyn Fn() -> u64) -> Turns {
    let calls = calibrate(first);
    let row = |_| [sample(first, calls), sample(second, calls)];
    let rows: Vec<[f64; 2]> = (0..SHORT_SAMPLES).map(row).collect();
    Turns {
        first: median(rows.iter().map(|row| row[0])),
        second: median(rows.iter().map(|row| row[1])),
        ratio: median(rows.iter().map(|row| row[1] / row[0])),
    }
}
