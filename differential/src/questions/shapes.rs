//! Which candidates are to unlock, as numbers, so that the preferred one has a given size.

use crate::candidates::block;
use crate::random::Random;

/// How the sets that unlock lie to each other.
#[derive(Clone, Copy, PartialEq, Eq, Debug)]
pub enum Shape {
    /// One set.
    Lone,
    /// Several of the same size.
    Ties,
    /// One set, and larger ones in cheaper blocks.
    Larger,
    /// Two of the same size, the smaller number in the dearer block.
    Across,
    /// The same, the smaller number the cheapest of its block.
    Cheapest,
    /// One in the last block, and another as large.
    LastBlock,
}

pub const SHAPES: [Shape; 6] = [
    Shape::Lone,
    Shape::Ties,
    Shape::Larger,
    Shape::Across,
    Shape::Cheapest,
    Shape::LastBlock,
];

/// So many ones among bits from the first up to, but without, the last.
fn ones(random: &mut Random, count: usize, first: usize, last: usize) -> u16 {
    let mut bits: Vec<usize> = (first..last).collect();
    random.shuffle(&mut bits);
    bits.iter()
        .take(count)
        .fold(0, |number, bit| number | 1 << bit)
}

fn ties(random: &mut Random, members: usize, size: usize) -> Vec<u16> {
    let count = random.range(2, 4);
    (0..count).map(|_| ones(random, size, 0, members)).collect()
}

fn larger(random: &mut Random, members: usize, size: usize) -> Vec<u16> {
    let mut numbers = vec![ones(random, size, 0, members)];
    let low = members.min(8);
    if size < low {
        let more = random.range(size + 1, low);
        numbers.push(ones(random, more, 0, low));
    }
    if size < members {
        let more = random.range(size + 1, members);
        numbers.push(ones(random, more, 0, members));
    }
    numbers
}

fn across(random: &mut Random, members: usize, size: usize) -> Vec<u16> {
    for _ in 0..200 {
        let (a, b) = (
            ones(random, size, 0, members),
            ones(random, size, 0, members),
        );
        if a < b && block(a).count_ones() > block(b).count_ones() {
            return vec![a, b];
        }
    }
    ties(random, members, size)
}

/// High members alone, without the highest, beside the highest with low ones.
fn cheapest(random: &mut Random, members: usize, size: usize) -> Vec<u16> {
    if !(2..=9).contains(&size) || members < size + 9 {
        return across(random, members, size);
    }
    let first = ones(random, size, 8, members - 1);
    let second = 1 << (members - 1) | ones(random, size - 1, 0, 8);
    vec![first, second]
}

fn last_block(random: &mut Random, members: usize, size: usize) -> Vec<u16> {
    if members <= 8 || size + 8 < members {
        return ties(random, members, size);
    }
    let high = ones(random, members, 8, members);
    let lane = ones(random, size - (members - 8), 0, 8);
    vec![high | lane, ones(random, size, 0, members)]
}

/// The numbers below two to the power of the members that are to unlock: some have as many ones as the size, none has fewer.
pub fn wanted(random: &mut Random, shape: Shape, members: usize, size: usize) -> Vec<u16> {
    match shape {
        Shape::Lone => vec![ones(random, size, 0, members)],
        Shape::Ties => ties(random, members, size),
        Shape::Larger => larger(random, members, size),
        Shape::Across => across(random, members, size),
        Shape::Cheapest => cheapest(random, members, size),
        Shape::LastBlock => last_block(random, members, size),
    }
}
