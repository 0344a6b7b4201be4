//! Candidates as numbers: bit j of a number takes member j of a set, the lowest first; 256 numbers make a block.

/// The members of a set, each as a set of its own.
pub fn members(set: u16) -> Vec<u16> {
    (0..16)
        .map(|k| 1 << k)
        .filter(|one| set & one != 0)
        .collect()
}

/// The subset that a number stands for.
pub fn subset(number: u16, set: u16) -> u16 {
    let taken = members(set).into_iter().enumerate();
    taken
        .filter(|(j, _)| number >> j & 1 == 1)
        .fold(0, |subset, (_, one)| subset | one)
}

/// The number of a subset.
pub fn number(subset: u16, set: u16) -> u16 {
    let taken = members(set).into_iter().enumerate();
    taken
        .filter(|(_, one)| subset & one != 0)
        .fold(0, |number, (j, _)| number | 1 << j)
}

/// The block that a number is in.
pub fn block(number: u16) -> u16 {
    number >> 8
}

/// Where a block stands in the order of its cheapest candidate.
pub fn turn(block: u16) -> (u32, u16) {
    (block.count_ones(), block)
}
