//! Levels (document 02, R-4, "Owners number atoms freely").

use super::policy::{atoms, Record};

/// The access rules of each level, the lowest level first.
pub type Levels = Vec<Vec<Record>>;

/// What each atom depends on, itself among it: from a head to the atoms of its rules' bodies, in any number of steps. First in one
/// step; then, for one head after the other, also in steps that lead through it.
pub fn below(access: &[Record]) -> [u64; 64] {
    let mut below: [u64; 64] = std::array::from_fn(|atom| 1 << atom);
    let mut heads = 0;
    for rule in access {
        below[usize::from(rule.head)] |= rule.positive | rule.negative;
        heads |= 1 << rule.head;
    }
    for through in atoms(heads) {
        let further = below[usize::from(through)];
        for head in atoms(heads) {
            if below[usize::from(head)] >> through & 1 == 1 {
                below[usize::from(head)] |= further;
            }
        }
    }
    below
}

/// "no choice of a whole number as each atom's level gives each access head at least its positive atoms' level and more than its
/// negated atoms' level": what is below an atom is on its level or lower, and here a negated atom has its rule's head below it.
fn impossible(access: &[Record], below: &[u64; 64]) -> bool {
    access
        .iter()
        .any(|rule| atoms(rule.negative).any(|atom| below[usize::from(atom)] >> rule.head & 1 == 1))
}

/// A choice of levels, if there is one: as an atom's level the number of those below it. A body's atom has none below it that the
/// head has not, and a negated one lacks the head itself.
pub fn choice(access: &[Record]) -> Option<[u32; 64]> {
    let below = below(access);
    (!impossible(access, &below)).then(|| below.map(u64::count_ones))
}

/// The rules by the level of their heads.
pub fn levels(access: &[Record]) -> Option<Levels> {
    let choice = choice(access)?;
    let level = |rule: &Record| choice[usize::from(rule.head)];
    let mut rules = access.to_vec();
    rules.sort_by_key(level);
    let same = rules.chunk_by(|one, other| level(one) == level(other));
    Some(same.map(<[Record]>::to_vec).collect())
}
