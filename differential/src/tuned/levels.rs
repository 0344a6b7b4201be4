//! Levels: heads whose bodies are settled are taken off again and again; what is left stands in loops or above them, and only of
//! that is a closure made.

use super::check::word;

/// The level of each head, from 1 on, and those in loops. Every atom of a body is on a lower level, or in a loop with the head.
#[derive(Clone, Copy)]
pub struct Levels {
    pub of: [u8; 64],
    pub looped: u64,
    /// One more than the highest.
    pub count: usize,
}

/// The atoms of a set.
fn each(mut set: u64) -> impl Iterator<Item = usize> {
    std::iter::from_fn(move || {
        let atom = set.trailing_zeros() as usize;
        (set != 0).then(|| {
            set &= set - 1;
            atom
        })
    })
}

/// What the rules for each head have in their bodies, the head itself aside.
struct Bodies {
    heads: u64,
    all: [u64; 64],
    negated: [u64; 64],
}

/// Nothing where a rule negates its own head.
fn bodies(records: &[[u8; 18]]) -> Option<Bodies> {
    let mut bodies = Bodies {
        heads: 0,
        all: [0; 64],
        negated: [0; 64],
    };
    let mut own = 0;
    for bytes in records.iter().filter(|bytes| bytes[0] == 1) {
        let head = usize::from(bytes[1] & 63);
        let negated = word(&bytes[10..18]);
        bodies.heads |= 1 << head;
        bodies.all[head] |= (word(&bytes[2..10]) | negated) & !(1 << head);
        bodies.negated[head] |= negated;
        own |= negated >> head & 1;
    }
    (own == 0).then_some(bodies)
}

/// Takes off what stands on no other that is left, `on` saying what each stands on; those in one loop come off together.
fn take_off(levels: &mut Levels, mut left: u64, on: &[u64; 64]) -> u64 {
    loop {
        let ready = each(left).filter(|head| on[*head] & left == 0);
        let ready = ready.fold(0, |set, head| set | 1 << head);
        if ready == 0 {
            return left;
        }
        each(ready).for_each(|head| levels.of[head] = levels.count as u8);
        levels.count += 1;
        left &= !ready;
    }
}

/// What each of those left depends on among them, by Warshall's way.
fn closure(all: &[u64; 64], left: u64) -> [u64; 64] {
    let mut below = all.map(|body| body & left);
    for middle in each(left) {
        let through = below[middle];
        for set in &mut below[16..] {
            *set |= through & (*set >> middle & 1).wrapping_neg();
        }
    }
    below
}

/// The rest, with loops in it; nothing where a loop has a "not".
fn looped(levels: &mut Levels, bodies: &Bodies, left: u64) -> Option<()> {
    let mut below = closure(&bodies.all, left);
    let mut rest = left;
    while rest != 0 {
        let first = rest.trailing_zeros() as usize;
        let mutual = each(below[first]).filter(|atom| below[*atom] >> first & 1 == 1);
        let own = mutual.fold(0, |set, atom| set | 1 << atom);
        levels.looped |= own;
        for head in each(own) {
            if bodies.negated[head] & own != 0 {
                return None;
            }
            below[head] &= !own;
        }
        rest &= !(own | 1 << first);
    }
    take_off(levels, left, &below);
    Some(())
}

/// Levels, if there are any.
pub fn levels(records: &[[u8; 18]]) -> Option<Levels> {
    let bodies = bodies(records)?;
    let mut levels = Levels {
        of: [0; 64],
        looped: 0,
        count: 1,
    };
    let left = take_off(&mut levels, bodies.heads, &bodies.all);
    if left != 0 {
        looped(&mut levels, &bodies, left)?;
    }
    Some(levels)
}
