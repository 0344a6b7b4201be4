//! Random searches by weights.

use crate::damage::damaged;
use crate::policies;
use crate::questions::made_policy;
use crate::random::Random;
use crate::weighted::{plain, Answer, Search, MOST_WEIGHT};

/// Weights: equal ones, many equal ones, all different, far apart, all large.
fn weights(random: &mut Random) -> [u8; 16] {
    let most = MOST_WEIGHT.into();
    let equal = random.range(0, most) as u8;
    let mut different: [u8; 16] = std::array::from_fn(|k| k as u8);
    random.shuffle(&mut different);
    match random.below(9) {
        0 => [equal; 16],
        1 => [0; 16],
        2 => std::array::from_fn(|_| random.range(0, 1) as u8),
        3 => std::array::from_fn(|_| random.range(0, 3) as u8),
        4 => std::array::from_fn(|_| random.range(0, 15) as u8),
        5 => different,
        6 => std::array::from_fn(|_| random.pick(&[0, 1, MOST_WEIGHT])),
        7 => std::array::from_fn(|_| random.range(200, most) as u8),
        _ => std::array::from_fn(|_| random.range(0, most) as u8),
    }
}

/// How many are searched: mostly few, since all subsets may have to be tried.
fn members(random: &mut Random) -> usize {
    match random.below(200) {
        0..=169 => random.range(1, 8),
        170..=194 => random.range(9, 11),
        _ => random.range(12, 16),
    }
}

fn unlimited(request: u16, shown: u16, within: u16, weights: [u8; 16]) -> Search {
    Search {
        request,
        shown,
        within,
        weights,
        limit: u32::MAX,
    }
}

/// A policy with several sets that unlock, of any sizes.
fn made(random: &mut Random) -> (Vec<u8>, Search) {
    let members = members(random);
    let sizes: Vec<usize> = (0..random.range(1, 5))
        .map(|_| random.range(1, members))
        .collect();
    let (policy, service, may_ask, shown) = made_policy(random, members, &sizes);
    let within = may_ask | random.credentials(shown);
    let search = unlimited(service, shown, within, weights(random));
    (policy, search)
}

/// Any policy, refused ones among them, and any request.
fn any(random: &mut Random) -> (Vec<u8>, Search) {
    let records = policies::talkative(random);
    let heads = records.iter().map(|record| u16::from(record.head));
    let services: Vec<u16> = heads.filter(|head| (16..63).contains(head)).collect();
    let request = match random.below(8) {
        0 => random.pick(&[0, 15, 16, 62, 63, 64, 272, 0xffff]),
        _ if services.is_empty() => 16,
        _ => random.pick(&services),
    };
    let policy = match random.below(12) {
        0 => damaged(random),
        _ => policies::encode(&records),
    };
    let count = members(random);
    let within = (0..count).fold(0, |set, _| set | 1 << random.below(16));
    let shown = random.word() & random.word() & random.word();
    let search = unlimited(request, shown, within, weights(random));
    (policy, search)
}

/// A policy, and a search without a limit.
pub fn draw(random: &mut Random) -> (Vec<u8>, Search) {
    if random.one_in(3) {
        any(random)
    } else {
        made(random)
    }
}

/// Limits around the place at which such a search ends, and others.
pub fn limits(random: &mut Random, policy: &[u8], search: &Search) -> Vec<u32> {
    let place = match plain::answer(policy, search) {
        Answer::Found { trials, .. } | Answer::Nothing { trials } => trials,
        _ => 0,
    };
    let other = random.below(2 * place as usize + 2) as u32;
    let fixed = random.pick(&[0, 1, 255, 256, 257, 65_534, 65_535, u32::MAX]);
    vec![place.saturating_sub(1), place, place + 1, other, fixed]
}
