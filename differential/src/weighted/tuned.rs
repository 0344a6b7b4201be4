//! The search by weights, as fast as we could make it with one candidate at a time.

use super::{Answer, Search};
use crate::plain::session::is_service;
use crate::tuned::order::{first_of, members};
use crate::tuned::{check, Access};

pub fn answer(policy: &[u8], search: &Search) -> Answer {
    let Ok(accepted) = check(policy) else {
        return Answer::Refused;
    };
    if !is_service(search.request) {
        return Answer::Refused;
    }
    let access = Access::new(&accepted);
    let opening = access.opening(search.request);
    let opens = |set: u16| opening.unlocks(search.shown | set);
    if opens(0) {
        return Answer::Found { trials: 0, set: 0 };
    }
    let members = members(&search.weights, search.within & !search.shown);
    let all = (1 << members.len()) - 1;
    let most = (search.limit as usize).min(all);
    match first_of(members, most, opens) {
        Some((place, set)) => Answer::Found {
            trials: place as u32,
            set,
        },
        None if most < all => Answer::Spent,
        None => Answer::Nothing { trials: all as u32 },
    }
}
