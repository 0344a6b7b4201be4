//! Searches by weights compared: the plain version against the others.

mod draw;

use crate::gate;
use crate::random::Random;
use crate::report::{hex, Shared};
use crate::weighted::counts::WeightedCounts;
use crate::weighted::slips::Slip;
use crate::weighted::{number, plain, tuned, Search};
use draw::{draw, limits};

/// A version that is compared: its name, and its reply.
type Version = (&'static str, fn(&[u8], &Search) -> u64);

fn tuned(policy: &[u8], search: &Search) -> u64 {
    number(tuned::answer(policy, search))
}

const VERSIONS: [Version; 2] = [("gate", gate::search), ("tuned", tuned)];

fn report(shared: &Shared, name: &str, policy: &[u8], search: &Search, replies: [u64; 2]) {
    let [wanted, reply] = replies;
    shared.tell(
        &format!("search by weights, {name} against plain version"),
        &[
            format!("policy.bin: {}", hex(policy)),
            format!("{search:?}"),
            format!("plain {wanted:012x}, {name} {reply:012x}"),
        ],
    );
}

/// So many searches, each with several limits.
pub fn weighted_runs(shared: &Shared, seed: u64, thread: u64, count: u64) -> WeightedCounts {
    let mut random = Random::new(seed, 2_000_000 + thread);
    let mut counts = WeightedCounts::default();
    while counts.searches < count && !shared.stopped() {
        let (policy, unlimited) = draw(&mut random);
        for limit in limits(&mut random, &policy, &unlimited) {
            let search = Search { limit, ..unlimited };
            let given = plain::answer(&policy, &search);
            counts.count(&policy, &search, given);
            let wanted = number(given);
            for (name, version) in VERSIONS {
                let reply = version(&policy, &search);
                if reply != wanted {
                    counts.disagreed += 1;
                    report(shared, name, &policy, &search, [wanted, reply]);
                }
            }
        }
    }
    counts
}

/// The search in which a wrong version is found out, if it is one of the first so many.
pub fn found_out(seed: u64, slip: Slip, count: u64) -> Option<u64> {
    let mut random = Random::new(seed, 2_000_000);
    let mut done = 0;
    while done < count {
        let (policy, unlimited) = draw(&mut random);
        for limit in limits(&mut random, &policy, &unlimited) {
            let search = Search { limit, ..unlimited };
            done += 1;
            if slip.answer(&policy, &search) != plain::answer(&policy, &search) {
                return Some(done);
            }
        }
    }
    None
}
