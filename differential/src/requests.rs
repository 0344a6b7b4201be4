//! Requests and credentials, drawn for a policy.

use crate::plain::policy::Record;
use crate::random::Random;

/// The services that a policy has rules for.
fn services(records: &[Record]) -> Vec<u16> {
    let heads = records.iter().map(|record| u16::from(record.head));
    heads.filter(|head| (16..63).contains(head)).collect()
}

/// The credentials that a policy speaks of.
pub fn named(records: &[Record]) -> u16 {
    records.iter().fold(0, |set, record| {
        let head = if record.head < 16 {
            1 << record.head
        } else {
            0
        };
        set | head | record.positive as u16 | record.negative as u16
    })
}

/// A service of the policy's, mostly.
pub fn request(random: &mut Random, records: &[Record]) -> u16 {
    let services = services(records);
    if services.is_empty() || random.one_in(12) {
        random.range(16, 62) as u16
    } else {
        random.pick(&services)
    }
}

/// Credentials of the policy's, or any.
pub fn credentials(random: &mut Random, records: &[Record]) -> u16 {
    if random.one_in(5) {
        random.word()
    } else {
        random.credentials(named(records))
    }
}
