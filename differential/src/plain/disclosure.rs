//! The disclosable set and the askable credentials ("Disclosure").

use super::policy::Record;

/// "The disclosable set of shown credentials P is the least set that holds P and is closed under the disclosure rules."
pub fn disclosable(disclosure: &[Record], shown: u16) -> u16 {
    let mut set = u64::from(shown);
    loop {
        let before = set;
        for rule in disclosure {
            if rule.positive & !set == 0 {
                set |= 1 << rule.head;
            }
        }
        if set == before {
            return set as u16;
        }
    }
}

/// "A credential is askable if it heads some disclosure rule."
pub fn askable(disclosure: &[Record]) -> u16 {
    disclosure.iter().fold(0, |set, rule| set | 1 << rule.head)
}
