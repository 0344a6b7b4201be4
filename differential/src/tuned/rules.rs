//! Rules, parsed once, and what they give.

use super::check::{word, Accepted};

/// A rule whose head is a set of one atom.
#[derive(Clone, Copy)]
struct Rule {
    head: u64,
    positive: u64,
    negative: u64,
}

const NO_RULE: Rule = Rule {
    head: 0,
    positive: 0,
    negative: 0,
};

fn rule(bytes: &[u8; 18]) -> Rule {
    Rule {
        head: 1 << (bytes[1] & 63),
        positive: word(&bytes[2..10]),
        negative: word(&bytes[10..18]),
    }
}

/// What is kept is what the set lacks. This jumps, and does not choose between two values: a rule that does not apply, as most do
/// not, then leaves nothing for the next one to wait for.
#[inline(always)]
fn apply(rule: &Rule, lacks: u64) -> u64 {
    if rule.negative & !lacks | rule.positive & lacks == 0 {
        std::hint::black_box(());
        return lacks & !rule.head;
    }
    lacks
}

/// One pass over rules.
#[inline(always)]
fn pass(rules: &[Rule], mut lacks: u64) -> u64 {
    for rule in rules {
        lacks = apply(rule, lacks);
    }
    lacks
}

/// Passes over rules until one adds nothing.
#[inline(always)]
fn close(rules: &[Rule], mut lacks: u64) -> u64 {
    loop {
        let last = lacks;
        lacks = pass(rules, lacks);
        if lacks == last {
            return lacks;
        }
    }
}

/// Some rules one after the other. What their "not" reads is finished before; where they are in loops, they take several passes.
#[derive(Clone, Copy)]
struct Part {
    start: usize,
    end: usize,
    looped: bool,
}

/// Access rules sorted by level, in each level those in loops last; where each level's end.
pub struct Access {
    rules: Vec<Rule>,
    /// For each level, where those without loops and where those in loops end.
    ends: Vec<[usize; 2]>,
    levels: [u8; 64],
}

impl Access {
    /// A counting sort.
    pub fn new(accepted: &Accepted) -> Access {
        let levels = &accepted.levels;
        let place = |bytes: &[u8; 18]| {
            let head = bytes[1] & 63;
            2 * usize::from(levels.of[usize::from(head)]) + (levels.looped >> head & 1) as usize
        };
        let access = || accepted.records.iter().filter(|bytes| bytes[0] == 1);
        let mut starts = [0usize; 100];
        access().for_each(|bytes| starts[place(bytes) + 1] += 1);
        for k in 1..2 * levels.count + 1 {
            starts[k] += starts[k - 1];
        }
        let mut rules = vec![NO_RULE; starts[2 * levels.count]];
        let mut free = starts;
        for bytes in access() {
            let place = &mut free[place(bytes)];
            rules[*place] = rule(bytes);
            *place += 1;
        }
        let ends = (0..levels.count).map(|level| [starts[2 * level + 1], starts[2 * level + 2]]);
        Access {
            rules,
            ends: ends.collect(),
            levels: levels.of,
        }
    }

    /// The rules of levels from one up to, but without, another, in as few parts as can be.
    fn parts(&self, from: usize, to: usize) -> Vec<Part> {
        let mut parts: Vec<Part> = Vec::new();
        let mut start = match from {
            0 => 0,
            _ => self.ends[from - 1][1],
        };
        for (end, looped) in self.ends[from..to]
            .iter()
            .flat_map(|[plain, all]| [(*plain, false), (*all, true)])
        {
            match parts.last_mut() {
                _ if end == start => {}
                Some(last) if !last.looped && !looped => last.end = end,
                _ => parts.push(Part { start, end, looped }),
            }
            start = end;
        }
        parts
    }

    #[inline(always)]
    fn finish(&self, parts: &[Part], mut lacks: u64) -> u64 {
        for part in parts {
            let rules = &self.rules[part.start..part.end];
            lacks = match part.looped {
                true => close(rules, lacks),
                false => pass(rules, lacks),
            };
        }
        lacks
    }

    pub fn model(&self, credentials: u16) -> u64 {
        let parts = self.parts(0, self.ends.len());
        !self.finish(&parts, !u64::from(credentials))
    }

    /// The rules made ready for a service.
    pub fn opening(&self, service: u16) -> Opening<'_> {
        let own = usize::from(self.levels[usize::from(service & 63)]) + 1;
        Opening {
            access: self,
            service,
            first: self.parts(0, own),
            then: self.parts(own, self.ends.len()),
        }
    }
}

/// The parts up to the service's level, after which a set without the service is done with, and those above.
pub struct Opening<'a> {
    access: &'a Access,
    service: u16,
    first: Vec<Part>,
    then: Vec<Part>,
}

impl Opening<'_> {
    pub fn unlocks(&self, credentials: u16) -> bool {
        let lacks = self.access.finish(&self.first, !u64::from(credentials));
        if lacks >> self.service & 1 == 1 {
            return false;
        }
        self.access.finish(&self.then, lacks) >> 63 == 1
    }
}

/// Disclosure rules.
pub struct Disclosures(Vec<Rule>);

impl Disclosures {
    pub fn new(records: &[[u8; 18]]) -> Disclosures {
        let of_kind = records.iter().filter(|bytes| bytes[0] == 2);
        Disclosures(of_kind.map(rule).collect())
    }

    pub fn disclosable(&self, shown: u16) -> u16 {
        !close(&self.0, !u64::from(shown)) as u16
    }
}
