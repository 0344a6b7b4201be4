//! Lists of rounds: opened, played by a client, and held to demand 3.

use crate::calls::{asked_of, ending_of, refusal_of, Call, Memory, DENY, GRANT};
use crate::clients::{manner, shows, Manner, Seen};
use crate::counts::Kind;
use crate::damage::damaged;
use crate::demands::{licensed, Played};
use crate::logs::compare_with;
use crate::plain::interface::decode;
use crate::plain::lists::{askable_count, asked, closes, lacked_count, shown_by, Accepted};
use crate::plain::log::log;
use crate::plain::policy::Record;
use crate::plain::session::Ending;
use crate::policies;
use crate::report::{hex, Trail};
use crate::requests::{credentials, request};
use crate::tester::Tester;
use crate::tuned;

/// A service for which a client who shows nothing is asked something, if a few tries find one.
fn request_with_question(tester: &mut Tester, records: &[Record]) -> u16 {
    let mut service = request(&mut tester.random, records);
    for _ in 0..4 {
        let accepted = tuned::check(tester.policy());
        let asks = accepted.is_ok_and(|all| !closes(tuned::ending(all, service, 0, 0)));
        if asks || tester.random.one_in(5) {
            break;
        }
        service = request(&mut tester.random, records);
    }
    service
}

/// How a round ended, read off the reply and the session that it left.
fn ending(reply: u32, session: [u8; 10]) -> Ending {
    match ending_of(reply) {
        GRANT => Ending::Grant,
        DENY => Ending::Deny,
        _ => Ending::Ask(asked_of(session)),
    }
}

/// A list as it is played: the accepted rounds, and how many there were in all.
struct List {
    request: u16,
    accepted: Vec<Accepted>,
    rounds: usize,
    memory: Memory,
    /// The records of its rounds.
    log: Vec<u8>,
}

impl List {
    fn seen(&self) -> Seen {
        Seen {
            round: self.rounds + 1,
            asked: self.accepted.last().map(asked),
            shown: shown_by(&self.accepted),
        }
    }

    fn closed(&self) -> bool {
        self.accepted.last().is_some_and(|last| closes(last.ending))
    }
}

/// Opens a session; nothing where the versions disagree.
fn open(tester: &mut Tester, request: u16) -> Option<List> {
    tester.trail = Some(Trail {
        request,
        shown: Vec::new(),
    });
    let before = tester.memory();
    let (_, memory) = tester.case(Kind::ListOpening, Call::Open(request), before)?;
    Some(List {
        request,
        accepted: Vec::new(),
        rounds: 0,
        memory,
        log: Vec::new(),
    })
}

/// One round more; false where the versions disagree.
fn play(tester: &mut Tester, list: &mut List, kind: Kind, p: u16) -> bool {
    if let Some(trail) = &mut tester.trail {
        trail.shown.push(p);
    }
    let Some((reply, memory)) = tester.round(kind, p, list.memory) else {
        return false;
    };
    list.rounds += 1;
    list.memory = memory;
    if refusal_of(reply) == 0 {
        let ending = ending(reply, memory.session());
        list.accepted.push(Accepted { p, ending });
    }
    match tester.log_record(p, reply, memory.session()) {
        Some(record) => list.log.extend(record),
        None => return false,
    }
    true
}

/// "Each accepted round gives its record": the whole log of a list, read off the list and its answers alone.
fn hold_to_log(tester: &mut Tester, list: &List) {
    let wanted = log(&list.accepted);
    tester.counts.logs.lists += 1;
    if list.log != wanted {
        let lines = [
            format!("request {}", list.request),
            format!("log: {}", hex(&list.log)),
            format!("of the list: {}", hex(&wanted)),
        ];
        tester.found_in("the log of a list", &lines);
    }
}

/// Plays a list under one policy until it is closed, and some rounds more, or breaks off before.
fn play_list(tester: &mut Tester, request: u16, kind: Kind, manner: Manner) -> Option<List> {
    let mut list = open(tester, request)?;
    let stop = if tester.random.one_in(10) {
        tester.random.below(4)
    } else {
        20
    };
    let mut after_close = tester.random.pick(&[0, 0, 0, 0, 0, 0, 1, 3]);
    while list.rounds < stop {
        if list.closed() {
            if after_close == 0 {
                break;
            }
            after_close -= 1;
        }
        let p = shows(&mut tester.random, manner, &list.seen());
        if !play(tester, &mut list, kind, p) {
            return None;
        }
    }
    Some(list)
}

/// Demand 3 of the list that was played.
fn hold_to_demands(tester: &mut Tester, list: &List, manner: Manner) {
    let Some(rules) = tester.rules() else {
        return;
    };
    let played = Played {
        policy: rules,
        bytes: tester.policy(),
        request: list.request,
        accepted: &list.accepted,
        rounds: list.rounds,
    };
    let mut broken = played.broken();
    let d = askable_count(rules);
    let mut licence = None;
    if let Manner::Cooperative { holding, first } = manner {
        if licensed(rules, list.request, holding, first) {
            licence = Some(lacked_count(rules, holding));
            broken.extend(played.broken_licence(holding));
        }
    }
    let count = decode(list.memory.session()).map(|session| usize::from(session.count));
    if count != Some(list.accepted.len()) {
        broken.push(format!("count {count:?}, accepted {}", list.accepted.len()));
    }
    count_list(tester, list, d, manner, licence);
    hold_to_log(tester, list);
    for clause in broken {
        let title = format!("demand 3: {clause}");
        tester.found(title, Call::Check, list.memory, Vec::new());
    }
}

/// Counts a list; the licence is u where the client has the premise.
fn count_list(tester: &mut Tester, list: &List, d: usize, manner: Manner, licence: Option<usize>) {
    let counts = &mut tester.counts;
    let accepted = list.accepted.len();
    let closed = if list.closed() { accepted } else { 0 };
    counts.lists[closed.min(17)] += 1;
    counts.lists_at_d_plus_1 += u64::from(closed == d + 1);
    counts.cooperative += u64::from(matches!(manner, Manner::Cooperative { .. }));
    let Some(u) = licence else {
        return;
    };
    let bound = closed == 2 + u;
    counts.licensed += 1;
    counts.licensed_lacking += u64::from(u > 0);
    counts.licensed_at_bound += u64::from(bound);
    counts.licensed_at_bound_lacking += u64::from(bound && u > 0);
}

/// Lists of clients of every manner under one accepted policy.
pub fn lists(tester: &mut Tester) {
    let records = if tester.random.one_in(2) {
        policies::talkative(&mut tester.random)
    } else {
        policies::accepted(&mut tester.random)
    };
    tester.set_policy(policies::encode(&records));
    let mut log = Vec::new();
    let mut request = request_with_question(tester, &records);
    for _ in 0..3 {
        if tester.random.one_in(2) {
            request = request_with_question(tester, &records);
        }
        let manner = manner(&mut tester.random);
        if let Some(list) = play_list(tester, request, Kind::ListClient, manner) {
            hold_to_demands(tester, &list, manner);
            compare_with(tester, &list.log, &log);
            log = list.log;
        }
        tester.trail = None;
    }
}

/// At most ten credentials, for their parts are all tried.
fn holding(tester: &mut Tester, records: &[Record]) -> u16 {
    let mut set = credentials(&mut tester.random, records);
    while set.count_ones() > 10 {
        set &= set - 1;
    }
    set
}

/// Lists of a client that cooperates.
pub fn cooperative_lists(tester: &mut Tester) {
    let (records, held) = if tester.random.one_in(4) {
        let records = policies::accepted(&mut tester.random);
        let held = holding(tester, &records);
        (records, held)
    } else {
        policies::licensed(&mut tester.random)
    };
    tester.set_policy(policies::encode(&records));
    for _ in 0..2 {
        let request = request(&mut tester.random, &records);
        let first = match tester.random.below(3) {
            0 => tester.random.credentials(held),
            _ => 0,
        };
        let manner = Manner::Cooperative {
            holding: held,
            first,
        };
        if let Some(list) = play_list(tester, request, Kind::ListCooperative, manner) {
            hold_to_demands(tester, &list, manner);
        }
        tester.trail = None;
    }
}

/// Another policy: the same with a record changed, another one, or a damaged one.
fn change_policy(tester: &mut Tester, records: &[Record]) {
    let mut fewer = records.to_vec();
    let policy = match tester.random.below(4) {
        0 if !fewer.is_empty() => {
            fewer.remove(tester.random.below(records.len()));
            policies::encode(&fewer)
        }
        0 | 1 => damaged(&mut tester.random),
        2 => policies::encode(&policies::accepted(&mut tester.random)),
        _ => policies::encode(records),
    };
    tester.set_policy(policy);
}

/// A list whose rounds come with different policies, refused ones among them.
pub fn changing_list(tester: &mut Tester) {
    let records = policies::talkative(&mut tester.random);
    tester.set_policy(policies::encode(&records));
    let request = request_with_question(tester, &records);
    let Some(mut list) = open(tester, request) else {
        return;
    };
    tester.trail = None;
    let manner = manner(&mut tester.random);
    for _ in 0..12 {
        if list.closed() && tester.random.one_in(2) {
            break;
        }
        if tester.random.one_in(2) {
            change_policy(tester, &records);
        }
        let p = shows(&mut tester.random, manner, &list.seen());
        if !play(tester, &mut list, Kind::ListChanging, p) {
            return;
        }
    }
    hold_to_log(tester, &list);
    tester.counts.changing += 1;
}
