//! The gate itself, through its C interface. The only file with unsafe code.

use crate::calls::{Call, Memory, Operation, Preview, Version, PLACE};
use crate::weighted::Search;

#[link(name = "capi", kind = "static")]
extern "C" {
    fn gate_check(policy: *const u8, length: usize) -> u32;
    fn gate_model(policy: *const u8, length: usize, credentials: u16, set: *mut u64) -> u32;
    fn gate_disclosable(policy: *const u8, length: usize, shown: u16, set: *mut u16) -> u32;
    fn gate_open(request: u16, session: *mut u8) -> u32;
    fn gate_round(policy: *const u8, length: usize, session: *mut u8, shown: u16) -> u32;
    fn gate_log_record(shown: u16, reply: u32, session: *const u8, record: *mut u8) -> usize;
    fn gate_compare_logs(
        first: *const u8,
        first_length: usize,
        second: *const u8,
        second_length: usize,
        record: *mut usize,
    ) -> u32;
    fn gate_open_at(slots: *mut u8, bytes: usize, slot: usize, owner: u8, request: u16) -> u32;
    fn gate_round_at(
        policy: *const u8,
        length: usize,
        slots: *mut u8,
        bytes: usize,
        slot: usize,
        shown: u16,
    ) -> u32;
    fn gate_preview_at(
        policy: *const u8,
        length: usize,
        slots: *const u8,
        bytes: usize,
        slot: usize,
        shown: u16,
        preview: *mut u8,
    ) -> u32;
}

#[link(name = "probe", kind = "static")]
extern "C" {
    fn probe_search(
        policy: *const u8,
        length: usize,
        request: u16,
        shown: u16,
        within: u16,
        weights: *const [u8; 16],
        limit: u32,
    ) -> u64;
}

/// The gate as a version to be called. Sessions and previews are lent at every alignment in turn.
#[derive(Default)]
pub struct Gate {
    shift: usize,
}

/// Calls with the memory moved by so many bytes, and moves it back.
fn shifted(shift: usize, memory: &mut Memory, call: impl FnOnce(*mut u8) -> u32) -> u32 {
    let mut moved = [0; 40];
    moved[shift..shift + 32].copy_from_slice(&memory.0);
    let reply = call(moved[shift + PLACE..].as_mut_ptr());
    memory.0.copy_from_slice(&moved[shift..shift + 32]);
    reply
}

impl Version for Gate {
    fn call(&mut self, call: Call, policy: &mut [u8], memory: &mut Memory) -> u32 {
        self.shift = (self.shift + 1) % 64;
        let shift = match call {
            Call::Open(_) | Call::Round(_) => self.shift % 8,
            _ => return call_set(call, policy, memory),
        };
        let (bytes, length) = (policy.as_mut_ptr().cast_const(), policy.len());
        // SAFETY: the policy's pointer is valid for its length; the session's has 24 bytes after it, in memory of its own.
        shifted(shift, memory, |place| unsafe {
            match call {
                Call::Open(request) => gate_open(request, place),
                _ => gate_round(bytes, length, place, call.argument()),
            }
        })
    }

    fn log_record(&mut self, p: u16, reply: u32, session: &mut Memory, memory: &mut Memory) -> u32 {
        self.shift = (self.shift + 1) % 64;
        let (one, other) = (self.shift % 8, self.shift / 8);
        // SAFETY: both pointers have 24 bytes after them, each in memory of its own.
        shifted(one, session, |session| {
            shifted(other, memory, |place| unsafe {
                u32::try_from(gate_log_record(p, reply, session, place)).unwrap_or(u32::MAX)
            })
        })
    }

    fn compare_logs(&mut self, first: &mut [u8], second: &mut [u8], memory: &mut Memory) -> u32 {
        let place = memory.0[PLACE..].as_mut_ptr().cast();
        let (one, other) = (first.as_mut_ptr(), second.as_mut_ptr());
        // SAFETY: each log's pointer is valid for its length; the place is aligned to 8 and has 24 bytes after it; the three are
        // borrowed mutably and so do not overlap.
        unsafe { gate_compare_logs(one, first.len(), other, second.len(), place) }
    }

    fn operate(&mut self, operation: Operation, policy: &mut [u8], table: &mut [u8]) -> u32 {
        operate(operation, policy, table)
    }

    fn preview(
        &mut self,
        preview: Preview,
        policy: &mut [u8],
        table: &mut [u8],
        memory: &mut Memory,
    ) -> u32 {
        self.shift = (self.shift + 1) % 64;
        let (bytes, length) = (policy.as_mut_ptr().cast_const(), policy.len());
        let (slots, size) = (table.as_mut_ptr().cast_const(), table.len());
        let Preview { slot, p } = preview;
        // SAFETY: the policy's pointer is valid for its length, the table's for its own; the preview's has 24 bytes after it, in
        // memory of its own.
        shifted(self.shift % 8, memory, |place| unsafe {
            gate_preview_at(bytes, length, slots, size, slot, p, place)
        })
    }
}

/// An opening or a round at a slot: the reply, the table changed in place.
pub fn operate(operation: Operation, policy: &[u8], table: &mut [u8]) -> u32 {
    let (bytes, length) = (policy.as_ptr(), policy.len());
    let (slots, size) = (table.as_mut_ptr(), table.len());
    // SAFETY: the policy's pointer is valid for its length, the table's for its own; the table is borrowed mutably, so that the
    // two do not overlap.
    unsafe {
        match operation {
            Operation::Open {
                slot,
                owner,
                request,
            } => gate_open_at(slots, size, slot, owner, request),
            Operation::Round { slot, p } => gate_round_at(bytes, length, slots, size, slot, p),
        }
    }
}

/// A preview of a round at a slot: the reply, and the slot that it gives.
pub fn preview(preview: Preview, policy: &[u8], table: &[u8]) -> (u32, [u8; 12]) {
    let Preview { slot, p } = preview;
    let mut given = [0; 12];
    let (bytes, length) = (policy.as_ptr(), policy.len());
    let (slots, size) = (table.as_ptr(), table.len());
    // SAFETY: the policy's pointer is valid for its length, the table's for its own, and the preview's for twelve bytes of its own.
    let reply = unsafe { gate_preview_at(bytes, length, slots, size, slot, p, given.as_mut_ptr()) };
    (reply, given)
}

/// The calls that write a set or nothing.
fn call_set(call: Call, policy: &mut [u8], memory: &mut Memory) -> u32 {
    let (bytes, length) = (policy.as_mut_ptr().cast_const(), policy.len());
    let place = memory.0[PLACE..].as_mut_ptr();
    // SAFETY: the policy's pointer is valid for its length; the place is aligned to 8 and has 24 bytes after it; the two are
    // borrowed mutably and so do not overlap.
    unsafe {
        match call {
            Call::Model(credentials) => gate_model(bytes, length, credentials, place.cast()),
            Call::Disclosable(shown) => gate_disclosable(bytes, length, shown, place.cast()),
            _ => gate_check(bytes, length),
        }
    }
}

/// The policy's test alone.
pub fn check(policy: &[u8]) -> u32 {
    // SAFETY: the pointer is valid for the length.
    unsafe { gate_check(policy.as_ptr(), policy.len()) }
}

/// The model and the reply.
pub fn model(policy: &[u8], credentials: u16) -> (u32, u64) {
    let mut set = 0;
    // SAFETY: both pointers are valid, and do not overlap.
    let reply = unsafe { gate_model(policy.as_ptr(), policy.len(), credentials, &mut set) };
    (reply, set)
}

/// The disclosable set and the reply.
pub fn disclosable(policy: &[u8], shown: u16) -> (u32, u16) {
    let mut set = 0;
    // SAFETY: both pointers are valid, and do not overlap.
    let reply = unsafe { gate_disclosable(policy.as_ptr(), policy.len(), shown, &mut set) };
    (reply, set)
}

/// A round: the reply, the session changed in place.
pub fn round(policy: &[u8], session: &mut [u8; 10], shown: u16) -> u32 {
    // SAFETY: both pointers are valid, the session for ten bytes, and do not overlap.
    unsafe { gate_round(policy.as_ptr(), policy.len(), session.as_mut_ptr(), shown) }
}

/// The weights of the members of a set, the lowest first, as the library takes them.
fn of_members(weights: &[u8; 16], set: u16) -> [u8; 16] {
    let mut members = [0; 16];
    let credentials = (0..16).filter(|k| set >> k & 1 == 1);
    for (member, k) in credentials.enumerate() {
        members[member] = weights[k];
    }
    members
}

/// A search by weights against a limit: the reply.
pub fn search(policy: &[u8], search: &Search) -> u64 {
    let weights = of_members(&search.weights, search.within & !search.shown);
    // SAFETY: the policy's pointer is valid for its length, and that to the weights for sixteen bytes.
    unsafe {
        probe_search(
            policy.as_ptr(),
            policy.len(),
            search.request,
            search.shown,
            search.within,
            &weights,
            search.limit,
        )
    }
}
