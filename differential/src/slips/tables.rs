//! Slips in tables: which slot is meant, what stands in it, an owner's count, the order of refusals, and what is written.

use super::names::{Slip, Slipped};
use crate::calls::{Memory, Operation};
use crate::plain::interface::decode;
use crate::plain::policy::Refusal;
use crate::plain::session::{sound, Phase};

pub(super) type Bytes = [u8; 12];

/// What stands in a slot.
#[derive(Clone, Copy, PartialEq, Eq)]
pub(super) enum State {
    Empty,
    Fresh,
    Waiting,
    Closed,
    NoSlot,
}

/// Writes a slot, as far as the table goes.
pub(super) fn put(table: &mut [u8], slot: usize, bytes: Bytes) {
    let first = slot.saturating_mul(12).min(table.len());
    for (to, from) in table[first..].iter_mut().zip(bytes) {
        *to = from;
    }
}

fn session(bytes: Bytes) -> [u8; 10] {
    bytes[2..].try_into().expect("ten bytes")
}

/// What an opening names, beside the table.
struct Opening {
    slot: usize,
    owner: u8,
    request: u16,
}

impl Slipped {
    /// The slot that a number is taken for.
    pub(super) fn number(&self, slot: usize) -> usize {
        match self.0 {
            Slip::SlotSixBits => slot % 64,
            Slip::SlotByte => slot % 256,
            Slip::SlotWord => slot as u32 as usize,
            Slip::SlotWraps => slot.wrapping_mul(12) / 12,
            _ => slot,
        }
    }

    pub(super) fn slots(&self, table: &[u8]) -> usize {
        match self.0 {
            Slip::TailSlot => table.len().div_ceil(12),
            _ => table.len() / 12,
        }
    }

    /// The bytes of a slot, zeros where the table has ended.
    pub(super) fn get(&self, table: &[u8], slot: usize) -> Bytes {
        let mut bytes = [0; 12];
        if slot < self.slots(table) {
            for (to, from) in bytes.iter_mut().zip(&table[12 * slot..]) {
                *to = *from;
            }
        }
        bytes
    }

    /// Whether 14 applies.
    pub(super) fn outside(&self, table: &[u8], slot: usize) -> bool {
        let most = match self.0 {
            Slip::SlotSixtyFour => 64,
            Slip::SlotSixtyThree => 62,
            Slip::SlotUnbounded => usize::MAX,
            _ => 63,
        };
        slot >= self.slots(table) || slot > most
    }

    pub(super) fn state(&self, bytes: Bytes) -> State {
        let held = match bytes[1] {
            0 if self.is(Slip::HeldAlone) || bytes == [0; 12] => return State::Empty,
            2.. if self.is(Slip::HeldTwo) => true,
            byte => byte == 1,
        };
        match decode(session(bytes)).filter(|_| held) {
            Some(session) => match session.phase {
                Phase::Fresh => State::Fresh,
                Phase::Waiting(_) => State::Waiting,
                Phase::Closed(_) => State::Closed,
            },
            None => State::NoSlot,
        }
    }

    /// Whether a slot counts against an owner; the one that is to be taken is told.
    fn counts(&self, bytes: Bytes, owner: u8, taken: bool) -> bool {
        let its = bytes[0] == owner || self.is(Slip::AnyOwner);
        let unsound = decode(session(bytes)).is_some_and(|session| !sound(&session));
        let left_out = self.is(Slip::UnsoundUncounted) && unsound;
        let nobody = self.is(Slip::OwnerZero) && owner == 0;
        let counted = match self.state(bytes) {
            State::Empty => false,
            State::Fresh => !left_out && !self.is(Slip::FreshUncounted),
            State::Waiting => !left_out && !self.is(Slip::WaitingUncounted),
            State::Closed => self.is(Slip::ClosedCounted) || self.is(Slip::TakenCounted) && taken,
            State::NoSlot => self.is(Slip::NoSlotCounted),
        };
        its && counted && !nobody
    }

    /// How many sessions count against the owner of an opening.
    fn count(&self, table: &[u8], opening: &Opening) -> usize {
        let all = self.slots(table);
        let most = all.min(64);
        let (first, end) = match self.0 {
            Slip::PastCounted => (0, all),
            Slip::FirstUncounted => (1, most),
            Slip::LastUncounted => (0, most.saturating_sub(1)),
            Slip::CountUpTo => (0, opening.slot.min(most)),
            _ => (0, most),
        };
        let slots = (first..end).map(|k| (k, self.get(table, k)));
        let goes_on =
            |bytes: Bytes| !self.is(Slip::StopsAtEmpty) || self.state(bytes) != State::Empty;
        slots
            .take_while(|(_, bytes)| goes_on(*bytes))
            .filter(|(k, bytes)| self.counts(*bytes, opening.owner, *k == opening.slot))
            .count()
    }

    /// Whether a slot that is not empty is refused 15.
    fn occupied(&self, bytes: Bytes, owner: u8) -> bool {
        match self.state(bytes) {
            State::Empty => false,
            State::Fresh => !self.is(Slip::FreshTaken),
            State::Waiting => !self.is(Slip::WaitingTaken),
            State::Closed => match self.0 {
                Slip::ClosedKept => true,
                Slip::ClosedOfAnother => bytes[0] != owner,
                _ => false,
            },
            State::NoSlot => self.is(Slip::NoSlotFifteen),
        }
    }

    /// Whether a refusal applies to an opening.
    fn applies(&self, number: u8, table: &[u8], opening: &Opening) -> bool {
        let bytes = self.get(table, opening.slot);
        let limit = match self.0 {
            Slip::LimitThree => 3,
            Slip::LimitFive => 5,
            _ => 4,
        };
        match number {
            7 => !(16..63).contains(&opening.request),
            14 => self.outside(table, opening.slot),
            8 => self.state(bytes) == State::NoSlot && !self.is(Slip::NoSlotTaken),
            15 => self.occupied(bytes, opening.owner),
            _ => self.count(table, opening) >= limit,
        }
    }

    /// The refusals of an opening, in the order in which they are tested.
    fn order(&self) -> [u8; 5] {
        match self.0 {
            Slip::SixteenFirst => [7, 14, 8, 16, 15],
            Slip::FifteenFirst => [7, 15, 14, 8, 16],
            Slip::FourteenFirst => [14, 7, 8, 15, 16],
            Slip::NoSlotFirst => [8, 7, 14, 15, 16],
            Slip::NoSlotLast => [7, 14, 15, 16, 8],
            Slip::NoSlotFifteen => [7, 14, 15, 8, 16],
            _ => [7, 14, 8, 15, 16],
        }
    }

    /// What an opening writes into a slot that had these bytes.
    fn opened(&self, before: Bytes, opening: &Opening) -> Bytes {
        let [low, high] = opening.request.to_le_bytes();
        let mut bytes = [opening.owner, 1, low, high, 0, 0, 0, 0, 0, 0, 0, 0];
        if before[1] == 1 {
            match self.0 {
                Slip::OwnerKept => bytes[0] = before[0],
                Slip::ShownKept => bytes[4..6].copy_from_slice(&before[4..6]),
                _ => {}
            }
        }
        bytes
    }

    fn open_at(&self, policy: &[u8], table: &mut [u8], o: &Opening) -> Result<u32, Refusal> {
        if self.is(Slip::OpeningTested) {
            self.check(policy)?;
        }
        let mut order = self.order().into_iter();
        if let Some(number) = order.find(|number| self.applies(*number, table, o)) {
            if self.is(Slip::OpeningResets) && number == 16 {
                put(table, o.slot, [0; 12]);
            }
            let record = self.is(Slip::SlotInReply) && number > 13;
            return Err(Refusal {
                number,
                record: record.then_some(o.slot as u8),
            });
        }
        let before = self.get(table, o.slot);
        put(table, o.slot, self.opened(before, o));
        let end = 12 * self.slots(table);
        match self.0 {
            Slip::NextOwner if 12 * o.slot + 12 < end => table[12 * o.slot + 12] = o.owner,
            Slip::TailCleared => table[end..].fill(0),
            _ => {}
        }
        Ok(0)
    }

    /// The refusal of a round by what stands in its slot.
    fn unplayable(&self, state: State) -> Option<u8> {
        match state {
            State::Empty => Some(match self.0 {
                Slip::EmptyAsNine => 9,
                Slip::EmptyAsSeven => 7,
                _ => 8,
            }),
            State::NoSlot => Some(match self.0 {
                Slip::NoSlotNine => 9,
                _ => 8,
            }),
            _ => None,
        }
    }

    /// The slot in which a round is played.
    fn played(&self, table: &[u8], slot: usize) -> usize {
        let owner = self.get(table, slot)[0];
        let unfinished = |k: &usize| {
            let bytes = self.get(table, *k);
            let open = [State::Fresh, State::Waiting].contains(&self.state(bytes));
            open && bytes[0] == owner
        };
        let first = (0..=slot).find(unfinished);
        first.filter(|_| self.is(Slip::OwnersFirst)).unwrap_or(slot)
    }

    pub(super) fn round_at(
        &self,
        policy: &[u8],
        table: &mut [u8],
        n: usize,
        p: u16,
    ) -> Result<u32, Refusal> {
        let refuse = |number| Err(Refusal::without_record(number));
        let outside = self.outside(table, n);
        let turned_away = match outside {
            true if self.is(Slip::PastEmpty) => Some(8),
            true => Some(14),
            false => self.unplayable(self.state(self.get(table, n))),
        };
        let early = match self.0 {
            Slip::FourteenEarly => outside,
            Slip::EmptyEarly => !outside,
            _ => false,
        };
        match turned_away {
            Some(number) if early => return refuse(number),
            _ => self.check(policy)?,
        };
        if let Some(number) = turned_away {
            return refuse(number);
        }
        self.play(policy, table, self.played(table, n), p)
    }

    /// The round of a slot's session.
    fn play(&self, policy: &[u8], table: &mut [u8], n: usize, p: u16) -> Result<u32, Refusal> {
        let mut bytes = self.get(table, n);
        let mut memory = Memory([0; 32]);
        memory.set_session(session(bytes));
        let reply = self.call_round(policy, p, &mut memory);
        if reply.is_err() && self.is(Slip::RoundResets) {
            put(table, n, [0; 12]);
        }
        let reply = reply?;
        bytes[2..].copy_from_slice(&memory.session());
        if self.is(Slip::OwnerForgotten) {
            bytes[0] = 0;
        }
        put(table, n, bytes);
        if self.is(Slip::NextSession) && n + 1 < self.slots(table) {
            put(table, n + 1, bytes);
        }
        Ok(reply)
    }

    pub(super) fn at(
        &self,
        operation: Operation,
        policy: &[u8],
        table: &mut [u8],
    ) -> Result<u32, Refusal> {
        let slot = self.number(operation.slot());
        match operation {
            Operation::Open { owner, request, .. } => {
                let opening = Opening {
                    slot,
                    owner,
                    request,
                };
                self.open_at(policy, table, &opening)
            }
            Operation::Round { p, .. } => self.round_at(policy, table, slot, p),
        }
    }
}
