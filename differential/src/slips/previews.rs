//! Slips in previews: of which round, where a session is given, what is written of it, and a table that is not left.

use super::names::{Slip, Slipped};
use super::tables::{put, Bytes, State};
use crate::calls::{Memory, Preview, PLACE};
use crate::plain::interface::ending_reply;
use crate::plain::policy::Refusal;
use crate::plain::session::Ending;

type Answer = Result<u32, Refusal>;

impl Slipped {
    /// Slips of rounds at a slot that are in previews alone.
    fn in_round(&self) -> Slipped {
        Slipped(match self.0 {
            Slip::PreviewSixtyFour => Slip::SlotSixtyFour,
            Slip::PreviewSixtyThree => Slip::SlotSixtyThree,
            Slip::PreviewFourteenEarly => Slip::FourteenEarly,
            Slip::PreviewEmptyEarly => Slip::EmptyEarly,
            other => other,
        })
    }

    /// The slot and the set that a preview is taken to be of.
    fn meant(&self, preview: Preview, table: &[u8]) -> (usize, u16) {
        let slot = self.number(preview.slot);
        let inside = slot < self.slots(table);
        match self.0 {
            Slip::PreviewNext if slot < 63 && slot + 1 < self.slots(table) => (slot + 1, preview.p),
            Slip::PreviewFirst if inside => (0, preview.p),
            Slip::PreviewNothing => (slot, 0),
            _ => (slot, preview.p),
        }
    }

    /// The round on a copy of the table.
    fn copied(&self, policy: &[u8], copy: &mut [u8], slot: usize, p: u16) -> Answer {
        let policy = match self.check(policy) {
            Err(_) if self.is(Slip::PreviewUntested) => &[],
            _ => policy,
        };
        self.in_round().round_at(policy, copy, slot, p)
    }

    /// Whether a session is withheld that should be given.
    fn withheld(&self, policy: &[u8], answer: &Answer) -> bool {
        let refused = self.check(policy).is_err();
        match (self.0, answer) {
            (Slip::PreviewPolicyNone, _) => refused,
            (Slip::PreviewClosedNone, Err(refusal)) => refusal.number == 9,
            (Slip::PreviewUnsoundNone, Err(refusal)) => [7, 8].contains(&refusal.number),
            _ => false,
        }
    }

    /// The slot that is given, of the table in which the round is played; none where no session is.
    fn given(&self, table: &[u8], slot: usize) -> Option<Bytes> {
        let bytes = self.get(table, slot);
        let held = |bytes| ![State::Empty, State::NoSlot].contains(&self.state(bytes));
        let slots = self.slots(table);
        let last = slots.min(64).saturating_sub(1);
        match self.0 {
            Slip::PreviewPast if slot > 63 && slot < slots => Some(bytes).filter(|b| held(*b)),
            Slip::PreviewLast if slot >= slots => Some(self.get(table, last)).filter(|b| held(*b)),
            _ if self.in_round().outside(table, slot) => None,
            Slip::PreviewNoSlot if bytes != [0; 12] => Some(bytes),
            Slip::PreviewEmptyHeld if bytes == [0; 12] => {
                Some([0, 1, 0, 0, 0, 0, 0, 0, 0, 0, 0, 0])
            }
            Slip::PreviewEmptyOpened if bytes == [0; 12] => {
                Some([0, 1, 16, 0, 0, 0, 0, 0, 0, 0, 0, 0])
            }
            _ => Some(bytes).filter(|b| held(*b)),
        }
    }

    /// Writes what is given.
    fn write(&self, memory: &mut Memory, given: Option<Bytes>, refused: bool) {
        let mut bytes = given.unwrap_or([0; 12]);
        let before = memory.slot();
        match (self.0, given) {
            (Slip::PreviewAccepted, _) if refused => bytes = before,
            (Slip::PreviewGiven, None) => bytes = before,
            (Slip::PreviewOwner, _) => bytes[0] = 0,
            (Slip::PreviewSessionAlone, Some(_)) => bytes[..2].copy_from_slice(&before[..2]),
            (Slip::PreviewHeldAlone, None) => {
                bytes = before;
                bytes[1] = 0;
            }
            (Slip::PreviewLong, _) => memory.0[PLACE + 12] = 0,
            _ => {}
        }
        memory.set_slot(bytes);
    }

    /// What is written to the table itself.
    fn spoil(&self, table: &mut [u8], copy: &[u8], slot: usize, answer: &Answer) {
        let inside = !self.outside(table, slot);
        let granted = *answer == Ok(ending_reply(Ending::Grant));
        match self.0 {
            Slip::PreviewPlays => table.copy_from_slice(copy),
            Slip::PreviewGrants if granted => table.copy_from_slice(copy),
            Slip::PreviewResets if answer.is_err() && inside => put(table, slot, [0; 12]),
            Slip::PreviewCounts if answer.is_ok() => table[12 * slot + 8] += 1,
            _ => {}
        }
    }

    pub(super) fn preview_at(
        &self,
        preview: Preview,
        policy: &[u8],
        table: &mut [u8],
        memory: &mut Memory,
    ) -> Answer {
        let (slot, p) = self.meant(preview, table);
        let mut copy = table.to_vec();
        let answer = self.copied(policy, &mut copy, slot, p);
        let shown = match self.0 {
            Slip::PreviewBefore => &*table,
            _ => &copy,
        };
        let given = self.given(shown, slot);
        let given = given.filter(|_| !self.withheld(policy, &answer));
        self.write(memory, given, answer.is_err());
        self.spoil(table, &copy, slot, &answer);
        answer
    }
}
