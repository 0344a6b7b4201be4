//! The slips of tables and previews that no station program can show, each with the reason.

use crate::slips::Slip;

const SIXTY_FOUR: &str = "the list has 64 slots, and 64 is past its end";
const ONE_BYTE: &str = "a slot's number has one byte";
const NOTHING_OVER: &str = "the list has no bytes left over at its end";
const ALL_SOUND: &str = "every session that openings and rounds give is sound";
const ALL_SLOTS: &str = "no operation leaves bytes that are no slot";
const REFUSED_LINE: &str = "the line of a refused preview shows no session";

pub const UNSEEN: [(Slip, &str); 34] = [
    (Slip::PastCounted, "the list has no slot past the 64th"),
    (Slip::UnsoundUncounted, ALL_SOUND),
    (
        Slip::FifteenFirst,
        "no session stands past the end, so that 14 and 15 never apply together",
    ),
    (Slip::SlotSixtyFour, SIXTY_FOUR),
    (Slip::SlotUnbounded, "the list is no longer than 64 slots"),
    (Slip::SlotByte, ONE_BYTE),
    (Slip::SlotWord, ONE_BYTE),
    (Slip::SlotWraps, ONE_BYTE),
    (
        Slip::SlotInReply,
        "the line of 14, 15 or 16 has the refusal's number alone",
    ),
    (Slip::TailSlot, NOTHING_OVER),
    (Slip::TailCleared, NOTHING_OVER),
    (Slip::NoSlotCounted, ALL_SLOTS),
    (Slip::NoSlotTaken, ALL_SLOTS),
    (Slip::NoSlotFifteen, ALL_SLOTS),
    (Slip::NoSlotFirst, ALL_SLOTS),
    (Slip::NoSlotLast, ALL_SLOTS),
    (Slip::NoSlotNine, ALL_SLOTS),
    (Slip::HeldAlone, ALL_SLOTS),
    (Slip::HeldTwo, ALL_SLOTS),
    (Slip::PreviewSixtyFour, SIXTY_FOUR),
    (Slip::PreviewEmptyHeld, REFUSED_LINE),
    (Slip::PreviewEmptyOpened, REFUSED_LINE),
    (Slip::PreviewPast, "the list has no slot past the 64th"),
    (Slip::PreviewLast, REFUSED_LINE),
    (Slip::PreviewNoSlot, ALL_SLOTS),
    (Slip::PreviewPolicyNone, REFUSED_LINE),
    (Slip::PreviewClosedNone, REFUSED_LINE),
    (Slip::PreviewUnsoundNone, ALL_SOUND),
    (Slip::PreviewOwner, "the line of a preview shows no owner"),
    (
        Slip::PreviewSessionAlone,
        "the line of a preview shows neither owner nor whether a session is given",
    ),
    (Slip::PreviewAccepted, REFUSED_LINE),
    (Slip::PreviewGiven, REFUSED_LINE),
    (Slip::PreviewHeldAlone, REFUSED_LINE),
    (
        Slip::PreviewLong,
        "the line of a preview shows nothing of the bytes after the slot",
    ),
];
