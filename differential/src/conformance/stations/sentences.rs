//! The sentences that the cases for a station test, word for word. What the paper calls a seat is a slot in our names.

use crate::conformance::case::{request, scope, Sentence};

pub const SLOTS: Sentence = request(
    "A lent list of at most 64 seats, each empty or holding an owner (one byte) and a session.",
);

pub const TAKES: Sentence = request(
    "Opening names seat and owner and may take an empty seat or one whose session is closed.",
);

pub const FOUR: Sentence = request(
    "No owner has more than four unfinished sessions, over any list of openings and rounds from an all-empty list.",
);

pub const OWN_ROUND: Sentence =
    request("A round is that of the seat's session and touches nothing else");

pub const BOUNDS: Sentence = request(
    "the client's bounds hold for the rounds at one seat from an opening there that was not refused to the next such.",
);

pub const FOURTEEN: Sentence =
    request("14, the seat's number, from 0, is past the list's end or above 63");

pub const FIFTEEN: Sentence = request("15, seat holds an unfinished session (fresh or waiting)");

pub const SIXTEEN: Sentence = request("16, owner has four or more.");

pub const LEFT: Sentence =
    request("Seats past the 64th are never read, and a refusal leaves the list.");

pub const OPENING_TESTS: Sentence = request("Opening tests 7, 14, 15, 16");

pub const ROUND_TESTS: Sentence =
    request("a round tests the policy, 14, then an empty seat as 8, then the session as before.");

pub const DISPLAYS: Sentence =
    request("The front panel displays what a round at a seat would answer.");

pub const SAME_ROUND: Sentence = request(
    "The preview's answer and session are those of the same round on a copy of the list, refusals included, and the list itself is left",
);

pub const NONE_GIVEN: Sentence =
    request("where the seat is empty or one that 14 refuses, no session is given.");

pub const FRESH: Sentence = scope("Opening gives a fresh one: P and N empty, count 0.");

pub const SEVEN: Sentence = scope("7: request outside 16 to 62, at opening or in a round.");

pub const NINE: Sentence = scope("9: round in a sound closed session.");

pub const LITTLE_ENDIAN: Sentence = scope("2-byte little-endian records");

pub const FILE: Sentence = scope("a missing policy file counts as empty");

pub const READ: Sentence = scope("It reads the file policy.bin (at most 2,305 bytes of it)");

pub const ODD: Sentence = scope("A last odd byte counts for nothing");

pub const WHOLE: Sentence = scope("2: length not a multiple of 18; number of whole records.");

pub const SIX: Sentence = request(
    "is given exactly then, after all records passed the rest, with the count of records as its number.",
);
