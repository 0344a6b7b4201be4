//! Flaws of the bench program itself, whatever gate is under it: of how it reads, of the order of its tests, of what it prints.

#[derive(Clone, Copy, PartialEq, Eq, Debug)]
pub enum Flaw {
    None,
    OddByte,
    HighByteFirst,
    RequestUnread,
    ReadsLess,
    ReadsAll,
    MissingRefused,
    MissingAsLast,
    RequestFirst,
    PolicyWithRound,
    PolicyAnyway,
    RefusalGoesOn,
    NineOnce,
    OpensAgain,
    StopsAtSeventeen,
    UnfinishedDenied,
    AllGot,
    NewGot,
    CapitalDigits,
    ShortDigits,
    DecimalSets,
    TwoDigits,
    CountFromNone,
    CountInHexadecimal,
    RecordInHexadecimal,
    RecordFromOne,
    RecordLeftOut,
    RecordOfSeven,
    LastLineOpen,
    ReturnInLines,
    AskedInGrant,
}

/// Each flaw with what is wrong.
pub const FLAWS: [(Flaw, &str); 30] = [
    (Flaw::OddByte, "a last odd byte counts as a record"),
    (
        Flaw::HighByteFirst,
        "the input's records read with the higher byte first",
    ),
    (Flaw::RequestUnread, "the request's higher byte not read"),
    (
        Flaw::ReadsLess,
        "2,304 bytes of the file read and no more, so that a longer one is accepted",
    ),
    (
        Flaw::ReadsAll,
        "a file's whole records read, what is left over passed by",
    ),
    (Flaw::MissingRefused, "a missing file refused"),
    (Flaw::MissingAsLast, "a missing file ends the output"),
    (Flaw::RequestFirst, "the request tested before the policy"),
    (
        Flaw::PolicyWithRound,
        "the policy tested with the first round, not with the request",
    ),
    (
        Flaw::PolicyAnyway,
        "the policy tested where there is no request",
    ),
    (
        Flaw::RefusalGoesOn,
        "a refused policy or request does not end the output: each record has the same line",
    ),
    (Flaw::NineOnce, "\"refused 9\" only once"),
    (
        Flaw::OpensAgain,
        "a round after closing opens the session again",
    ),
    (Flaw::StopsAtSeventeen, "no more than seventeen rounds read"),
    (
        Flaw::UnfinishedDenied,
        "a session that is left waiting closed with \"deny\" at the end",
    ),
    (
        Flaw::AllGot,
        "all that was shown printed after \"got\", not the round's set",
    ),
    (Flaw::NewGot, "only what is new printed after \"got\""),
    (Flaw::CapitalDigits, "sets in capital letters"),
    (Flaw::ShortDigits, "sets without leading zeros"),
    (Flaw::DecimalSets, "sets in decimal"),
    (Flaw::TwoDigits, "sets in two digits"),
    (Flaw::CountFromNone, "rounds counted from 0"),
    (Flaw::CountInHexadecimal, "the count in hexadecimal"),
    (
        Flaw::RecordInHexadecimal,
        "the record's number in hexadecimal",
    ),
    (Flaw::RecordFromOne, "records counted from 1"),
    (Flaw::RecordLeftOut, "12 and 13 without the record's number"),
    (Flaw::RecordOfSeven, "7 with a record's number"),
    (Flaw::LastLineOpen, "the last line not ended"),
    (
        Flaw::ReturnInLines,
        "lines ended with a carriage return too",
    ),
    (
        Flaw::AskedInGrant,
        "the last question printed after \"grant\" and \"deny\"",
    ),
];
