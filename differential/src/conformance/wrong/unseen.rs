//! Slips that no bench program and no log can show, each with the reason; those of tables and previews stand with the stations.

use crate::slips::Slip;

const SOUND: &str = "every session that a program keeps is sound";
const COMPARED: &str = "of the comparison of logs, which no case has";
const MEMORY: &str = "of bytes that only a C caller sees";

pub const UNSEEN: [(Slip, &str); 29] = [
    (Slip::CountBound, SOUND),
    (Slip::NineBeforeEight, SOUND),
    (Slip::QuestionOverlap, SOUND),
    (
        Slip::PolicyLast,
        "the program tests the policy before it opens the session",
    ),
    (
        Slip::ShownUndeclined,
        "what is shown is not asked for, in N or not",
    ),
    (Slip::SetWritten, MEMORY),
    (Slip::GuardWritten, MEMORY),
    (Slip::AskedInReply, MEMORY),
    (Slip::NothingAskedLogged, "no round asks for nothing"),
    (Slip::ReplyCut, MEMORY),
    (Slip::RecordCleared, MEMORY),
    (Slip::Prefix, COMPARED),
    (Slip::ElevenFirst, COMPARED),
    (Slip::SecondFirst, COMPARED),
    (Slip::AnswerZero, COMPARED),
    (Slip::AnswerFour, COMPARED),
    (Slip::FirstPad, COMPARED),
    (Slip::SecondPad, COMPARED),
    (Slip::AskNothing, COMPARED),
    (Slip::GrantAsks, COMPARED),
    (Slip::DenyAsks, COMPARED),
    (Slip::AnswerAlone, COMPARED),
    (Slip::AskedAlone, COMPARED),
    (Slip::LowByte, COMPARED),
    (Slip::FromOne, COMPARED),
    (Slip::LastUncompared, COMPARED),
    (Slip::CountCompared, COMPARED),
    (Slip::ShownCompared, COMPARED),
    (Slip::PlaceCleared, COMPARED),
];
