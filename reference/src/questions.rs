//! The numbers of the refusals and the questions that several calls share (document 01, "Questions before work";
//! document 02, K2: number 18; K9: number 10 asked of a process).

use std::ops::RangeInclusive;

use crate::LARGEST;

/// The numbers of processes that are possible (document 01, "Cabinets, rounds, crashes").
pub const SIZES: RangeInclusive<usize> = 4..=LARGEST;

/// The smallest limit of crashes; the largest is n - 1.
pub const MIN_CRASHES: usize = 3;

/// The questions whose answer may be no, each with its number.
#[derive(Clone, Copy, Debug, PartialEq, Eq, Hash, PartialOrd, Ord)]
pub enum Refusal {
    /// n from 4 to [`LARGEST`]?
    Processes = 1,
    /// t from 3 to n - 1?
    CrashLimit = 2,
    /// Each table of its length?
    Tables = 3,
    /// Vote 0 or 1?
    Vote = 4,
    /// Crash round at most t + 1?
    CrashRound = 5,
    /// Reach as ruled?
    Reach = 6,
    /// f at most t?
    TooManyCrashes = 7,
    /// At most [`LONGEST`](crate::LONGEST) bytes?
    TooLong = 8,
    /// Line of its form, nothing after the last?
    Form = 9,
    /// Own number from 1 to n? And with K9: process number from 1 to n?
    OwnNumber = 10,
    /// State in range?
    State = 11,
    /// Not stopped?
    Stopped = 12,
    /// Row n long?
    RowLength = 13,
    /// Every code 0 to 4?
    Code = 14,
    /// Own place equal to what the member says now?
    OwnPlace = 15,
    /// No code 3 or 4 in rounds 1 and 2?
    EarlyDecided = 16,
    /// Not both 3 and 4?
    BothDecided = 17,
    /// Buffer long enough for the whole text?
    Buffer = 18,
}

impl Refusal {
    /// The number that document 01 or 02 gives to the question.
    pub fn number(self) -> u8 {
        self as u8
    }
}

/// Gives the refusal if the question's answer is no.
pub fn ask(answer: bool, refusal: Refusal) -> Result<(), Refusal> {
    if answer {
        Ok(())
    } else {
        Err(refusal)
    }
}

/// Questions 1 and 2: n from 4 to [`LARGEST`], t from 3 to n - 1.
pub fn ask_sizes(n: usize, t: usize) -> Result<(), Refusal> {
    ask(SIZES.contains(&n), Refusal::Processes)?;
    ask((MIN_CRASHES..n).contains(&t), Refusal::CrashLimit)
}

/// Question 4: a vote is 0 (abort) or 1 (commit).
pub fn ask_vote(vote: u8) -> Result<(), Refusal> {
    ask(vote <= 1, Refusal::Vote)
}
