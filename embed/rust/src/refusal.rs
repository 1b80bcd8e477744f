//! Refusals: the numbers of `embed/fcwfa.h` by name and in words.

use std::fmt;

use crate::{LARGEST, LONGEST_TEXT};

/// Why a call was refused: the first question whose answer is no. Other things may be wrong too.
///
/// It prints as its number and what it means: `refused with 5: a crash round is above t + 1`. Later versions may have more.
#[derive(Clone, Copy, Debug, PartialEq, Eq, Hash)]
#[non_exhaustive]
#[repr(u8)]
pub enum Refusal {
    /// 1: n, the number of processes, is not from 4 to [`LARGEST`](crate::LARGEST).
    N = 1,
    /// 2: t, the number of crashes to bear, is not from 3 to n - 1.
    T = 2,
    /// 3: a table is not as long as it must be: n, or [`LARGEST`](crate::LARGEST) for [`read_schedule`](crate::bytes::read_schedule).
    Length = 3,
    /// 4: a vote is not 0 or 1.
    Vote = 4,
    /// 5: a crash round is above t + 1.
    Crash = 5,
    /// 6: a reach names a process above n or its own, or stands where the crash round is 0.
    Reach = 6,
    /// 7: more than t processes crash.
    Crashes = 7,
    /// 8: the text is longer than [`LONGEST_TEXT`](crate::LONGEST_TEXT) bytes.
    TextLength = 8,
    /// 9: a line is not of its form or is not there, or something follows the last process.
    Form = 9,
    /// 10: the own number, or for [`why`](crate::why) that of the process asked about, is not from 1 to n.
    Id = 10,
    /// 11: the fourteen bytes are not a state in range.
    State = 11,
    /// 12: the member has stopped.
    Stopped = 12,
    /// 13: the row is not n long.
    RowLength = 13,
    /// 14: a code is above 4.
    Code = 14,
    /// 15: the row's own place is not what the member says now.
    OwnPlace = 15,
    /// 16: a decided message stands in a row of round 1 or 2.
    Early = 16,
    /// 17: both decided messages, abort and commit, stand in the row.
    Both = 17,
    /// 18: the buffer is too short for the whole text. Only [`write_schedule`](crate::bytes::write_schedule) refuses with it.
    Buffer = 18,
}

impl Refusal {
    /// The number of `embed/fcwfa.h`.
    pub fn number(self) -> u8 {
        self as u8
    }

    /// The refusal with this number, if there is one.
    pub fn from_number(number: u8) -> Option<Refusal> {
        Some(match number {
            1 => Refusal::N,
            2 => Refusal::T,
            3 => Refusal::Length,
            4 => Refusal::Vote,
            5 => Refusal::Crash,
            6 => Refusal::Reach,
            7 => Refusal::Crashes,
            8 => Refusal::TextLength,
            9 => Refusal::Form,
            10 => Refusal::Id,
            11 => Refusal::State,
            12 => Refusal::Stopped,
            13 => Refusal::RowLength,
            14 => Refusal::Code,
            15 => Refusal::OwnPlace,
            16 => Refusal::Early,
            17 => Refusal::Both,
            18 => Refusal::Buffer,
            _ => return None,
        })
    }

    /// The refusal whose number the library answered.
    pub(crate) fn answered(number: u8) -> Refusal {
        Refusal::from_number(number).unwrap_or_else(|| unknown("refusal number", number))
    }

    /// Writes what the number means.
    fn write_words(self, f: &mut fmt::Formatter<'_>) -> fmt::Result {
        f.write_str(match self {
            Refusal::N => {
                return write!(
                    f,
                    "n, the number of processes, is not from 4 to {}",
                    LARGEST
                )
            }
            Refusal::T => "t, the number of crashes to bear, is not from 3 to n - 1",
            Refusal::Length => "a table is not as long as it must be",
            Refusal::Vote => "a vote is not 0 or 1",
            Refusal::Crash => "a crash round is above t + 1",
            Refusal::Reach => {
                "a reach names a process above n or its own, or stands where the crash round is 0"
            }
            Refusal::Crashes => "more than t processes crash",
            Refusal::TextLength => {
                return write!(f, "the text is longer than {} bytes", LONGEST_TEXT)
            }
            Refusal::Form => {
                "a line is not of its form or is not there, or something follows the last process"
            }
            Refusal::Id => "the number of the process is not from 1 to n",
            Refusal::State => "the fourteen bytes are not a state in range",
            Refusal::Stopped => "the member has stopped",
            Refusal::RowLength => "the row is not n long",
            Refusal::Code => "a code is above 4",
            Refusal::OwnPlace => "the row's own place is not what the member says now",
            Refusal::Early => "a decided message stands in a row of round 1 or 2",
            Refusal::Both => "both decided messages, abort and commit, stand in the row",
            Refusal::Buffer => "the buffer is too short for the whole text",
        })
    }
}

impl fmt::Display for Refusal {
    fn fmt(&self, f: &mut fmt::Formatter<'_>) -> fmt::Result {
        write!(f, "refused with {}: ", self.number())?;
        self.write_words(f)
    }
}

impl std::error::Error for Refusal {}

/// Why a text is no schedule: the first question whose answer is no, and the line where it was asked.
///
/// It prints with the line's number, `refused with 5 on line 6: a crash round is above t + 1`, and without one where there is no line:
/// `refused with 8: the text is longer than 8192 bytes`.
#[derive(Clone, Copy, Debug, PartialEq, Eq, Hash)]
pub struct TextRefusal {
    /// The question.
    pub refusal: Refusal,
    /// The number of the line, from 1; 0 for no line, with [`Refusal::TextLength`] alone. It may be that of a line that is not there.
    pub line: usize,
}

impl fmt::Display for TextRefusal {
    fn fmt(&self, f: &mut fmt::Formatter<'_>) -> fmt::Result {
        write!(f, "refused with {}", self.refusal.number())?;
        if self.line != 0 {
            write!(f, " on line {}", self.line)?;
        }
        f.write_str(": ")?;
        self.refusal.write_words(f)
    }
}

impl std::error::Error for TextRefusal {}

/// Ends the program: the library answered what this crate has no name for, so the two do not belong together.
#[cold]
pub(crate) fn unknown(what: &str, number: impl fmt::Display) -> ! {
    panic!("the library answered the {what} {number}, which this crate does not know: the linked library is of another version")
}

#[cfg(test)]
mod tests {
    use super::*;
    use crate::{Code, Decision, Vote};

    #[test]
    #[should_panic(expected = "refusal number 19, which this crate does not know")]
    fn an_unknown_refusal_ends_the_program() {
        Refusal::answered(19);
    }

    #[test]
    #[should_panic(expected = "code 5, which this crate does not know")]
    fn an_unknown_code_ends_the_program() {
        Code::answered(5);
    }

    #[test]
    #[should_panic(expected = "decision 2, which this crate does not know")]
    fn an_unknown_decision_ends_the_program() {
        Decision::answered(2);
    }

    #[test]
    #[should_panic(expected = "vote 2, which this crate does not know")]
    fn an_unknown_vote_ends_the_program() {
        Vote::answered(2);
    }
}
