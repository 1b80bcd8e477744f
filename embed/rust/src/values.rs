//! Votes, codes and decisions: what stands as a number in bytes and tables.

use std::fmt;

use crate::refusal::unknown;
use crate::Refusal;

/// What a process votes. It prints as `abort` or `commit`.
#[derive(Clone, Copy, Debug, PartialEq, Eq, Hash)]
#[repr(u8)]
pub enum Vote {
    /// 0
    Abort = 0,
    /// 1
    Commit = 1,
}

impl Vote {
    /// The vote that the library wrote as this byte.
    pub(crate) fn answered(byte: u8) -> Vote {
        Vote::try_from(byte).unwrap_or_else(|_| unknown("vote", byte))
    }
}

impl TryFrom<u8> for Vote {
    type Error = Refusal;

    /// The vote that a byte stands for; above 1 it is [`Refusal::Vote`].
    fn try_from(byte: u8) -> Result<Vote, Refusal> {
        match byte {
            0 => Ok(Vote::Abort),
            1 => Ok(Vote::Commit),
            _ => Err(Refusal::Vote),
        }
    }
}

impl From<Vote> for u8 {
    fn from(vote: Vote) -> u8 {
        vote as u8
    }
}

impl fmt::Display for Vote {
    fn fmt(&self, f: &mut fmt::Formatter<'_>) -> fmt::Result {
        f.pad(match self {
            Vote::Abort => "abort",
            Vote::Commit => "commit",
        })
    }
}

/// What a process decides, or would decide as things stand. It prints as `abort` or `commit`.
#[derive(Clone, Copy, Debug, PartialEq, Eq, Hash)]
#[repr(u8)]
pub enum Decision {
    /// 0
    Abort = 0,
    /// 1
    Commit = 1,
}

impl Decision {
    /// The decision or estimate that the library wrote as this byte.
    pub(crate) fn answered(byte: u8) -> Decision {
        match byte {
            0 => Decision::Abort,
            1 => Decision::Commit,
            _ => unknown("decision", byte),
        }
    }
}

impl From<Decision> for u8 {
    fn from(decision: Decision) -> u8 {
        decision as u8
    }
}

impl fmt::Display for Decision {
    fn fmt(&self, f: &mut fmt::Formatter<'_>) -> fmt::Result {
        f.pad(match self {
            Decision::Abort => "abort",
            Decision::Commit => "commit",
        })
    }
}

/// A decision with the round in which it was made. It prints as `commit in round 2`.
#[derive(Clone, Copy, Debug, PartialEq, Eq, Hash)]
pub struct Decided {
    /// What was decided.
    pub decision: Decision,
    /// In which round.
    pub round: usize,
}

impl fmt::Display for Decided {
    fn fmt(&self, f: &mut fmt::Formatter<'_>) -> fmt::Result {
        write!(f, "{} in round {}", self.decision, self.round)
    }
}

/// What a member says in a round, and what stands in a row for each sender. It prints as words: `estimate commit`.
///
/// There is no default: a [`Code::Nothing`] in a row is a claim about its sender, see (a) of the contract.
#[derive(Clone, Copy, Debug, PartialEq, Eq, Hash)]
#[repr(u8)]
pub enum Code {
    /// 0: the process has crashed without completing this round, or has stopped. Never a message that is late or lost.
    Nothing = 0,
    /// 1: "estimate" with 0.
    EstimateAbort = 1,
    /// 2: "estimate" with 1.
    EstimateCommit = 2,
    /// 3: "decided" with 0.
    DecidedAbort = 3,
    /// 4: "decided" with 1.
    DecidedCommit = 4,
}

impl Code {
    /// What the sender says that it decided. It then says nothing more: do not wait for it in the rounds to come.
    pub fn decision(self) -> Option<Decision> {
        match self {
            Code::Nothing | Code::EstimateAbort | Code::EstimateCommit => None,
            Code::DecidedAbort => Some(Decision::Abort),
            Code::DecidedCommit => Some(Decision::Commit),
        }
    }

    /// The code that the library wrote as this byte.
    pub(crate) fn answered(byte: u8) -> Code {
        Code::try_from(byte).unwrap_or_else(|_| unknown("code", byte))
    }
}

impl TryFrom<u8> for Code {
    type Error = Refusal;

    /// The code that a byte from the wire stands for; above 4 it is [`Refusal::Code`]. Put no [`Code::Nothing`] in the place of such a
    /// byte: see (d) of the contract.
    fn try_from(byte: u8) -> Result<Code, Refusal> {
        match byte {
            0 => Ok(Code::Nothing),
            1 => Ok(Code::EstimateAbort),
            2 => Ok(Code::EstimateCommit),
            3 => Ok(Code::DecidedAbort),
            4 => Ok(Code::DecidedCommit),
            _ => Err(Refusal::Code),
        }
    }
}

impl From<Code> for u8 {
    fn from(code: Code) -> u8 {
        code as u8
    }
}

impl fmt::Display for Code {
    fn fmt(&self, f: &mut fmt::Formatter<'_>) -> fmt::Result {
        f.pad(match self {
            Code::Nothing => "nothing",
            Code::EstimateAbort => "estimate abort",
            Code::EstimateCommit => "estimate commit",
            Code::DecidedAbort => "decided abort",
            Code::DecidedCommit => "decided commit",
        })
    }
}
