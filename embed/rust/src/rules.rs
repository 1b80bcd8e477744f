//! The rule that decided a process.

use std::fmt;

use crate::bytes::{self, WHY_KIND, WHY_NUMBER};
use crate::refusal::unknown;
use crate::{Refusal, Set, Vote};

/// Why a process decided as it did, or that it made no decision. The rules stand in the order in which they are asked, and the one named is
/// the first that was met by the row that the process heard in the round in which it decided; the numbers are those of this row.
///
/// It prints as words: `told by process 3`.
#[derive(Clone, Copy, Debug, PartialEq, Eq, Hash)]
pub enum Why {
    /// 0: it crashed before it decided. One that decided and crashed afterwards has its rule.
    Crashed {
        /// Its crash round.
        round: usize,
    },
    /// 1: a decided message stood in the row.
    Told {
        /// The process that sent it, from 1, the lowest number if there were several. It decided in the round before, and the same value; it is
        /// never the process itself.
        sender: usize,
    },
    /// 2: it was round 2, and all estimates in the row were for abort.
    ZerosOnly,
    /// 3: a quiet round. It was round r from 2 to t - 1, and at most r - 2 processes sent no estimate.
    Quiet {
        /// How many sent none.
        missing: usize,
    },
    /// 4: it was round t, with at least n - t + 1 estimates.
    RoundT {
        /// How many were heard.
        estimates: usize,
    },
    /// 5: it was round t + 1, the last one, in which a process decides in any case.
    LastRound,
}

impl Why {
    /// What the library wrote as these two numbers.
    fn answered(why: [usize; 2]) -> Why {
        let number = why[WHY_NUMBER];
        match why[WHY_KIND] {
            0 => Why::Crashed { round: number },
            1 => Why::Told { sender: number },
            2 => Why::ZerosOnly,
            3 => Why::Quiet { missing: number },
            4 => Why::RoundT { estimates: number },
            5 => Why::LastRound,
            kind => unknown("rule", kind),
        }
    }
}

impl fmt::Display for Why {
    fn fmt(&self, f: &mut fmt::Formatter<'_>) -> fmt::Result {
        let estimates = |number| match number {
            1 => "estimate",
            _ => "estimates",
        };
        match *self {
            Why::Crashed { round } => write!(f, "crashed in round {round}"),
            Why::Told { sender } => write!(f, "told by process {sender}"),
            Why::ZerosOnly => f.write_str("zeros only in round 2"),
            Why::Quiet { missing } => {
                let words = estimates(missing);
                write!(f, "a quiet round with {missing} {words} missing")
            }
            Why::RoundT { estimates: heard } => {
                let words = estimates(heard);
                write!(f, "{heard} {words} in round t")
            }
            Why::LastRound => f.write_str("the last round"),
        }
    }
}

/// Says why process `id`, from 1 to n, decided as it did in the whole run, or in which round it crashed without a decision. The tables are
/// those of [`simulate`](crate::simulate), which says what it decided and in which round.
///
/// The rule is one by which the process decides in that round. A process that made no decision crashed, in the round that is answered.
///
/// Refusals: [`Refusal::N`], [`Refusal::T`], [`Refusal::Length`], then for each process in turn [`Refusal::Crash`] and [`Refusal::Reach`],
/// then [`Refusal::Crashes`], and last [`Refusal::Id`].
///
/// ```
/// use fcwfa::{why, Refusal, Vote, Why};
///
/// # fn main() -> Result<(), Refusal> {
/// // Process 5 of five crashes in round 2 and reaches process 4 only. That one decides in round 2, and crashes in round 3; it reaches
/// // process 1 only.
/// let (votes, crashes, reaches) = ([Vote::Commit; 5], [0, 0, 0, 3, 2], [0, 0, 0, 0b00001, 0b01000]);
/// let why_of = |id| why(5, 3, &votes, &crashes, &reaches, id);
/// assert_eq!(why_of(4)?, Why::Quiet { missing: 0 });
/// assert_eq!(why_of(5)?, Why::Crashed { round: 2 });
///
/// // Processes 1 and 2 both decide in round 3, but not by the same rule.
/// assert_eq!(why_of(1)?, Why::Told { sender: 4 });
/// assert_eq!(why_of(2)?, Why::RoundT { estimates: 3 });
/// assert_eq!(why_of(1)?.to_string(), "told by process 4");
///
/// assert_eq!(why_of(6), Err(Refusal::Id));
/// # Ok(())
/// # }
/// ```
pub fn why(
    n: usize,
    t: usize,
    votes: &[Vote],
    crashes: &[u8],
    reaches: &[Set],
    id: usize,
) -> Result<Why, Refusal> {
    let votes = bytes::of_votes(votes);
    let mut why = [0; 2];
    bytes::why(n, t, votes, crashes, reaches, id, &mut why).map_err(Refusal::answered)?;
    Ok(Why::answered(why))
}

#[cfg(test)]
mod tests {
    use super::*;

    #[test]
    #[should_panic(expected = "rule 6, which this crate does not know")]
    fn an_unknown_rule_ends_the_program() {
        Why::answered([6, 1]);
    }
}
