//! A whole cluster under a schedule.

use crate::bytes::{self, NO_DECISION, OUTCOME_DECISION, OUTCOME_ROUND};
use crate::{Decided, Decision, Refusal, Set, Vote, LARGEST};

/// The counts of a run.
#[derive(Clone, Copy, Debug, PartialEq, Eq, Hash)]
pub struct Counts {
    /// How many processes crash.
    pub f: usize,
    /// The first decider, the process to ask for the outcome: the one that decided in the smallest round; among equals one that never crashes
    /// goes before one that crashes, and then the lower number.
    pub first: usize,
    /// The largest decided round.
    pub last: usize,
    /// How many messages went out on the wire; copies to oneself do not count.
    pub messages: usize,
}

impl Counts {
    /// The counts in the order in which the library writes them.
    pub(crate) fn of_table([f, first, last, messages]: [usize; 4]) -> Counts {
        Counts {
            f,
            first,
            last,
            messages,
        }
    }
}

/// What came of a run.
#[derive(Clone, Debug, PartialEq, Eq, Hash)]
pub struct Report {
    /// The counts.
    pub counts: Counts,
    /// What each process decided, process i at place i - 1; `None` for one that crashed before it decided.
    pub decisions: Vec<Option<Decided>>,
}

/// Runs a whole cluster of n, from 4 to [`LARGEST`], that bears t crashes, to its end. Entry i - 1 of each table is process i's: its vote;
/// its crash round, 0 (never) or 1 to t + 1; and its reach, the [`Set`] of processes that still get the message of the crash round.
///
/// Refusals: [`Refusal::N`], [`Refusal::T`], [`Refusal::Length`], then for each process in turn [`Refusal::Crash`] and [`Refusal::Reach`],
/// and last [`Refusal::Crashes`].
pub fn simulate(
    n: usize,
    t: usize,
    votes: &[Vote],
    crashes: &[u8],
    reaches: &[Set],
) -> Result<Report, Refusal> {
    let votes = bytes::of_votes(votes);
    let (mut decisions, mut rounds) = ([NO_DECISION; LARGEST], [0; LARGEST]);
    // A larger n is refused, whatever is lent with it.
    let length = n.min(LARGEST);
    let (decisions, rounds) = (&mut decisions[..length], &mut rounds[..length]);
    let counts = bytes::simulate(n, t, votes, crashes, reaches, decisions, rounds)
        .map_err(Refusal::answered)?;
    let decided = decisions.iter().zip(rounds.iter());
    Ok(Report {
        counts,
        decisions: decided.map(|(&value, &round)| made(value, round)).collect(),
    })
}

/// What is decided in a run, and the first round in which some process decides. This is a decision with the round in which it was made, as a
/// process has it, so it is no type of its own.
pub type Outcome = Decided;

/// Plays rounds until one in which some process decides, and answers what it decides and that round. The tables are those of [`simulate`].
///
/// Every process that decides in the whole run, also one that crashes afterwards, decides this value, and the round is the smallest decided
/// round there, from 2 to t + 1. An accepted schedule always has an outcome. When all have decided it does not say: that is
/// [`Counts::last`].
///
/// Refusals, as [`simulate`] has them: [`Refusal::N`], [`Refusal::T`], [`Refusal::Length`], then for each process in turn
/// [`Refusal::Crash`] and [`Refusal::Reach`], and last [`Refusal::Crashes`].
///
/// ```
/// use fcwfa::{outcome, simulate, Decided, Decision, Refusal, Vote};
///
/// # fn main() -> Result<(), Refusal> {
/// // Process 5 of five crashes in round 2 and reaches process 4 only. That one decides in round 2, and crashes in round 3 unheard.
/// let (votes, crashes, reaches) = ([Vote::Commit; 5], [0, 0, 0, 3, 2], [0, 0, 0, 0, 0b01000]);
/// let outcome = outcome(5, 3, &votes, &crashes, &reaches)?;
/// assert_eq!(outcome, Decided { decision: Decision::Commit, round: 2 });
/// assert_eq!(outcome.to_string(), "commit in round 2");
///
/// // The others decide the same a round later.
/// assert_eq!(simulate(5, 3, &votes, &crashes, &reaches)?.counts.last, 3);
/// # Ok(())
/// # }
/// ```
pub fn outcome(
    n: usize,
    t: usize,
    votes: &[Vote],
    crashes: &[u8],
    reaches: &[Set],
) -> Result<Outcome, Refusal> {
    let votes = bytes::of_votes(votes);
    let mut outcome = [NO_DECISION, 0];
    bytes::outcome(n, t, votes, crashes, reaches, &mut outcome).map_err(Refusal::answered)?;
    Ok(Decided {
        decision: Decision::answered(outcome[OUTCOME_DECISION]),
        round: outcome[OUTCOME_ROUND].into(),
    })
}

/// What the library wrote for a process: a value and its round.
fn made(value: u8, round: u8) -> Option<Decided> {
    match value {
        NO_DECISION => None,
        _ => Some(Decided {
            decision: Decision::answered(value),
            round: round.into(),
        }),
    }
}
