//! The outcome of a schedule (document 02, K6): a value, commit or abort, and a round.
//!
//! Document 02: "A new call plays rounds until one in which some process decides, and answers that value and round." And
//! of every accepted schedule: "the value is the one that each deciding process has in the full run, and the round is the
//! smallest decided round there." Here the second sentence is taken at its word: the run is played to its end, and the
//! smallest decided round is looked for in it.

use crate::questions::Refusal;
use crate::report::refusal;
use crate::run::{run, Run};
use crate::schedule::Schedule;
use crate::text::read;

/// The names of line 1 of what the program `outcome` prints.
pub const HEADING: &str = "decision round";

/// An outcome.
#[derive(Clone, Copy, Debug, PartialEq, Eq)]
pub struct Outcome {
    /// The value that was decided, 0 (abort) or 1 (commit).
    pub value: u8,
    /// The smallest decided round.
    pub round: u8,
}

/// The outcome of a schedule, or the number of its refusal. The call takes the three input tables alone, so that question
/// 3 asks about no other.
pub fn outcome(schedule: &Schedule) -> Result<Outcome, Refusal> {
    let run = run(schedule)?;
    Ok(of_run(&run))
}

/// The outcome of a finished run. There is one: some process never crashes, as f is at most n - 1, and it decides in round
/// t + 1 at the latest. Of several processes with the smallest decided round the lowest-numbered one gives the value. (By
/// agreement they all have the same.)
pub fn of_run(run: &Run) -> Outcome {
    let decided = |place: &usize| run.rounds[*place] != 0;
    let places = (0..run.rounds.len()).filter(decided);
    // Of equal rounds the first one is taken.
    let first = places.min_by_key(|place| run.rounds[*place]);
    let first = first.expect("some process decides");
    Outcome {
        value: run.decisions[first],
        round: run.rounds[first],
    }
}

/// What `outcome` prints for a text; a refused one prints the same three lines as with `bench`.
pub fn answer(text: &[u8]) -> Vec<u8> {
    match read(text) {
        Err(refused) => refusal(text, refused),
        Ok(schedule) => {
            let outcome = outcome(&schedule).expect("the reader asks every question of a run");
            lines(outcome)
        }
    }
}

/// The two lines of an outcome: the names, and the values in that order.
pub fn lines(Outcome { value, round }: Outcome) -> Vec<u8> {
    format!("{HEADING}\n{value} {round}\n").into_bytes()
}
