//! What holds of the first decider of every accepted schedule (document 02, K3), tested on a finished run. It is no
//! part of demand 3.

use crate::run::Run;
use crate::schedule::Schedule;

/// Gives words if the first decider isn't one of those that decide in the smallest decided round, or if it crashes
/// while one of those survives.
pub fn check(schedule: &Schedule, run: &Run) -> Result<(), String> {
    let first = run.counts.first;
    let earliest = earliest(run);
    if !earliest.contains(&first) {
        return Err(format!(
            "process {first} doesn't decide in the smallest decided round"
        ));
    }
    match earliest.iter().find(|i| schedule.survives(**i)) {
        Some(i) if !schedule.survives(first) => Err(format!(
            "process {first} crashes, and process {i}, which decides in the same round, survives"
        )),
        _ => Ok(()),
    }
}

/// The processes that decide in the smallest decided round.
fn earliest(run: &Run) -> Vec<usize> {
    let rounds = || run.rounds.iter().copied();
    let smallest = rounds().filter(|round| *round != 0).min();
    (1..)
        .zip(rounds())
        .filter(|(_, round)| Some(*round) == smallest)
        .map(|(i, _)| i)
        .collect()
}
