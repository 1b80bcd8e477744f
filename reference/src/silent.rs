//! What the set of silent processes says in the run of every accepted schedule (document 02, K7), tested on the rows
//! that are heard in it. It is no part of demand 3.

use std::ops::{AddAssign, Range};

use crate::member::has_decided;
use crate::run::Hearing;
use crate::schedule::{bit, Schedule};
use crate::Set;

/// Whether a row sets the set. Document 02, K7: "A row heard while undecided from round 2 on, without a decided
/// message, makes it the processes that sent no estimate. Every other row leaves it."
pub fn sets(hearing: &Hearing) -> bool {
    hearing.before.decided == 0 && hearing.round >= 2 && !has_decided(&hearing.row)
}

/// Gives words if the hearings of the run of an accepted schedule break what the request says: "In a bench run, after a
/// row that sets it in round r, it names each process that crashed before round r and none whose crash round is 0 or
/// above r."
pub fn check(schedule: &Schedule, hearings: &[Hearing]) -> Result<(), String> {
    for hearing in hearings.iter().filter(|hearing| sets(hearing)) {
        check_row(schedule, hearing)?;
    }
    Ok(())
}

/// The same for one row that sets it.
fn check_row(schedule: &Schedule, hearing: &Hearing) -> Result<(), String> {
    let r = hearing.round;
    let named = hearing.after.silent;
    let crashed = crashing(schedule, 1..r);
    let may_be_named = crashed | crashing(schedule, r..r + 1);
    let words = |what: &str, set: Set| {
        let (own, j) = (hearing.before.own, set.trailing_zeros() + 1);
        Err(format!(
            "the set of process {own} {what} process {j} after round {r}"
        ))
    };
    match (crashed & !named, named & !may_be_named) {
        (0, 0) => Ok(()),
        (0, too_many) => words("names", too_many),
        (missing, _) => words("doesn't name", missing),
    }
}

/// The processes whose crash round is in a range.
fn crashing(schedule: &Schedule, rounds: Range<usize>) -> Set {
    let in_range = |i: &usize| rounds.contains(&schedule.crash(*i));
    let crashing = (1..=schedule.n).filter(in_range);
    crashing.fold(0, |set, i| set | bit(i))
}

/// How many rows set the set. A process that crashes in the round of such a row may be named or not: each pair of such
/// a row and such a process counts once.
#[derive(Clone, Copy, Debug, Default, PartialEq, Eq)]
pub struct Settings {
    /// The rows that set it.
    pub rows: u64,
    /// The processes crashing in the round of a row that the set names after it.
    pub named: u64,
    /// Those that it doesn't name.
    pub not_named: u64,
}

impl AddAssign for Settings {
    fn add_assign(&mut self, more: Settings) {
        self.rows += more.rows;
        self.named += more.named;
        self.not_named += more.not_named;
    }
}

/// How many rows set the set in the hearings of a run.
pub fn settings(schedule: &Schedule, hearings: &[Hearing]) -> Settings {
    let mut settings = Settings::default();
    for hearing in hearings.iter().filter(|hearing| sets(hearing)) {
        let r = hearing.round;
        let (named, now) = (hearing.after.silent, crashing(schedule, r..r + 1));
        settings += Settings {
            rows: 1,
            named: u64::from((now & named).count_ones()),
            not_named: u64::from((now & !named).count_ones()),
        };
    }
    settings
}
