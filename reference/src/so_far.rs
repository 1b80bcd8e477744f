//! What the crashes so far say of who has decided in every accepted schedule (document 02, K8), tested on a finished
//! run. It is no part of demand 3; the round B that is comes out of it.
//!
//! The tables alone are looked at: those of the schedule, and that of the decided rounds. A member that has decided
//! stays so. Hence a process that completes round r completes it undecided, in the terms of document 01, "Who hears
//! whom", if its decided round at the end of the run is 0 (none) or above r.

use std::ops::AddAssign;

use crate::demand3::bound;
use crate::run::Run;
use crate::schedule::Schedule;

/// How many crashes there are at least if a process completes a round undecided. Only [`RULE`] is that of document 02;
/// another one shows what a wrong reading would say.
#[derive(Clone, Copy)]
pub struct Rule {
    /// How many crashes count in a round: the table of crash rounds and the round.
    pub count: fn(&[u8], usize) -> usize,
    /// How many of them there are at least if a process completes the round undecided: t and the round, from 2 to t.
    pub least: fn(usize, usize) -> usize,
}

/// Document 02, K8: "a process that completes round r undecided, r from 2 to t - 1, has at least r - 1 processes with
/// crash rounds from 1 to r. If r is t, there are at least t such processes."
pub const RULE: Rule = Rule {
    count: crashes_by,
    least,
};

/// The crashes by round r in a table of crash rounds: the "processes with crash rounds from 1 to r".
pub fn crashes_by(crashes: &[u8], r: usize) -> usize {
    let by_r = |crash: &&u8| (1..=r).contains(&usize::from(**crash));
    crashes.iter().filter(by_r).count()
}

/// r - 1 for r from 2 to t - 1, and t if r is t.
fn least(t: usize, r: usize) -> usize {
    if r == t {
        t
    } else {
        r - 1
    }
}

/// Gives words if the finished run of an accepted schedule breaks what the request says, or what comes out of it.
pub fn check(schedule: &Schedule, run: &Run) -> Result<(), String> {
    RULE.check(schedule, run)
}

/// The settling round: a function of t and the crash rounds alone, whatever the votes and the reaches.
/// It is the first round from 2 to t - 1 with fewer than r - 1 crashes by it; if there is none, t with fewer than t
/// crashes by t; and otherwise t + 1. Document 02 doesn't name it. Nobody completes it undecided: up to round t by the
/// request, and round t + 1 by the last round's rule.
pub fn settling_round(t: usize, crashes: &[u8]) -> usize {
    RULE.round(t, crashes)
}

/// How often the rule's number of crashes is met with equality: each pair of a round and a process that completes it
/// undecided counts once, if there are exactly as many crashes as there have to be. Rounds before t, from 2 on, and
/// round t are counted apart.
#[derive(Clone, Copy, Debug, Default, PartialEq, Eq)]
pub struct Equalities {
    pub before_t: u64,
    pub in_t: u64,
}

impl AddAssign for Equalities {
    fn add_assign(&mut self, more: Equalities) {
        self.before_t += more.before_t;
        self.in_t += more.in_t;
    }
}

/// How often a finished run meets the number of crashes with equality.
pub fn equalities(schedule: &Schedule, run: &Run) -> Equalities {
    RULE.equalities(schedule, run)
}

impl Rule {
    /// [`check`] by this rule.
    pub fn check(&self, schedule: &Schedule, run: &Run) -> Result<(), String> {
        self.enough_crashes(schedule, run)?;
        last_round(schedule, run)?;
        self.round_decides(schedule, run)?;
        self.round_is_at_most_b(schedule)
    }

    /// [`settling_round`] by this rule.
    pub fn round(&self, t: usize, crashes: &[u8]) -> usize {
        let too_few = |r: &usize| (self.count)(crashes, *r) < (self.least)(t, *r);
        (2..=t).find(too_few).unwrap_or(t + 1)
    }

    /// [`equalities`] by this rule.
    pub fn equalities(&self, schedule: &Schedule, run: &Run) -> Equalities {
        let t = schedule.t;
        let equal = |r: &usize| (self.count)(&schedule.crashes, *r) == (self.least)(t, *r);
        let met = |r: usize| undecided(schedule, run, r).count() as u64;
        Equalities {
            before_t: (2..t).filter(equal).map(met).sum(),
            in_t: (t..=t).filter(equal).map(met).sum(),
        }
    }

    /// The request itself: rounds 2 to t.
    fn enough_crashes(&self, schedule: &Schedule, run: &Run) -> Result<(), String> {
        for r in 2..=schedule.t {
            let count = (self.count)(&schedule.crashes, r);
            let least = (self.least)(schedule.t, r);
            if count < least {
                nobody(schedule, run, r, || {
                    format!("with {count} of at least {least} crashes by it")
                })?;
            }
        }
        Ok(())
    }

    /// Nobody completes the settling round undecided. This is what stands before it in other words: whoever
    /// completes a round undecided that has too few crashes also completes the first such round undecided.
    fn round_decides(&self, schedule: &Schedule, run: &Run) -> Result<(), String> {
        let settling = self.round(schedule.t, &schedule.crashes);
        nobody(schedule, run, settling, || {
            "and it is the settling round".to_string()
        })
    }

    /// "the old round B should come out of it, for f = t together with the last round's rule": the settling round
    /// is at most B, and whoever has decided by it has decided by B.
    fn round_is_at_most_b(&self, schedule: &Schedule) -> Result<(), String> {
        let settling = self.round(schedule.t, &schedule.crashes);
        let b = bound(schedule);
        if settling <= b {
            Ok(())
        } else {
            Err(format!(
                "the settling round is {settling}, above round B, which is {b}"
            ))
        }
    }
}

/// The last round's rule: nobody completes round t + 1 undecided.
fn last_round(schedule: &Schedule, run: &Run) -> Result<(), String> {
    let last = schedule.t + 1;
    nobody(schedule, run, last, || "and it is the last one".to_string())
}

/// Gives words, which end as given, if some process completes round r undecided.
fn nobody(
    schedule: &Schedule,
    run: &Run,
    r: usize,
    end: impl Fn() -> String,
) -> Result<(), String> {
    let words = |i| format!("process {i} completes round {r} undecided, {}", end());
    let first = undecided(schedule, run, r).next();
    first.map_or(Ok(()), |i| Err(words(i)))
}

/// The processes that complete round r undecided.
pub fn undecided<'a>(
    schedule: &'a Schedule,
    run: &'a Run,
    r: usize,
) -> impl Iterator<Item = usize> + 'a {
    (1..=schedule.n).filter(move |i| {
        let decided = usize::from(run.rounds[i - 1]);
        schedule.completes(*i, r) && (decided == 0 || decided > r)
    })
}
