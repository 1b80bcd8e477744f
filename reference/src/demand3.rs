//! What the product promises for every accepted schedule, tested on a finished run. The terms "completes a round",
//! "decides" and "completes round r undecided" are those of document 01, "Who hears whom"; the message bound is that of
//! document 02, K1.

use crate::run::{Run, NONE};
use crate::schedule::Schedule;

/// The first promise that the finished run of an accepted schedule breaks, if any, in words.
pub fn check(schedule: &Schedule, run: &Run) -> Result<(), String> {
    agreement(run)?;
    abort_validity(schedule, run)?;
    round_b(schedule, run)?;
    message_bound(schedule, run)?;
    weak_fast_abort(schedule, run)?;
    fast_commit(schedule, run)
}

/// The round by which all decide: f + 2 if f is at most t - 2, and f + 1 otherwise.
pub fn bound(schedule: &Schedule) -> usize {
    let f = schedule.f();
    if f + 2 <= schedule.t {
        f + 2
    } else {
        f + 1
    }
}

/// The largest number of messages. Document 02, K1: "The message bound tightens to n x (n - 1) x the smaller of B + 1
/// and t + 1."
pub fn message_limit(schedule: &Schedule) -> usize {
    let rounds = (bound(schedule) + 1).min(schedule.t + 1);
    schedule.n * (schedule.n - 1) * rounds
}

/// Gives the promise's words if it doesn't hold.
fn promise(holds: bool, words: impl Fn() -> String) -> Result<(), String> {
    if holds {
        Ok(())
    } else {
        Err(words())
    }
}

/// Gives the promise's words for the first process for which it doesn't hold.
fn promise_each(
    schedule: &Schedule,
    holds: impl Fn(usize) -> bool,
    words: impl Fn(usize) -> String,
) -> Result<(), String> {
    let broken = (1..=schedule.n).find(|i| !holds(*i));
    broken.map_or(Ok(()), |i| Err(words(i)))
}

/// No two processes decide differently, crashed deciders included.
fn agreement(run: &Run) -> Result<(), String> {
    let both = run.decisions.contains(&0) && run.decisions.contains(&1);
    promise(!both, || "agreement: 0 and 1 are both decided".to_string())
}

/// If any process, crashed or not, votes 0, nobody decides 1.
fn abort_validity(schedule: &Schedule, run: &Run) -> Result<(), String> {
    let holds = !schedule.has_vote_0() || !run.decisions.contains(&1);
    promise(holds, || {
        "abort validity: a vote is 0 and 1 is decided".to_string()
    })
}

/// Nobody completes round B undecided.
fn round_b(schedule: &Schedule, run: &Run) -> Result<(), String> {
    let b = bound(schedule);
    promise(run.undecided[b - 1] == 0, || {
        format!("round B: some process completes round {b} undecided")
    })
}

/// The messages are at most n * (n - 1) * min(B + 1, t + 1).
fn message_bound(schedule: &Schedule, run: &Run) -> Result<(), String> {
    let (sent, limit) = (run.counts.messages, message_limit(schedule));
    promise(sent <= limit, || {
        format!("message bound: {sent} messages, at most {limit} promised")
    })
}

/// If any process votes 0, every process that completes round 2 decides 0 in round 2.
fn weak_fast_abort(schedule: &Schedule, run: &Run) -> Result<(), String> {
    if !schedule.has_vote_0() {
        return Ok(());
    }
    promise_each(
        schedule,
        |i| !schedule.completes(i, 2) || decides(run, i, 0, 2),
        |i| format!("weak fast abort: process {i} {}", decided(run, i)),
    )
}

/// If all vote 1 and none crashes, every process decides 1 in round 2.
fn fast_commit(schedule: &Schedule, run: &Run) -> Result<(), String> {
    if schedule.has_vote_0() || schedule.f() != 0 {
        return Ok(());
    }
    promise_each(
        schedule,
        |i| decides(run, i, 1, 2),
        |i| format!("fast commit: process {i} {}", decided(run, i)),
    )
}

/// Whether process i decides the value in round r.
fn decides(run: &Run, i: usize, value: u8, r: u8) -> bool {
    (run.decisions[i - 1], run.rounds[i - 1]) == (value, r)
}

/// What process i decided, in words.
fn decided(run: &Run, i: usize) -> String {
    match (run.decisions[i - 1], run.rounds[i - 1]) {
        (NONE, _) => "has no decision".to_string(),
        (value, r) => format!("decides {value} in round {r}"),
    }
}
