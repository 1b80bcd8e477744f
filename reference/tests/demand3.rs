//! Each promise that `demand3` tests is seen to be broken by a run that breaks it, and the message bound is seen to be
//! met with equality.

use reference::demand3::{check, message_limit};
use reference::questions::{MIN_CRASHES, SIZES};
use reference::run::{run, Run};
use reference::schedule::Schedule;

/// Changes the finished run of a schedule, and expects the promise of that name to be broken.
fn broken(schedule: &Schedule, promise: &str, change: impl Fn(&mut Run)) {
    let mut run = run(schedule).expect("the schedule is accepted");
    assert_eq!(check(schedule, &run), Ok(()));
    change(&mut run);
    let words = check(schedule, &run).expect_err("a promise is broken");
    assert!(words.starts_with(promise), "{words}");
}

/// n = 5, t = 4, process 1 crashes in round 1 unheard.
fn one_crash() -> Schedule {
    let mut schedule = Schedule::quiet(5, 4);
    schedule.crashes[0] = 1;
    schedule
}

/// The same, and process 1 votes 0.
fn one_crash_and_vote_0() -> Schedule {
    let mut schedule = one_crash();
    schedule.votes[0] = 0;
    schedule
}

#[test]
fn agreement() {
    broken(&one_crash(), "agreement", |run| run.decisions[4] = 1);
}

#[test]
fn abort_validity() {
    broken(&one_crash_and_vote_0(), "abort validity", |run| {
        run.decisions = vec![2, 1, 1, 1, 1];
    });
}

#[test]
fn round_b() {
    // f = 1 is at most t - 2, so B = 3.
    broken(&one_crash(), "round B", |run| run.undecided[2] = 1);
    let mut schedule = Schedule::quiet(4, 3);
    schedule.crashes[..2].fill(1);
    // f = 2 = t - 1, so B = 3.
    broken(&schedule, "round B", |run| run.undecided[2] = 8);
    schedule.crashes[2] = 1;
    // f = 3 = t, so B = 4.
    broken(&schedule, "round B", |run| run.undecided[3] = 8);
}

#[test]
fn message_bound() {
    let schedule = one_crash();
    // B = 3, and B + 1 = 4 is smaller than t + 1 = 5.
    assert_eq!(message_limit(&schedule), 5 * 4 * 4);
    broken(&schedule, "message bound", |run| run.counts.messages = 81);
    let mut schedule = Schedule::quiet(4, 3);
    schedule.crashes[..3].fill(1);
    // B = 4, so t + 1 = 4 is smaller than B + 1 = 5.
    assert_eq!(message_limit(&schedule), 4 * 3 * 4);
    broken(&schedule, "message bound", |run| run.counts.messages = 49);
}

/// Case A: 36 messages, and 4 * 3 * 3 promised. So no smaller bound would hold, and one message more breaks it.
#[test]
fn case_a_meets_the_message_bound_with_equality() {
    let schedule = Schedule::quiet(4, 3);
    let messages = run(&schedule).expect("case A is accepted").counts.messages;
    assert_eq!((messages, message_limit(&schedule)), (36, 36));
    broken(&schedule, "message bound", |run| run.counts.messages += 1);
}

/// As case A, at every size: without a crash B = 2, and all n send to the n - 1 others in rounds 1, 2 and 3.
#[test]
fn every_run_without_a_crash_meets_the_message_bound_with_equality() {
    for n in SIZES {
        for t in MIN_CRASHES..n {
            let schedule = Schedule::quiet(n, t);
            let messages = run(&schedule).expect("it is accepted").counts.messages;
            assert_eq!(messages, 3 * n * (n - 1), "n = {n}, t = {t}");
            assert_eq!(message_limit(&schedule), messages, "n = {n}, t = {t}");
        }
    }
}

#[test]
fn weak_fast_abort() {
    let schedule = one_crash_and_vote_0();
    broken(&schedule, "weak fast abort", |run| run.rounds[1] = 3);
    broken(&schedule, "weak fast abort", |run| {
        (run.decisions[4], run.rounds[4]) = (2, 0);
    });
}

#[test]
fn fast_commit() {
    let schedule = Schedule::quiet(5, 4);
    broken(&schedule, "fast commit", |run| run.rounds[1] = 3);
    broken(&schedule, "fast commit", |run| run.decisions[..].fill(0));
}
