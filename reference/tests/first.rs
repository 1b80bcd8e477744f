//! A wrong first decider is noticed on a finished run.

use reference::first::check;
use reference::run::run;
use reference::schedule::{bit, Schedule};

/// What is said of a run whose first decider is replaced; empty if nothing is wrong.
fn words(schedule: &Schedule, first: usize) -> String {
    let mut run = run(schedule).expect("the schedule is accepted");
    assert_eq!(check(schedule, &run), Ok(()));
    run.counts.first = first;
    check(schedule, &run).err().unwrap_or_default()
}

/// Case H: all decide in round 2, and process 1 crashes in round 3.
#[test]
fn one_that_crashes_while_another_survives() {
    let mut schedule = Schedule::quiet(4, 3);
    schedule.crashes[0] = 3;
    assert!(words(&schedule, 1).starts_with("process 1 crashes, and process 2"));
    assert_eq!(words(&schedule, 2), "");
}

/// Process 3 alone decides in round 2, and crashes in round 3; the survivors 1 and 2 decide in round 3; process 4
/// crashes undecided.
#[test]
fn one_that_decides_later_or_never() {
    let mut schedule = Schedule::quiet(4, 3);
    schedule.crashes = vec![0, 0, 3, 2];
    schedule.reaches[3] = bit(3);
    assert_eq!(words(&schedule, 3), "");
    for first in [0, 1, 2, 4, 5] {
        let expected = format!("process {first} doesn't decide in the smallest decided round");
        assert_eq!(words(&schedule, first), expected);
    }
}
