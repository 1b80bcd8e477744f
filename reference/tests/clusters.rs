//! Clusters of more than half the largest size, worked by hand from documents 01 and 02 (K11): runs with n = 33, 63 and
//! 64, the sets of processes at these sizes, and n = 65, which is refused.
//!
//! A round in which all n processes speak is n * (n - 1) messages: 1056, 3906 and 4032. The sums of longer runs stand
//! beside them.

use reference::crashes::count_crashes;
use reference::questions::Refusal;
use reference::run::{run, run_heard, Run, NONE};
use reference::schedule::{bit, everyone, Schedule};
use reference::text::{read, write};
use reference::Set;

/// The reach of process i that names everybody else.
fn others(n: usize, i: usize) -> Set {
    everyone(n) & !bit(i)
}

/// A schedule with t = n - 1 and all votes 1, in which process i crashes in round i, i from 1 to n - 1.
fn one_a_round(n: usize, reach: impl Fn(usize) -> Set) -> Schedule {
    let mut schedule = Schedule::quiet(n, n - 1);
    for i in 1..n {
        schedule.crashes[i - 1] = i as u8;
        schedule.reaches[i - 1] = reach(i);
    }
    schedule
}

/// Runs a schedule, from tables and from its text, and compares f, first, last and messages.
fn ran(schedule: &Schedule, f: usize, first: usize, last: usize, messages: usize) -> Run {
    let (run, hearings) = run_heard(schedule).expect("the schedule is accepted");
    let counts = &run.counts;
    let found = (counts.f, counts.first, counts.last, counts.messages);
    assert_eq!(found, (f, first, last, messages));
    assert_eq!(read(&write(schedule)), Ok(schedule.clone()));
    assert_eq!(reference::demand3::check(schedule, &run), Ok(()));
    assert_eq!(reference::first::check(schedule, &run), Ok(()));
    assert_eq!(reference::so_far::check(schedule, &run), Ok(()));
    assert_eq!(reference::silent::check(schedule, &hearings), Ok(()));
    run
}

/// Expects the processes from one number to another to have an answer.
fn answered(run: &Run, from: usize, to: usize, answer: (u8, u8)) {
    for i in from..=to {
        let found = (run.decisions[i - 1], run.rounds[i - 1]);
        assert_eq!(found, answer, "process {i}");
    }
}

/// The answer of a process without a decision.
const WITHOUT: (u8, u8) = (NONE, 0);

/// All send in rounds 1, 2 and 3, whether all vote 1 or the last process votes 0.
#[test]
fn no_crash() {
    for (n, messages) in [(33, 3 * 1056), (63, 3 * 3906), (64, 3 * 4032)] {
        for t in [3, n - 2, n - 1] {
            let mut schedule = Schedule::quiet(n, t);
            answered(&ran(&schedule, 0, 1, 2, messages), 1, n, (1, 2));
            schedule.votes[n - 1] = 0;
            answered(&ran(&schedule, 0, 1, 2, messages), 1, n, (0, 2));
        }
    }
}

/// Case D: process 1 crashes in round 1 and reaches process n alone, which keeps its estimate 1 until round 2. With one
/// silent process all decide in round 3. In each of rounds 1 to 4 the n - 1 others send to n - 1, and the crash to one.
#[test]
fn the_last_process_alone_is_reached() {
    for (n, messages) in [
        (33, 4 * 32 * 32 + 1),
        (63, 4 * 62 * 62 + 1),
        (64, 4 * 63 * 63 + 1),
    ] {
        let mut schedule = Schedule::quiet(n, n - 1);
        schedule.crashes[0] = 1;
        schedule.reaches[0] = bit(n);
        let run = ran(&schedule, 1, 2, 3, messages);
        answered(&run, 1, 1, WITHOUT);
        answered(&run, 2, n, (0, 3));
    }
}

/// Case E: process i crashes in round i, 1 reaches all but 2, then each only the next one, and n - 1 nobody. Process n
/// hears a single estimate in round t, its own 1, and so decides in t + 1. Case F: n - 1 reaches n and passes the 0 on,
/// and two estimates are enough in round t.
///
/// In rounds 1 to n - 1 there are n - 1 down to 1 completing senders, so 528, 1953 and 2016; in round n one more. Round
/// 1 adds a reach of n - 2, rounds 2 to n - 2 a reach of 1, and F one message more.
#[test]
fn chains_through_all_rounds() {
    for (n, messages) in [
        (33, 32 * (528 + 1) + 31 + 30),
        (63, 62 * (1953 + 1) + 61 + 60),
        (64, 63 * (2016 + 1) + 62 + 61),
    ] {
        let mut schedule = one_a_round(n, |i| bit(i + 1));
        schedule.reaches[0] = others(n, 1) & !bit(2);
        schedule.reaches[n - 2] = 0;
        let run = ran(&schedule, n - 1, n, n, messages);
        answered(&run, 1, n - 1, WITHOUT);
        answered(&run, n, n, (1, n as u8));
        schedule.reaches[n - 2] = bit(n);
        let run = ran(&schedule, n - 1, n, n - 1, messages + 1);
        answered(&run, n, n, (0, n as u8 - 1));
    }
}

/// Process i crashes in round i and reaches everybody else: all estimates stay 1, and process n hears two of them in
/// round t. The sums of the chains, and each of the n - 1 crashes adds n - 1.
#[test]
fn full_reaches_through_all_rounds() {
    for (n, messages) in [
        (33, 32 * (528 + 1) + 32 * 32),
        (63, 62 * (1953 + 1) + 62 * 62),
        (64, 63 * (2016 + 1) + 63 * 63),
    ] {
        let run = ran(&one_a_round(n, |i| others(n, i)), n - 1, n, n - 1, messages);
        answered(&run, 1, n - 1, WITHOUT);
        answered(&run, n, n, (1, n as u8 - 1));
    }
    // More than two bytes hold.
    assert_eq!(63 * (2016 + 1) + 63 * 63, 131_040);
}

/// All but the last process crash in the last round t + 1 = n with a full reach, after they stopped.
#[test]
fn crashes_in_the_last_round() {
    for (n, messages) in [(33, 3 * 1056), (63, 3 * 3906), (64, 3 * 4032)] {
        let mut schedule = one_a_round(n, |i| others(n, i));
        schedule.crashes[..n - 1].fill(n as u8);
        answered(&ran(&schedule, n - 1, n, 2, messages), 1, n, (1, 2));
        // One round later is too late.
        schedule.crashes[n - 2] = n as u8 + 1;
        assert_eq!(run(&schedule), Err(Refusal::CrashRound));
    }
}

/// Three crashes in round 2 of n = 64: process 1 reaches 2 to 33, 32 reaches 33 to 64, and 64 reaches 31 to 34. So 33
/// alone hears all and decides, and the others hear of it in round 3.
#[test]
fn reaches_on_both_sides_of_the_middle() {
    let mut schedule = Schedule::quiet(64, 63);
    for (i, from, to) in [(1, 2, 33), (32, 33, 64), (64, 31, 34)] {
        schedule.crashes[i - 1] = 2;
        schedule.reaches[i - 1] = everyone(to) & !everyone(from - 1);
    }
    // 64 senders; 61 and the reaches; 61; and 60 that decided in round 3.
    let messages = 63 * 64 + (63 * 61 + 32 + 32 + 4) + 63 * 61 + 63 * 60;
    let run = ran(&schedule, 3, 33, 3, messages);
    for i in [1, 32, 64] {
        answered(&run, i, i, WITHOUT);
    }
    answered(&run, 33, 33, (1, 2));
    answered(&run, 2, 31, (1, 3));
    answered(&run, 34, 63, (1, 3));
}

#[test]
fn sets_of_processes() {
    assert_eq!(bit(33), 0x1_0000_0000);
    assert_eq!(bit(64), 0x8000_0000_0000_0000);
    assert_eq!(everyone(32), 0xffff_ffff);
    assert_eq!(everyone(33), 0x1_ffff_ffff);
    assert_eq!(everyone(63), 0x7fff_ffff_ffff_ffff);
    // All bits of a set: a shift by n would be by as many bits as it has.
    assert_eq!(everyone(64), Set::MAX);
}

/// What a schedule with one crash, in round 1 with this reach, is answered.
fn asked(n: usize, i: usize, reach: Set) -> Result<(), Refusal> {
    let mut schedule = Schedule::quiet(n, n - 1);
    schedule.crashes[i - 1] = 1;
    schedule.reaches[i - 1] = reach;
    schedule.ask()
}

#[test]
fn a_reach_names_others_of_1_to_n() {
    for n in [32, 33, 63, 64] {
        for i in [1, 2, n / 2, n - 1, n] {
            assert_eq!(asked(n, i, others(n, i)), Ok(()));
            assert_eq!(asked(n, i, bit(n) & !bit(i)), Ok(()));
            assert_eq!(asked(n, i, bit(i)), Err(Refusal::Reach));
            assert_eq!(asked(n, i, everyone(n)), Err(Refusal::Reach));
        }
        for above in n + 1..=64 {
            assert_eq!(asked(n, 1, bit(above)), Err(Refusal::Reach));
        }
    }
}

#[test]
fn n_65_is_refused_by_1() {
    for t in [3, 63, 64, 99] {
        assert_eq!(Schedule::quiet(65, t).ask(), Err(Refusal::Processes));
    }
    assert_eq!(Schedule::quiet(64, 64).ask(), Err(Refusal::CrashLimit));
}

#[test]
fn crashes_of_a_full_cluster_are_counted() {
    let counted = |t, n: usize| {
        let counted = count_crashes(t, &vec![1; n]);
        (counted.count, counted.looked_at)
    };
    assert_eq!(counted(63, 63), (63, 63));
    assert_eq!(counted(63, 64), (64, 64));
    assert_eq!(counted(63, 65), (64, 64));
    assert_eq!(counted(64, 65), (65, 65));
    assert_eq!(counted(32, 64), (33, 33));
}
