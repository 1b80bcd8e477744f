//! Decided by the crashes so far (document 02, K8): the settling round S and the old round B worked by hand, each
//! thing that `so_far` tests seen to be broken by a run that breaks it, and S seen to be the least round that holds for
//! a table of crash rounds.
//!
//! S is the first round r from 2 to t - 1 with fewer than r - 1 crashes by it, else t with fewer than t crashes by t,
//! else t + 1. B is f + 2 if f is at most t - 2, and f + 1 otherwise.

use reference::demand3::bound;
use reference::questions::{MIN_CRASHES, SIZES};
use reference::run::run;
use reference::schedule::{bit, everyone, Schedule};
use reference::so_far::{check, crashes_by, equalities, settling_round, undecided};

/// A schedule with these crash rounds that holds out longest: all vote 1, and a crash of round 1 reaches everybody
/// else, so that nobody takes estimate 0; a later crash reaches nobody, so that it is missed at once.
fn worst(t: usize, crashes: &[u8]) -> Schedule {
    let n = crashes.len();
    let mut schedule = Schedule::quiet(n, t);
    schedule.crashes = crashes.to_vec();
    for i in 1..=n {
        if schedule.crash(i) == 1 {
            schedule.reaches[i - 1] = everyone(n) & !bit(i);
        }
    }
    schedule
}

/// Expects S and B of a table of crash rounds, and S to be the least round that holds for it: whoever doesn't crash by
/// S completes round S - 1 undecided under the schedule that holds out longest, and decides in S.
fn expect(t: usize, crashes: &[u8], settling: usize, b: usize) {
    let schedule = worst(t, crashes);
    let run = run(&schedule).expect("the schedule is accepted");
    let words = format!("t = {t}, crash rounds {crashes:?}");
    assert_eq!(
        (settling_round(t, crashes), bound(&schedule)),
        (settling, b),
        "{words}"
    );
    assert_eq!(check(&schedule, &run), Ok(()), "{words}");
    let completing = (1..=schedule.n).filter(|i| schedule.completes(*i, settling - 1));
    assert!(
        undecided(&schedule, &run, settling - 1).eq(completing),
        "{words}: {run:?}"
    );
    for i in (1..=schedule.n).filter(|i| schedule.completes(*i, settling)) {
        assert_eq!(usize::from(run.rounds[i - 1]), settling, "{words}: {run:?}");
    }
    assert_eq!(run.counts.last, settling, "{words}");
}

#[test]
fn crashes_by_a_round() {
    let crashes = [0, 3, 1, 3, 7, 0, 2];
    let by = |r| crashes_by(&crashes, r);
    // The round itself counts, and 0 is no crash.
    assert_eq!([0, 1, 2, 3, 4, 6, 7, 8].map(by), [0, 1, 2, 4, 4, 4, 5, 5]);
    assert_eq!(crashes_by(&[], 5), 0);
}

/// The cases A to K with n = 4, t = 3: S is 2 without a crash by 2, else 3 with fewer than 3 crashes by 3, else 4.
#[test]
fn the_marked_schedules() {
    // A and B: no crash.
    expect(3, &[0, 0, 0, 0], 2, 2);
    // C and D: one crash by 2, and by 3.
    expect(3, &[1, 0, 0, 0], 3, 3);
    // E and F: two crashes by 2, three by 3.
    expect(3, &[1, 3, 0, 2], 4, 4);
    // G: two by 2 and by 3; f = t - 1, so B = f + 1.
    expect(3, &[1, 0, 0, 2], 3, 3);
    // H: none by 2. The crash of round 3 makes f = 1 and B = 3.
    expect(3, &[3, 0, 0, 0], 2, 3);
    // I: one by 2, for round 2 itself counts.
    expect(3, &[2, 0, 0, 0], 3, 3);
    // J: as H.
    expect(3, &[4, 0, 0, 0], 2, 3);
    // K: three by 2 and by 3.
    expect(3, &[1, 1, 1, 0], 4, 4);
}

/// n = 8, t = 6: at least 1, 2, 3, 4 crashes by rounds 2, 3, 4, 5, and 6 by round 6, or S is that round.
#[test]
fn late_crashes_loosen_b_and_not_s() {
    // None by 2, though f = 5 and f = 6.
    expect(6, &[6, 6, 7, 7, 5, 0, 0, 0], 2, 6);
    expect(6, &[7, 7, 7, 7, 7, 7, 0, 0], 2, 7);
    expect(6, &[0, 0, 3, 3, 3, 3, 3, 3], 2, 7);
    // One by 2 and by 3; f = 4 = t - 2, so B = 6.
    expect(6, &[1, 4, 4, 4, 0, 0, 0, 0], 3, 6);
    // By rounds 2 to 5: 1, 2, 2.
    expect(6, &[0, 2, 0, 3, 6, 0, 7, 7], 4, 6);
    // By rounds 2 to 5: 1, 2, 3, 3. The three of round 6 come too late for it.
    expect(6, &[2, 3, 4, 6, 6, 6, 0, 0], 5, 7);
}

#[test]
fn early_crashes_skip_rounds() {
    // Three by every round: enough for 2, 3 and 4, and too few for 5. f = 3, so B = 5.
    expect(6, &[1, 1, 1, 0, 0, 0, 0, 0], 5, 5);
    // The same with two more in rounds 6 and 7: f = 5, so B = 6.
    expect(6, &[0, 6, 1, 1, 1, 0, 7, 0], 5, 6);
    // Two by every round: enough for 2 and 3, and too few for 4.
    expect(6, &[1, 2, 0, 0, 0, 0, 0, 0], 4, 4);
    // The same if both are of round 2.
    expect(6, &[0, 0, 0, 0, 0, 0, 2, 2], 4, 4);
    // Six by round 1: enough for all.
    expect(6, &[1, 1, 1, 1, 1, 1, 0, 0], 7, 7);
}

#[test]
fn s_falls_on_t() {
    // By rounds 2 to 6: 2, 3, 4, 4, 4; f = 4 = t - 2.
    expect(6, &[1, 2, 3, 4, 0, 0, 0, 0], 6, 6);
    // By rounds 2 to 6: 2, 3, 4, 4, 5. One is missing for round 6, where the rule of the earlier rounds would be met.
    expect(6, &[1, 2, 3, 4, 6, 0, 0, 0], 6, 6);
    // One more in round 7: too late, though B is 7 now.
    expect(6, &[1, 2, 3, 4, 6, 7, 0, 0], 6, 7);
    // By rounds 2 to 6: 1, 2, 3, 4, 5, which is r - 1 in each.
    expect(6, &[2, 3, 4, 5, 6, 0, 0, 0], 6, 6);
}

#[test]
fn s_falls_on_t_plus_1() {
    // By rounds 2 to 6: 3, 4, 5, 5, 6.
    expect(6, &[1, 1, 2, 3, 4, 6, 0, 0], 7, 7);
    // By rounds 2 to 6: 1, 2, 3, 4, 6, which is the least that will do in each.
    expect(6, &[2, 3, 4, 5, 6, 6, 0, 0], 7, 7);
    // One crash a round from 1 to 63, in the largest cluster: r crashes by round r, and t by t.
    let mut crashes: Vec<u8> = (1..=64).collect();
    crashes[63] = 0;
    expect(63, &crashes, 64, 64);
}

/// One crash in each of the rounds 1 to f: r crashes by round r, so that S is B.
#[test]
fn one_crash_a_round_from_1_on_at_every_size() {
    for (n, t) in SIZES.flat_map(|n| (MIN_CRASHES..n).map(move |t| (n, t))) {
        for f in numbers_of_crashes(t) {
            // f crashes are too few for round f + 2, if it is before t; from f = t - 2 on only round t is left, where
            // f = t is enough.
            let settling = match t - f {
                0 => t + 1,
                1 | 2 => t,
                _ => f + 2,
            };
            expect(t, &one_a_round(n, f, 1), settling, settling);
        }
    }
}

/// One crash in each of the rounds 2 to f + 1: r - 1 crashes by round r, which is just enough in every round before t.
#[test]
fn one_crash_a_round_from_2_on_at_every_size() {
    for (n, t) in SIZES.flat_map(|n| (MIN_CRASHES..n).map(move |t| (n, t))) {
        for f in numbers_of_crashes(t) {
            // t - 1 crashes by t are too few in any case; with f = t the last crash is of round t + 1.
            let settling = t.min(f + 2);
            let b = if f == t { t + 1 } else { settling };
            expect(t, &one_a_round(n, f, 2), settling, b);
        }
    }
}

/// Numbers of crashes from 0 to t: all for a small t; for a larger one the ends, where S turns, and the middle.
fn numbers_of_crashes(t: usize) -> impl Iterator<Item = usize> {
    (0..=t).filter(move |f| t < 16 || *f < 2 || *f == t / 2 || f + 3 >= t)
}

/// The k-th process crashes in round k - 1 + `from`, k from 1 to f.
fn one_a_round(n: usize, f: usize, from: usize) -> Vec<u8> {
    let crash = |k| if k <= f { k - 1 + from } else { 0 };
    (1..=n).map(|k| crash(k) as u8).collect()
}

/// Every table of crash rounds of an accepted schedule with n from 4 to 6, at every t; S is written out a second time.
#[test]
fn s_is_the_least_round_for_every_small_table() {
    // All tables without those of more than t crashes; of t + 1 rounds to the power of the number that crash.
    assert_eq!(small_tables(4, 3), 625 - 256);
    assert_eq!(small_tables(5, 3), 3_125 - 5 * 256 - 1_024);
    assert_eq!(small_tables(5, 4), 7_776 - 3_125);
    assert_eq!(small_tables(6, 3), 15_625 - 15 * 256 - 6 * 1_024 - 4_096);
    assert_eq!(small_tables(6, 4), 46_656 - 6 * 3_125 - 15_625);
    assert_eq!(small_tables(6, 5), 117_649 - 46_656);
}

/// Expects S and B of each table for this n and t, and gives the number of tables.
fn small_tables(n: usize, t: usize) -> usize {
    let choices = t + 2;
    let mut tables = 0;
    for number in 0..choices.pow(n as u32) {
        let crash = |place| (number / choices.pow(place) % choices) as u8;
        let crashes: Vec<u8> = (0..n as u32).map(crash).collect();
        let up_to = |r| crashes.iter().filter(|crash| **crash <= r as u8).count();
        let (survive, f) = (up_to(0), n - up_to(0));
        if f > t {
            continue;
        }
        let by = |r| up_to(r) - survive;
        let early = (2..t).find(|r| by(*r) < r - 1);
        let settling = early.unwrap_or(if by(t) < t { t } else { t + 1 });
        let b = if f + 2 <= t { f + 2 } else { f + 1 };
        expect(t, &crashes, settling, b);
        tables += 1;
    }
    tables
}

/// Gives a process of the finished run of a schedule another decided round, and expects these words.
fn broken(schedule: &Schedule, i: usize, round: u8, words: &str) {
    let mut run = run(schedule).expect("the schedule is accepted");
    assert_eq!(check(schedule, &run), Ok(()));
    run.rounds[i - 1] = round;
    assert_eq!(check(schedule, &run), Err(words.to_string()));
}

#[test]
fn a_round_before_t_completed_undecided_with_too_few_crashes() {
    // S = 3. B = 6 lets it pass, and so would a rule that counts the crashes of round 4 in round 3.
    let schedule = worst(6, &[1, 4, 4, 4, 0, 0, 0, 0]);
    let words = "process 8 completes round 3 undecided, with 1 of at least 2 crashes by it";
    broken(&schedule, 8, 4, words);
    // No decision at all breaks it too.
    broken(&schedule, 8, 0, words);
    // One that crashes after the round completes it; process 1, which doesn't, has no decision.
    let words = "process 2 completes round 3 undecided, with 1 of at least 2 crashes by it";
    broken(&schedule, 2, 0, words);
    // Case H: process 1 decides in round 2 and crashes in round 3.
    let words = "process 1 completes round 2 undecided, with 0 of at least 1 crashes by it";
    broken(&worst(3, &[3, 0, 0, 0]), 1, 0, words);
}

/// Case G: 2 is r - 1, which is enough in a round before t.
#[test]
fn round_t_completed_undecided_with_t_minus_1_crashes() {
    let mut schedule = Schedule::quiet(4, 3);
    schedule.crashes = vec![1, 0, 0, 2];
    schedule.reaches = vec![0b0110, 0, 0, 0b0010];
    let words = "process 3 completes round 3 undecided, with 2 of at least 3 crashes by it";
    broken(&schedule, 3, 4, words);
}

/// Case E: three crashes by round 3 = t let process 3 complete it undecided, but not the last round.
#[test]
fn the_last_round_completed_undecided() {
    let words = "process 3 completes round 4 undecided, and it is the last one";
    broken(&case_e(), 3, 0, words);
}

fn case_e() -> Schedule {
    let mut schedule = Schedule::quiet(4, 3);
    schedule.crashes = vec![1, 3, 0, 2];
    schedule.reaches = vec![0b0110, 0, 0, 0b0010];
    schedule
}

/// How often a schedule meets the number of crashes with equality, before round t and in it.
fn met(schedule: &Schedule) -> (u64, u64) {
    let run = run(schedule).expect("the schedule is accepted");
    let equalities = equalities(schedule, &run);
    (equalities.before_t, equalities.in_t)
}

#[test]
fn equality_is_counted_once_for_each_process_and_round() {
    // Cases A and K: all decide in round 2.
    assert_eq!(met(&Schedule::quiet(4, 3)), (0, 0));
    let mut schedule = Schedule::quiet(4, 3);
    schedule.crashes = vec![1, 1, 1, 0];
    assert_eq!(met(&schedule), (0, 0));
    // Case D: three complete round 2 undecided with one crash by it.
    let mut schedule = Schedule::quiet(4, 3);
    schedule.crashes[0] = 1;
    schedule.reaches[0] = bit(2);
    assert_eq!(met(&schedule), (3, 0));
    // The same in round 2: process 2 hears all and decides, 3 and 4 complete it undecided.
    schedule.crashes[0] = 2;
    assert_eq!(met(&schedule), (2, 0));
    // Case E: two crashes by round 2 are more than one; process 3 completes round 3 undecided, with three by it.
    assert_eq!(met(&case_e()), (0, 1));
    // One crash a round from 2 to 6: 7, 6, 5 and 4 complete rounds 2 to 5 undecided, with 1 to 4 by them. Five by
    // round 6 are too few. With a sixth one there two processes complete it undecided.
    assert_eq!(met(&worst(6, &[2, 3, 4, 5, 6, 0, 0, 0])), (22, 0));
    assert_eq!(met(&worst(6, &[2, 3, 4, 5, 6, 6, 0, 0])), (22, 2));
}
