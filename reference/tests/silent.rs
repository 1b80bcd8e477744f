//! The set of silent processes in a run (document 02, K7): after which rows it is set in the marked schedules, worked
//! by hand; what `silent` tests seen to be broken by a set that breaks it; and every schedule with n = 4, t = 3 in
//! which all vote 1.
//!
//! After a row that sets it in round r, the set names each process that crashed before round r and none whose crash
//! round is 0 or above r. One that crashes in r is named exactly if its message didn't come.

mod shared;

use reference::member::Member;
use reference::run::{run_heard, Hearing};
use reference::schedule::{bit, everyone, Schedule};
use reference::silent::{check, sets, settings, Settings};
use reference::Set;

use shared::{all_schedules, schedule, set};

/// The hearings of a schedule, which break nothing. A row that doesn't set the set leaves it; after one that does, it
/// is as large as n minus the estimates heard; and the state stays in range.
fn heard(schedule: &Schedule) -> Vec<Hearing> {
    let (_, hearings) = run_heard(schedule).expect("the schedule is accepted");
    assert_eq!(check(schedule, &hearings), Ok(()));
    for hearing in &hearings {
        let silent = hearing.after.silent;
        if sets(hearing) {
            let estimates = hearing.row.iter().filter(|code| matches!(code, 1 | 2));
            let named = silent.count_ones() as usize;
            assert_eq!(named, schedule.n - estimates.count());
        } else {
            assert_eq!(silent, hearing.before.silent);
        }
        assert!(hearing.after.in_range());
    }
    hearings
}

/// The rows that set it: round, process, and the set after it.
fn setting(schedule: &Schedule) -> Vec<(usize, usize, Set)> {
    let hearings = heard(schedule);
    let rows = hearings.iter().filter(|hearing| sets(hearing));
    rows.map(|row| (row.round, row.before.own, row.after.silent))
        .collect()
}

/// Expects these rows to set it: for each round the processes and their sets in letters. No other row sets it.
fn expect(schedule: &Schedule, rounds: &[(usize, &[(usize, &str)])]) {
    let of_round = |(r, rows): &(usize, &[(usize, &str)])| {
        let r = *r;
        let rows = rows.iter().map(move |(i, letters)| (r, *i, set(letters)));
        rows.collect::<Vec<_>>()
    };
    let expected: Vec<(usize, usize, Set)> = rounds.iter().flat_map(of_round).collect();
    assert_eq!(setting(schedule), expected);
}

/// The state of process i after its last hearing.
fn last(schedule: &Schedule, i: usize) -> Member {
    let of_process = |hearing: &&Hearing| hearing.before.own == i;
    let hearings = heard(schedule);
    let last = hearings.iter().rfind(of_process);
    last.expect("the process hears a row").after
}

const NOBODY_IN_2: (usize, &[(usize, &str)]) =
    (2, &[(1, "0000"), (2, "0000"), (3, "0000"), (4, "0000")]);

#[test]
fn cases_a_b_and_j() {
    // All send an estimate in round 2, and decide there. In round 3 they hear decided messages.
    expect(&schedule(&[]), &[NOBODY_IN_2]);
    let mut case_b = schedule(&[]);
    case_b.votes[0] = 0;
    // Four estimates of 0 are estimates.
    expect(&case_b, &[NOBODY_IN_2]);
    expect(&schedule(&[(1, 4, "0000")]), &[NOBODY_IN_2]);
}

#[test]
fn case_c() {
    // Nobody is named after round 1, though process 1 is missed there. The row of round 2 decides and sets it.
    let case_c = schedule(&[(1, 1, "0000")]);
    expect(&case_c, &[(2, &[(2, "1000"), (3, "1000"), (4, "1000")])]);
    let first = &heard(&case_c)[0];
    assert_eq!((first.round, first.row[0], first.after.silent), (1, 0, 0));
    assert_eq!(last(&case_c, 2).silent, set("1000"));
}

#[test]
fn case_d() {
    // Rounds 2 and 3: process 1 has crashed before both.
    let all: &[(usize, &str)] = &[(2, "1000"), (3, "1000"), (4, "1000")];
    expect(&schedule(&[(1, 1, "0100")]), &[(2, all), (3, all)]);
}

#[test]
fn case_e() {
    let case_e = schedule(&[(1, 1, "0110"), (4, 2, "0100"), (2, 3, "0000")]);
    // Process 4 crashes in round 2 and reaches 2, so that 3 alone names it. Process 2 crashes in round 3 unheard, so
    // that 3 names it there, and in round 4, after which it decides.
    let rounds: [(usize, &[(usize, &str)]); 3] = [
        (2, &[(2, "1000"), (3, "1001")]),
        (3, &[(3, "1101")]),
        (4, &[(3, "1101")]),
    ];
    expect(&case_e, &rounds);
    assert_eq!((last(&case_e, 3).decided, last(&case_e, 3).round), (4, 5));
    // Process 4 heard a row in round 1 alone, and process 2 none in its crash round.
    assert_eq!((last(&case_e, 4).silent, last(&case_e, 4).round), (0, 2));
    assert_eq!(last(&case_e, 2).silent, set("1000"));
}

#[test]
fn case_f() {
    let case_f = schedule(&[(1, 1, "0110"), (4, 2, "0100"), (2, 3, "0010")]);
    // As E, but the message of process 2 comes in round 3, where it crashes. So 3 decides there on two estimates. In
    // round 4 it hears nothing from the others, and the set stays: it is of the last row that set it, not of now.
    let rounds: [(usize, &[(usize, &str)]); 2] =
        [(2, &[(2, "1000"), (3, "1001")]), (3, &[(3, "1001")])];
    expect(&case_f, &rounds);
    let last = last(&case_f, 3);
    assert_eq!((last.decided, last.round), (3, 5));
    assert_eq!(last.silent, set("1001"));
}

#[test]
fn case_g() {
    let rounds: [(usize, &[(usize, &str)]); 2] = [
        (2, &[(2, "1000"), (3, "1001")]),
        (3, &[(2, "1001"), (3, "1001")]),
    ];
    expect(&schedule(&[(1, 1, "0110"), (4, 2, "0100")]), &rounds);
}

#[test]
fn case_h() {
    // Process 1 crashes in round 3 unheard, after all decided in round 2: the rows of decided members leave the set.
    let case_h = schedule(&[(1, 3, "0000")]);
    expect(&case_h, &[NOBODY_IN_2]);
    for i in 2..=4 {
        let last = last(&case_h, i);
        assert_eq!((last.round, last.silent), (4, 0));
    }
}

#[test]
fn case_i() {
    // Process 1 crashes in round 2, and all its messages come.
    let case_i = schedule(&[(1, 2, "0111")]);
    expect(&case_i, &[(2, &[(2, "0000"), (3, "0000"), (4, "0000")])]);
}

#[test]
fn case_k() {
    let case_k = schedule(&[(1, 1, "0000"), (2, 1, "0000"), (3, 1, "0000")]);
    expect(&case_k, &[(2, &[(4, "1110")])]);
}

/// Processes 1 and 2 hear everybody in round 2 and decide. Process 4 misses 3, and hears "decided" in round 3: the row
/// leaves its set, and so does that of process 1, which is decided.
#[test]
fn a_row_with_a_decided_message_leaves_it() {
    let decided = schedule(&[(3, 2, "1100"), (1, 4, "0000"), (2, 3, "0000")]);
    expect(&decided, &[(2, &[(1, "0000"), (2, "0000"), (4, "0010")])]);
    assert_eq!(last(&decided, 4).silent, set("0010"));
    assert_eq!((last(&decided, 1).round, last(&decided, 1).silent), (4, 0));
}

/// Process 3 alone hears everybody in round 2 and decides; it crashes in round 3 unheard, so that 1 and 2 hear no
/// decided message there and set it.
#[test]
fn an_unheard_decision_lets_the_row_set_it() {
    let unheard = schedule(&[(4, 2, "0010"), (3, 3, "0000")]);
    let rounds: [(usize, &[(usize, &str)]); 2] = [
        (2, &[(1, "0001"), (2, "0001"), (3, "0000")]),
        (3, &[(1, "0011"), (2, "0011")]),
    ];
    expect(&unheard, &rounds);
}

/// Three crashes in round 2 of n = 64: process 1 reaches 2 to 33, 32 reaches 33 to 64, and 64 reaches 31 to 34. So 33
/// hears everybody and decides; the others hear of it in round 3, in a row that leaves the set.
#[test]
fn both_sides_of_the_middle_in_the_largest_cluster() {
    let mut schedule = Schedule::quiet(64, 63);
    for (i, from, to) in [(1, 2, 33), (32, 33, 64), (64, 31, 34)] {
        schedule.crashes[i - 1] = 2;
        schedule.reaches[i - 1] = everyone(to) & !everyone(from - 1);
    }
    let rows = setting(&schedule);
    assert_eq!(rows.len(), 61);
    for (round, i, silent) in rows {
        let expected = match i {
            2..=30 => bit(32) | bit(64),
            31 => bit(32),
            33 => 0,
            34 => bit(1),
            _ => bit(1) | bit(64),
        };
        assert_eq!((round, silent), (2, expected), "process {i}");
    }
}

/// Process i crashes in round i and reaches the next one alone, i from 1 to n - 1; 1 reaches all but 2. So process n
/// names those before r in round r, and r itself unless it is n - 1.
#[test]
fn a_chain_through_all_rounds() {
    for n in [33, 63, 64] {
        let mut schedule = Schedule::quiet(n, n - 1);
        for i in 1..n {
            schedule.crashes[i - 1] = i as u8;
            schedule.reaches[i - 1] = bit(i + 1);
        }
        schedule.reaches[0] = everyone(n) & !bit(1) & !bit(2);
        let rows = setting(&schedule);
        let of_last: Vec<(usize, Set)> = rows
            .iter()
            .filter(|(_, i, _)| *i == n)
            .map(|(r, _, silent)| (*r, *silent))
            .collect();
        let named = |r| everyone(if r == n - 1 { r - 1 } else { r });
        let expected: Vec<(usize, Set)> = (2..n).map(|r| (r, named(r))).collect();
        assert_eq!(of_last, expected, "n = {n}");
    }
}

/// Gives process i another set after the row that it hears in a round, and expects these words.
fn broken(schedule: &Schedule, (round, i): (usize, usize), letters: &str, words: &str) {
    let mut hearings = heard(schedule);
    let row = hearings
        .iter_mut()
        .find(|hearing| (hearing.round, hearing.before.own) == (round, i));
    row.expect("the process hears a row").after.silent = set(letters);
    let expected = match words {
        "" => Ok(()),
        _ => Err(words.to_string()),
    };
    assert_eq!(check(schedule, &hearings), expected);
}

#[test]
fn sets_that_are_wrong() {
    // Case E: after round 3 process 3 names 1 and 4, which crashed before, and 2, which crashes there.
    let case_e = schedule(&[(1, 1, "0110"), (4, 2, "0100"), (2, 3, "0000")]);
    let words = "the set of process 3 doesn't name process 1 after round 3";
    broken(&case_e, (3, 3), "0101", words);
    let words = "the set of process 3 doesn't name process 4 after round 3";
    broken(&case_e, (3, 3), "1100", words);
    // Itself, which survives.
    let words = "the set of process 3 names process 3 after round 3";
    broken(&case_e, (3, 3), "1111", words);
    // In round 2 a crash of round 3 is above it.
    let words = "the set of process 3 names process 2 after round 2";
    broken(&case_e, (2, 3), "1101", words);
    let words = "the set of process 2 names process 2 after round 2";
    broken(&case_e, (2, 2), "1100", words);
    // Nobody at all.
    let words = "the set of process 2 doesn't name process 1 after round 2";
    broken(&case_e, (2, 2), "0000", words);
    // The last round.
    let words = "the set of process 3 doesn't name process 2 after round 4";
    broken(&case_e, (4, 3), "1001", words);
    // Case K: the row that decides. Case A: a survivor.
    let case_k = schedule(&[(1, 1, "0000"), (2, 1, "0000"), (3, 1, "0000")]);
    let words = "the set of process 4 doesn't name process 3 after round 2";
    broken(&case_k, (2, 4), "1100", words);
    let words = "the set of process 1 names process 4 after round 2";
    broken(&schedule(&[]), (2, 1), "0001", words);
}

/// What the request leaves to the reach, and the rows of which it says nothing.
#[test]
fn sets_that_are_let_pass() {
    // Case E: processes 4 and 2 crash in rounds 2 and 3.
    let case_e = schedule(&[(1, 1, "0110"), (4, 2, "0100"), (2, 3, "0000")]);
    broken(&case_e, (2, 2), "1001", "");
    broken(&case_e, (2, 3), "1000", "");
    broken(&case_e, (3, 3), "1001", "");
    // A row of round 1 and one that a decided member hears.
    broken(&case_e, (1, 3), "0100", "");
    broken(&schedule(&[(1, 1, "0000")]), (3, 2), "0011", "");
}

/// The counts by rounds are worked by hand beside those of the matching, in `matching/src/small.rs`. With a vote 0 all
/// decide in round 2, so that they are those of that round again.
#[test]
fn every_schedule_with_n_4_and_t_3_in_which_all_vote_1() {
    let mut by_round = [Settings::default(); 5];
    let count = all_schedules(|schedule| {
        for hearing in heard(schedule) {
            if sets(&hearing) {
                let (r, own) = (hearing.round, hearing.before.own);
                let silent = |j: &usize| {
                    let crash = schedule.crash(*j);
                    (1..r).contains(&crash) || (crash == r && !schedule.names(*j, own))
                };
                let expected: Set = (1..=4).filter(silent).map(bit).sum();
                assert_eq!(hearing.after.silent, expected, "{schedule:?}");
                by_round[r] += settings(schedule, &[hearing]);
            }
        }
    });
    assert_eq!(count, 137_345);
    let counts = by_round.map(|round| (round.rows, round.named, round.not_named));
    let in_2 = (346_564, 102_192, 102_192);
    let in_3 = (114_224, 31_008, 27_456);
    assert_eq!(counts, [(0, 0, 0), (0, 0, 0), in_2, in_3, (19_328, 0, 0)]);
}
