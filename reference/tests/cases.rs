//! The marked schedules of document 01, A to K, and its five refused ones.
//!
//! The messages are worked again, as document 02 asks with K1: with n = 4 a completing sender that says something adds
//! 3. So a round with three of them is 9, and what a crash adds to its round is written beside: 9 + 1. A round that is
//! left out of a sum is one in which nobody says anything any more: a member that decides in d says so in d + 1 and is
//! stopped after it.
//!
//! The first deciders are worked by hand from document 02, K3: the smallest decided round, then a survivor, then the
//! lower number.

mod shared;

use reference::questions::Refusal;
use reference::report::answer;
use reference::run::{run, run_heard, Run, NONE};
use reference::schedule::Schedule;
use reference::text::{read, write};

use shared::schedule;

/// The answers as document 01 writes them: decision@round or - for each process.
fn answers(run: &Run) -> String {
    let one = |(decision, round): (&u8, &u8)| match *decision {
        NONE => {
            assert_eq!(*round, 0);
            "-".to_string()
        }
        value => format!("{value}@{round}"),
    };
    let all: Vec<String> = run.decisions.iter().zip(&run.rounds).map(one).collect();
    all.join(" ")
}

/// Runs the schedule, from tables and from its text, and compares answers, f, first and messages.
fn expect(schedule: &Schedule, expected: &str, f: usize, first: usize, messages: usize) {
    let (run, hearings) = run_heard(schedule).expect("a marked schedule is accepted");
    assert_eq!(answers(&run), expected);
    let counts = &run.counts;
    let found = (counts.f, counts.first, counts.messages);
    assert_eq!(found, (f, first, messages));
    assert_eq!(read(&write(schedule)), Ok(schedule.clone()));
    assert_eq!(reference::demand3::check(schedule, &run), Ok(()));
    assert_eq!(reference::first::check(schedule, &run), Ok(()));
    assert_eq!(reference::so_far::check(schedule, &run), Ok(()));
    assert_eq!(reference::silent::check(schedule, &hearings), Ok(()));
}

#[test]
fn case_a_no_crash() {
    // All four send in rounds 1, 2 and 3: 12 + 12 + 12.
    expect(&schedule(&[]), "1@2 1@2 1@2 1@2", 0, 1, 36);
}

#[test]
fn case_b_process_1_votes_0() {
    let mut schedule = schedule(&[]);
    schedule.votes[0] = 0;
    // As A: 12 + 12 + 12.
    expect(&schedule, "0@2 0@2 0@2 0@2", 0, 1, 36);
}

#[test]
fn case_c() {
    // Round 1: three complete it, and the crash reaches nobody: 9 + 0. Then 9 in each of rounds 2 and 3.
    expect(&schedule(&[(1, 1, "0000")]), "- 0@2 0@2 0@2", 1, 2, 27);
}

#[test]
fn case_d() {
    // Round 1: 9 + 1. They decide in round 3, so 9 in each of rounds 2, 3 and 4.
    expect(&schedule(&[(1, 1, "0100")]), "- 0@3 0@3 0@3", 1, 2, 37);
}

#[test]
fn case_e() {
    let crashes = [(1, 1, "0110"), (4, 2, "0100"), (2, 3, "0000")];
    // Round 1: processes 2, 3 and 4 complete it, 9 + 2. Round 2: processes 2 and 3, 6 + 1. Round 3: process 3 alone,
    // 3 + 0. Round 4: process 3 again, which decides only there, 3.
    expect(&schedule(&crashes), "- - 1@4 -", 3, 3, 24);
}

#[test]
fn case_f() {
    let crashes = [(1, 1, "0110"), (4, 2, "0100"), (2, 3, "0010")];
    // As E, but the crash of round 3 reaches one: 9 + 2, 6 + 1, 3 + 1, and 3 in round 4 for "decided".
    expect(&schedule(&crashes), "- - 0@3 -", 3, 3, 25);
}

#[test]
fn case_g() {
    let crashes = [(1, 1, "0110"), (4, 2, "0100")];
    // Rounds 1 and 2 as E: 9 + 2, 6 + 1. Then processes 2 and 3 send on: 6 in round 3, and 6 in round 4 for "decided".
    expect(&schedule(&crashes), "- 0@3 0@3 -", 2, 2, 30);
}

#[test]
fn case_h() {
    // 12 in each of rounds 1 and 2. In round 3 process 1 crashes while it says "decided", unheard: 9 + 0.
    // It crashes after its decision, and 2 survives.
    expect(&schedule(&[(1, 3, "0000")]), "1@2 1@2 1@2 1@2", 1, 2, 33);
}

#[test]
fn case_i() {
    // 12 in round 1, 9 + 3 in round 2, and 9 in round 3. A full reach is as much as a completing sender adds.
    expect(&schedule(&[(1, 2, "0111")]), "- 1@2 1@2 1@2", 1, 2, 33);
}

#[test]
fn case_j() {
    // As A, for process 1 is stopped in its crash round: 12 + 12 + 12 + 0. It crashes all the same, and 2 survives.
    expect(&schedule(&[(1, 4, "0000")]), "1@2 1@2 1@2 1@2", 1, 2, 36);
}

#[test]
fn case_k() {
    let crashes = [(1, 1, "0000"), (2, 1, "0000"), (3, 1, "0000")];
    // Process 4 alone completes a round: 3 + 0 + 0 + 0 in round 1, and 3 in each of rounds 2 and 3.
    expect(&schedule(&crashes), "- - - 0@2", 3, 4, 9);
}

/// H and J with reaches: "A crash adds the ones of its reach as before" is, in document 01, "if it says something".
#[test]
fn a_crash_adds_its_reach_only_if_it_says_something() {
    // H: 12, 12, and in round 3 the crash says "decided" to two: 9 + 2.
    expect(&schedule(&[(1, 3, "0110")]), "1@2 1@2 1@2 1@2", 1, 2, 35);
    // J: 12, 12, 12, and in round 4 the crashing member is stopped: its reach of three adds 0.
    expect(&schedule(&[(1, 4, "0111")]), "1@2 1@2 1@2 1@2", 1, 2, 36);
}

/// The survivors have the highest numbers, and all decide in round 2.
#[test]
fn a_survivor_goes_before_a_lower_number_that_crashes() {
    // Process 1 crashes in round 3 while it says "decided", process 2 in round 4, stopped: 12, 12, 9 + 0.
    let crashes = [(1, 3, "0000"), (2, 4, "0000")];
    expect(&schedule(&crashes), "1@2 1@2 1@2 1@2", 2, 3, 33);
    // All three are stopped in their crash round: 12, 12, 12.
    let crashes = [1, 2, 3].map(|i| (i, 4, "0000"));
    expect(&schedule(&crashes), "1@2 1@2 1@2 1@2", 3, 4, 36);
}

/// Processes 1 and 3 crash, and all decide in round 2: of the survivors 2 and 4 the lower number.
#[test]
fn the_lower_number_goes_before_among_survivors() {
    // In round 3 both crash while they say "decided": 12, 12, 6 + 0.
    let crashes = [(1, 3, "0000"), (3, 3, "0000")];
    expect(&schedule(&crashes), "1@2 1@2 1@2 1@2", 2, 2, 30);
}

/// Process 3 alone hears four estimates in round 2 and decides; it crashes in round 3, unheard. The survivors 1 and 2
/// decide in round 3 = t on two estimates.
#[test]
fn a_smaller_round_goes_before_a_survivor() {
    let crashes = [(4, 2, "0010"), (3, 3, "0000")];
    // 12, 9 + 1, 6 + 0, and 6 in round 4 for "decided".
    expect(&schedule(&crashes), "1@3 1@3 1@2 -", 2, 3, 34);
}

/// Processes 1 and 2 hear four estimates in round 2, decide and crash; the survivor 4 hears "decided" in round 3. The
/// lower number is first whether it crashes later or sooner than the other.
#[test]
fn the_lower_number_goes_before_among_those_that_crash() {
    for (one, two) in [(4, 3), (3, 4)] {
        let crashes = [(3, 2, "1100"), (1, one, "0000"), (2, two, "0000")];
        // 12, 9 + 2. In round 3 one of 1 and 2 completes and says "decided", the other crashes unheard: with 4 that is
        // 6 + 0. In round 4 only 4 is not stopped: 3.
        expect(&schedule(&crashes), "1@2 1@2 - 1@3", 3, 1, 32);
    }
}

#[test]
fn case_d_report_byte_for_byte() {
    let text = "n t\n4 3\nid vote crash reach\n1 1 1 0100\n2 1 0 0000\n3 1 0 0000\n4 1 0 0000\n";
    let report =
        "n t f first last messages\n4 3 1 2 3 37\nid decision round\n1 - 0\n2 0 3\n3 0 3\n4 0 3\n";
    assert_eq!(write(&schedule(&[(1, 1, "0100")])), text.as_bytes());
    assert_eq!(answer(text.as_bytes()), report.as_bytes());
}

#[test]
fn n_3_with_a_vote_2_is_refused_by_1() {
    let mut schedule = Schedule::quiet(3, 3);
    schedule.votes[0] = 2;
    assert_eq!(run(&schedule), Err(Refusal::Processes));
}

#[test]
fn t_4_at_n_4_is_refused_by_2() {
    assert_eq!(run(&Schedule::quiet(4, 4)), Err(Refusal::CrashLimit));
}

#[test]
fn crash_round_5_is_refused_by_5_while_4_passes() {
    let refused = run(&schedule(&[(1, 5, "0000")]));
    assert_eq!(refused, Err(Refusal::CrashRound));
    assert!(run(&schedule(&[(1, 4, "0000")])).is_ok());
}

#[test]
fn a_reach_of_its_own_process_is_refused_by_6() {
    assert_eq!(run(&schedule(&[(1, 1, "1000")])), Err(Refusal::Reach));
}

#[test]
fn four_crashes_are_refused_by_7() {
    let crashes = [1, 2, 3, 4].map(|i| (i, 1, "0000"));
    assert_eq!(run(&schedule(&crashes)), Err(Refusal::TooManyCrashes));
}
