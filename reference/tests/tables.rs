//! Questions 1 to 7 on tables, their order, and the answer tables of a refused call.

use reference::questions::Refusal;
use reference::run::{simulate, Counts};
use reference::schedule::{bit, everyone, Schedule};
use reference::{Set, LARGEST};

/// The answer of a call whose answer tables have these lengths; a refused call must leave them as they were.
fn call(schedule: &Schedule, decisions: usize, rounds: usize) -> Result<Counts, Refusal> {
    let (mut decisions, mut rounds) = (vec![7; decisions], vec![9; rounds]);
    let answer = simulate(schedule, &mut decisions, &mut rounds);
    if answer.is_err() {
        assert!(decisions.iter().all(|entry| *entry == 7));
        assert!(rounds.iter().all(|entry| *entry == 9));
    }
    answer
}

fn refused(schedule: &Schedule, refusal: Refusal) {
    assert_eq!(call(schedule, schedule.n, schedule.n), Err(refusal));
}

#[test]
fn an_accepted_call_fills_the_answer_tables() {
    let (mut decisions, mut rounds) = ([7; 5], [9; 5]);
    let counts = simulate(&Schedule::quiet(5, 4), &mut decisions, &mut rounds);
    // Five processes send to the four others in rounds 1, 2 and 3.
    let expected = Counts {
        f: 0,
        first: 1,
        last: 2,
        messages: 3 * 5 * 4,
    };
    assert_eq!(counts, Ok(expected));
    assert_eq!((decisions, rounds), ([1; 5], [2; 5]));
}

#[test]
fn sizes_of_any_value_are_asked_first() {
    let mut schedule = Schedule::quiet(4, 3);
    for n in [0, 3, LARGEST + 1, usize::MAX] {
        schedule.n = n;
        assert_eq!(call(&schedule, 0, 0), Err(Refusal::Processes));
    }
    schedule.n = 4;
    for t in [0, 2, 4, usize::MAX] {
        schedule.t = t;
        assert_eq!(call(&schedule, 0, 0), Err(Refusal::CrashLimit));
    }
}

#[test]
fn each_of_the_five_tables_is_n_long() {
    let right = Schedule::quiet(4, 3);
    for length in [0, 3, 5, LARGEST] {
        assert_eq!(call(&right, length, 4), Err(Refusal::Tables));
        assert_eq!(call(&right, 4, length), Err(Refusal::Tables));
        let mut schedule = right.clone();
        schedule.votes.resize(length, 2);
        refused(&schedule, Refusal::Tables);
        let mut schedule = right.clone();
        schedule.crashes.resize(length, 9);
        refused(&schedule, Refusal::Tables);
        let mut schedule = right.clone();
        schedule.reaches.resize(length, 1);
        refused(&schedule, Refusal::Tables);
    }
}

#[test]
fn processes_are_asked_in_order() {
    let mut schedule = Schedule::quiet(4, 3);
    schedule.crashes = vec![1; 4];
    refused(&schedule, Refusal::TooManyCrashes);
    schedule.votes[3] = 2;
    refused(&schedule, Refusal::Vote);
    schedule.crashes[2] = 255;
    schedule.reaches[2] = bit(3);
    refused(&schedule, Refusal::CrashRound);
    schedule.reaches[1] = 0b10;
    refused(&schedule, Refusal::Reach);
    schedule.votes[1] = 255;
    refused(&schedule, Refusal::Vote);
}

#[test]
fn a_reach_names_only_others_of_1_to_n_and_nobody_without_a_crash() {
    let mut schedule = Schedule::quiet(5, 3);
    schedule.crashes[1] = 2;
    schedule.reaches[1] = 0b11101;
    assert!(call(&schedule, 5, 5).is_ok());
    for wrong in [0b00010, 0b100000, bit(LARGEST), Set::MAX] {
        schedule.reaches[1] = wrong;
        refused(&schedule, Refusal::Reach);
    }
    schedule.reaches[1] = 0;
    schedule.reaches[2] = 1;
    refused(&schedule, Refusal::Reach);
}

#[test]
fn a_full_reach_of_the_largest_cluster() {
    let mut schedule = Schedule::quiet(LARGEST, LARGEST - 1);
    schedule.crashes[LARGEST - 1] = LARGEST as u8;
    schedule.reaches[LARGEST - 1] = everyone(LARGEST - 1);
    assert!(call(&schedule, LARGEST, LARGEST).is_ok());
    schedule.reaches[LARGEST - 1] = everyone(LARGEST);
    refused(&schedule, Refusal::Reach);
}
