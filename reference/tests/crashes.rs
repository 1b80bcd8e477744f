//! The count of crashes that ends sooner, worked by hand from document 02, K4; and question 7 and f, which go by it.

use reference::crashes::count_crashes;
use reference::questions::Refusal;
use reference::run::run;
use reference::schedule::{bit, Schedule};
use reference::LARGEST;

/// The count and the number of the last process looked at.
fn counted(t: usize, crashes: &[u8]) -> (usize, usize) {
    let counted = count_crashes(t, crashes);
    (counted.count, counted.looked_at)
}

/// t of all sizes.
const ANY_T: [usize; 8] = [0, 1, 3, 63, 144, 1 << 32, usize::MAX - 1, usize::MAX];

#[test]
fn an_empty_table_has_nobody_to_look_at() {
    for t in ANY_T {
        assert_eq!(counted(t, &[]), (0, 0));
    }
}

#[test]
fn without_a_crash_all_are_looked_at() {
    for t in ANY_T {
        assert_eq!(counted(t, &[0]), (0, 1));
        assert_eq!(counted(t, &[0; 4]), (0, 4));
        assert_eq!(counted(t, &[0; 300]), (0, 300));
    }
}

#[test]
fn with_t_crashes_all_are_looked_at() {
    assert_eq!(counted(3, &[1, 2, 3, 0]), (3, 4));
    assert_eq!(counted(3, &[0, 1, 2, 3]), (3, 4));
    assert_eq!(counted(1, &[0, 0, 4, 0, 0]), (1, 5));
    assert_eq!(counted(1, &[7]), (1, 1));
    // Fewer than t.
    assert_eq!(counted(3, &[1, 0, 0, 3, 0, 0]), (2, 6));
    assert_eq!(counted(9, &[1, 1, 1, 1]), (4, 4));
}

#[test]
fn the_crash_that_makes_t_plus_1_may_be_the_last_process() {
    assert_eq!(counted(3, &[1, 2, 3, 4]), (4, 4));
    assert_eq!(counted(3, &[1, 3, 4, 0, 0, 2]), (4, 6));
    assert_eq!(counted(0, &[0, 0, 5]), (1, 3));
    assert_eq!(counted(0, &[1]), (1, 1));
    assert_eq!(counted(1, &[1, 0, 0, 0, 1]), (2, 5));
}

#[test]
fn the_crash_that_makes_t_plus_1_may_be_before_the_end() {
    // No crash comes after it.
    assert_eq!(counted(3, &[1, 1, 1, 1, 0]), (4, 4));
    assert_eq!(counted(1, &[0, 2, 2, 0, 0, 0]), (2, 3));
    // More crashes come after it, and are not counted.
    assert_eq!(counted(3, &[1, 1, 1, 1, 1, 1]), (4, 4));
    assert_eq!(counted(1, &[0, 1, 0, 0, 1, 0, 1, 1]), (2, 5));
    assert_eq!(counted(2, &[4, 0, 3, 0, 2, 0, 1, 0]), (3, 5));
}

#[test]
fn with_t_0_the_first_crash_ends_it() {
    assert_eq!(counted(0, &[1; 5]), (1, 1));
    assert_eq!(counted(0, &[0, 0, 9, 9]), (1, 3));
    assert_eq!(counted(0, &[0, 0, 0, 0]), (0, 4));
}

#[test]
fn with_the_largest_t_nothing_ends_it() {
    for t in [usize::MAX, usize::MAX - 1, 1 << 63, 1 << 32, 1 << 8] {
        assert_eq!(counted(t, &[1; 5]), (5, 5));
        assert_eq!(counted(t, &[1]), (1, 1));
        assert_eq!(counted(t, &[255; 80]), (80, 80));
    }
}

#[test]
fn every_crash_round_but_0_is_a_crash() {
    assert_eq!(counted(1, &[255, 0, 255, 0]), (2, 3));
    assert_eq!(counted(2, &[255, 0, 255, 0]), (2, 4));
    // Rounds above t + 1, and those with a single bit.
    assert_eq!(counted(3, &[2, 4, 8, 16, 32]), (4, 4));
    assert_eq!(counted(5, &[64, 128, 0, 254, 1]), (4, 5));
    for round in 1..=255 {
        assert_eq!(counted(0, &[0, round, 0]), (1, 2));
    }
}

#[test]
fn tables_longer_than_a_number_has_bits() {
    assert_eq!(counted(64, &[1; 100]), (65, 65));
    assert_eq!(counted(99, &[1; 100]), (100, 100));
    assert_eq!(counted(100, &[1; 100]), (100, 100));
    let mut crashes = [0; 100];
    for i in [1, 64, 65, 100] {
        crashes[i - 1] = 2;
    }
    let expected = [(1, 1), (2, 64), (3, 65), (4, 100), (4, 100)];
    for (t, expected) in expected.into_iter().enumerate() {
        assert_eq!(counted(t, &crashes), expected);
    }
    // More crashes than a byte counts.
    assert_eq!(counted(299, &[3; 1_000]), (300, 300));
    assert_eq!(counted(1_000, &[3; 1_000]), (1_000, 1_000));
}

/// On every table of up to eight processes the answer is as the request says, which leaves no other one: the count is
/// that of the processes up to the last one looked at; it is t + 1 and that one crashes, or it is at most t and that
/// one is n.
#[test]
fn every_small_table_is_counted_as_the_request_says() {
    for n in 0..=8 {
        for crashing in 0..1_u32 << n {
            let crashes: Vec<u8> = (0..n).map(|place| (crashing >> place & 1) as u8).collect();
            for t in 0..=9 {
                let (count, last) = counted(t, &crashes);
                let to_last: u8 = crashes[..last].iter().sum();
                assert_eq!(count, usize::from(to_last));
                if count == t + 1 {
                    assert_eq!(crashes[last - 1], 1);
                } else {
                    assert!(count <= t);
                    assert_eq!(last, n);
                }
            }
        }
    }
}

/// A schedule with t = 3, all votes 1, whose processes crash in these rounds and reach nobody.
fn schedule(crashes: &[u8]) -> Schedule {
    let mut schedule = Schedule::quiet(crashes.len(), 3);
    schedule.crashes = crashes.to_vec();
    schedule
}

#[test]
fn question_7_goes_by_the_count() {
    let too_many = Err(Refusal::TooManyCrashes);
    assert_eq!(schedule(&[1, 2, 3, 0]).ask(), Ok(()));
    assert_eq!(schedule(&[1, 2, 3, 4]).ask(), too_many);
    assert_eq!(schedule(&[1, 1, 1, 1, 0, 0]).ask(), too_many);
    assert_eq!(schedule(&[1, 1, 1, 1, 1, 1]).ask(), too_many);
    assert_eq!(schedule(&[1, 0, 0, 1, 1, 1]).ask(), too_many);
    assert_eq!(schedule(&[1, 0, 0, 1, 1, 0]).ask(), Ok(()));
}

/// The count would end at process 4; processes 5 and 6 are asked all the same, and first.
#[test]
fn questions_on_later_processes_come_before_question_7() {
    let too_many = schedule(&[1, 1, 1, 1, 0, 1]);
    assert_eq!(too_many.ask(), Err(Refusal::TooManyCrashes));
    for i in [5, 6] {
        let mut wrong = too_many.clone();
        wrong.votes[i - 1] = 2;
        assert_eq!(wrong.ask(), Err(Refusal::Vote));
        let mut wrong = too_many.clone();
        wrong.crashes[i - 1] = 5;
        assert_eq!(wrong.ask(), Err(Refusal::CrashRound));
        let mut wrong = too_many.clone();
        wrong.reaches[i - 1] = bit(i);
        assert_eq!(wrong.ask(), Err(Refusal::Reach));
    }
}

#[test]
fn f_of_an_accepted_schedule_is_the_full_count() {
    let f = |schedule: &Schedule| run(schedule).expect("it is accepted").counts.f;
    assert_eq!(f(&schedule(&[0, 0, 0, 0])), 0);
    assert_eq!(f(&schedule(&[0, 4, 0, 0, 0, 1])), 2);
    assert_eq!(f(&schedule(&[0, 4, 3, 0, 0, 1])), 3);
    let mut largest = Schedule::quiet(LARGEST, LARGEST - 1);
    largest.crashes = vec![1; LARGEST];
    largest.crashes[7] = 0;
    assert_eq!(f(&largest), LARGEST - 1);
}
