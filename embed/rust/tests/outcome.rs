//! The outcome without the whole run: what every process that decides has in the run, and the smallest decided round.
use std::collections::BTreeSet;

use fcwfa::bytes::{self, OUTCOME_DECISION, OUTCOME_ROUND};
use fcwfa::Decision::{Abort, Commit};
use fcwfa::{
    outcome, Decided, Decision, Outcome, Processes, Refusal, Schedule, Set, Vote, LARGEST,
};

/// A case of document 01 by its letter.
macro_rules! case {
    ($letter:literal) => {
        include_str!(concat!("../../../schedules/case_", $letter, ".text"))
    };
}

#[test]
fn the_marked_schedules_have_these_outcomes() {
    let marked: [(&str, Decision, usize); 11] = [
        (case!("a"), Commit, 2),
        (case!("b"), Abort, 2),
        (case!("c"), Abort, 2),
        (case!("d"), Abort, 3),
        (case!("e"), Commit, 4),
        (case!("f"), Abort, 3),
        (case!("g"), Abort, 3),
        (case!("h"), Commit, 2),
        (case!("i"), Commit, 2),
        (case!("j"), Commit, 2),
        (case!("k"), Abort, 2),
    ];
    for (text, decision, round) in marked {
        let schedule: Schedule = text.parse().unwrap();
        assert_eq!(schedule.outcome(), Decided { decision, round }, "{text}");
    }
}

/// The outcome by the whole run: a decision of the smallest round. All others that decide, also those that crash afterwards, decide the same.
fn by_the_run(schedule: &Schedule) -> Outcome {
    let report = schedule.simulate();
    let made: Vec<Decided> = report.decisions.into_iter().flatten().collect();
    let first = made.iter().min_by_key(|made| made.round);
    let first = *first.expect("some process decides");
    let agrees = |made: &Decided| made.decision == first.decision;
    assert!(made.iter().all(agrees), "{schedule}");
    first
}

/// Compares the outcome of a schedule with its run, and the call on bare bytes with both.
fn compare(schedule: &Schedule) -> Outcome {
    let made = schedule.outcome();
    assert_eq!(made, by_the_run(schedule), "{schedule}");
    assert!((2..=schedule.t() + 1).contains(&made.round), "{schedule}");
    let votes: Vec<u8> = schedule.votes().iter().copied().map(u8::from).collect();
    let (n, t, mut written) = (schedule.n(), schedule.t(), [9; 2]);
    let (crashes, reaches) = (schedule.crashes(), schedule.reaches());
    let answer = bytes::outcome(n, t, &votes, crashes, reaches, &mut written);
    assert_eq!(answer, Ok(()), "{schedule}");
    assert_eq!(written[OUTCOME_DECISION], made.decision.into());
    assert_eq!(usize::from(written[OUTCOME_ROUND]), made.round);
    made
}

/// Every crash of process `id` of four, and none: its round and its reach.
fn crashes_of(id: usize) -> impl Iterator<Item = (u8, Set)> {
    let others = (0..16).filter(move |&reach| !Processes::from(reach).contains(id));
    let crashes = (1..=4).flat_map(move |round| others.clone().map(move |reach| (round, reach)));
    crashes.chain([(0, 0)])
}

/// The votes of four processes, one for each bit.
fn votes_of(bits: u8) -> [Vote; 4] {
    [0, 1, 2, 3].map(|place| Vote::try_from(bits >> place & 1).unwrap())
}

/// Processes 1 and 4 of four crash in all ways, under all votes.
#[test]
fn the_outcome_is_that_of_the_run_in_all_of_two_crashes() {
    let mut seen = BTreeSet::new();
    for (one, four) in crashes_of(1).flat_map(|one| crashes_of(4).map(move |four| (one, four))) {
        let (crashes, reaches) = ([one.0, 0, 0, four.0], [one.1, 0, 0, four.1]);
        for votes in (0..16).map(votes_of) {
            let schedule = Schedule::new(4, 3, &votes, &crashes, &reaches).unwrap();
            let Decided { decision, round } = compare(&schedule);
            seen.insert((u8::from(decision), round));
        }
    }
    assert_eq!(seen, BTreeSet::from([(0, 2), (0, 3), (1, 2), (1, 3)]));
}

/// A chain of crashes that is meant to delay the decision, one in each round: process 1 reaches all but process n, process n process 2 alone,
/// process 2 process 3 alone, and so on. The last one reaches nobody if it is not `heard`.
fn chain(n: usize, t: usize, length: usize, heard: bool) -> Schedule {
    let (mut crashes, mut reaches) = (vec![0; n], vec![0; n]);
    let everybody = Set::MAX >> (LARGEST - n);
    for (round, id) in (1..=length).zip([1, n].into_iter().chain(2..n)) {
        crashes[id - 1] = round as u8;
        reaches[id - 1] = match round {
            _ if round == length && !heard => 0,
            1 => everybody & !(1 | 1 << (n - 1)),
            _ => 1 << (round - 1),
        };
    }
    Schedule::new(n, t, &vec![Vote::Commit; n], &crashes, &reaches).unwrap()
}

/// Chains of every length in clusters of every size: every round that there is comes up as the first one.
#[test]
fn the_outcome_is_that_of_the_run_in_chains_of_crashes() {
    let mut rounds = BTreeSet::new();
    for n in 4..=LARGEST {
        for length in 0..n {
            let t = length.max(3);
            rounds.insert(compare(&chain(n, t, length, false)).round);
            rounds.insert(compare(&chain(n, n - 1, length, true)).round);
        }
    }
    assert!(rounds.into_iter().eq(2..=LARGEST));
}

/// Numbers without an order to see, the same in every run.
struct Mixed(u64);

impl Mixed {
    fn next(&mut self) -> u64 {
        self.0 = self.0.wrapping_add(0x9e37_79b9_7f4a_7c15);
        let mixed = (self.0 ^ self.0 >> 30).wrapping_mul(0xbf58_476d_1ce4_e5b9);
        mixed ^ mixed >> 31
    }

    /// A number from 0 to `most`.
    fn up_to(&mut self, most: usize) -> usize {
        (self.next() % (most as u64 + 1)) as usize
    }

    /// A schedule of n processes. Half of them have all votes for commit, and half have their crashes in the first three rounds.
    fn schedule(&mut self, n: usize) -> Schedule {
        let t = 3 + self.up_to(n - 4);
        let mut votes = vec![Vote::Commit; n];
        if self.up_to(1) == 0 {
            votes[self.up_to(n - 1)] = Vote::Abort;
        }
        let latest = if self.up_to(1) == 0 { 3 } else { t + 1 };
        let everybody = Set::MAX >> (LARGEST - n);
        let (mut crashes, mut reaches) = (vec![0; n], vec![0; n]);
        for _ in 0..self.up_to(t) {
            let place = self.up_to(n - 1);
            crashes[place] = 1 + self.up_to(latest - 1) as u8;
            reaches[place] = self.next() & everybody & !(1 << place);
        }
        Schedule::new(n, t, &votes, &crashes, &reaches).unwrap()
    }
}

#[test]
fn the_outcome_is_that_of_the_run_in_mixed_schedules() {
    let (mut mixed, mut decisions) = (Mixed(6), BTreeSet::new());
    for n in 4..=LARGEST {
        for _ in 0..100 {
            let made = compare(&mixed.schedule(n));
            decisions.insert(u8::from(made.decision));
        }
    }
    assert_eq!(decisions, BTreeSet::from([0, 1]));
}

#[test]
fn a_schedule_that_breaks_a_rule_has_no_outcome() {
    let votes = [Vote::Commit; 4];
    let made = |n, t, crashes: &[u8], reaches: &[Set]| outcome(n, t, &votes, crashes, reaches);
    assert_eq!(made(3, 3, &[0; 4], &[0; 4]), Err(Refusal::N));
    assert_eq!(made(usize::MAX, 3, &[0; 4], &[0; 4]), Err(Refusal::N));
    assert_eq!(made(4, 4, &[0; 4], &[0; 4]), Err(Refusal::T));
    assert_eq!(made(5, 4, &[0; 5], &[0; 5]), Err(Refusal::Length));
    assert_eq!(made(4, 3, &[0; 3], &[0; 4]), Err(Refusal::Length));
    assert_eq!(made(4, 3, &[0; 4], &[0; 5]), Err(Refusal::Length));
    assert_eq!(made(4, 3, &[5; 4], &[9; 4]), Err(Refusal::Crash));
    assert_eq!(made(4, 3, &[1; 4], &[1; 4]), Err(Refusal::Reach));
    assert_eq!(made(4, 3, &[1; 4], &[0; 4]), Err(Refusal::Crashes));
    let late = made(4, 3, &[4, 0, 0, 0], &[0; 4]);
    assert_eq!(
        late.map(|made| made.to_string()).as_deref(),
        Ok("commit in round 2")
    );
}

/// Each question is asked before those after it, and those of a process before those of the next.
#[test]
fn a_refused_call_leaves_the_two_bytes_as_they_were() {
    const LARGER: usize = LARGEST + 1;
    let mut written = [9, 200];
    let mut made = |n, t, votes: &[u8], crashes: &[u8], reaches: &[Set]| {
        bytes::outcome(n, t, votes, crashes, reaches, &mut written)
    };
    assert_eq!(made(usize::MAX, 0, &[], &[], &[]), Err(1));
    assert_eq!(
        made(LARGER, 3, &[1; LARGER], &[0; LARGER], &[0; LARGER]),
        Err(1)
    );
    assert_eq!(made(3, 3, &[2; 3], &[9; 3], &[9; 3]), Err(1));
    assert_eq!(made(4, 2, &[], &[], &[]), Err(2));
    assert_eq!(made(4, 4, &[], &[], &[]), Err(2));
    assert_eq!(made(4, 3, &[], &[], &[]), Err(3));
    assert_eq!(made(4, 3, &[2; 3], &[9; 4], &[9; 4]), Err(3));
    assert_eq!(made(4, 3, &[2; 4], &[9; 5], &[9; 4]), Err(3));
    assert_eq!(made(4, 3, &[2; 4], &[9; 4], &[9; 3]), Err(3));
    assert_eq!(made(4, 3, &[2; 4], &[9; 4], &[9; 4]), Err(4));
    assert_eq!(made(4, 3, &[1; 4], &[5; 4], &[9; 4]), Err(5));
    assert_eq!(made(4, 3, &[1; 4], &[1; 4], &[1; 4]), Err(6));
    assert_eq!(made(4, 3, &[1; 4], &[0; 4], &[16, 0, 0, 0]), Err(6));
    assert_eq!(made(4, 3, &[1; 4], &[1; 4], &[0; 4]), Err(7));
    assert_eq!(made(4, 3, &[1, 2, 1, 1], &[5, 0, 0, 0], &[0; 4]), Err(5));
    assert_eq!(made(4, 3, &[1, 2, 1, 1], &[0; 4], &[2, 0, 0, 0]), Err(6));
    assert_eq!(written, [9, 200]);
}
