//! A schedule in tables: who votes what, who crashes when, and whom the last message reaches (document 01,
//! "Cabinets, rounds, crashes", "Who hears whom" and the schedule part of "Questions before work"; document 02, K4: f
//! and question 7 go by the count that ends sooner).

use crate::crashes::count_crashes;
use crate::questions::{ask, ask_sizes, ask_vote, Refusal};
use crate::Set;

/// A schedule as given. The tables may have any length and any entries until the questions are answered.
#[derive(Clone, Debug, PartialEq, Eq)]
pub struct Schedule {
    /// The number of processes.
    pub n: usize,
    /// The largest number of crashes.
    pub t: usize,
    /// For each process 0 (abort) or 1 (commit).
    pub votes: Vec<u8>,
    /// For each process its crash round, 0 for never.
    pub crashes: Vec<u8>,
    /// For each process who gets the message of its crash round.
    pub reaches: Vec<Set>,
}

/// The set that names process i alone.
pub fn bit(i: usize) -> Set {
    1 << (i - 1)
}

/// The set that names each of the processes 1 to n, n at most [`LARGEST`](crate::LARGEST).
pub fn everyone(n: usize) -> Set {
    (1..=n).fold(0, |set, i| set | bit(i))
}

impl Schedule {
    /// All n processes vote 1 and none crashes.
    pub fn quiet(n: usize, t: usize) -> Schedule {
        Schedule {
            n,
            t,
            votes: vec![1; n],
            crashes: vec![0; n],
            reaches: vec![0; n],
        }
    }

    /// The crash round of process i, 0 for never.
    pub fn crash(&self, i: usize) -> usize {
        usize::from(self.crashes[i - 1])
    }

    /// Whether process i survives: its crash round is 0.
    pub fn survives(&self, i: usize) -> bool {
        self.crash(i) == 0
    }

    /// Whether the reach of process i names process j.
    pub fn names(&self, i: usize, j: usize) -> bool {
        self.reaches[i - 1] & bit(j) != 0
    }

    /// f, the number of processes whose crash round isn't 0, if it is at most t; otherwise t + 1, where the count ends.
    /// Document 02, K4: "For accepted schedules f is still the full count."
    pub fn f(&self) -> usize {
        count_crashes(self.t, &self.crashes).count
    }

    /// Whether any process, crashed or not, votes 0.
    pub fn has_vote_0(&self) -> bool {
        self.votes.contains(&0)
    }

    /// Whether process i completes round r ("Who hears whom").
    pub fn completes(&self, i: usize, r: usize) -> bool {
        let crash = self.crash(i);
        crash == 0 || crash > r
    }

    /// Whether process i, which completes round r, hears what process j says there ("Who hears whom"). It hears
    /// itself, for it completes the round.
    pub fn hears(&self, i: usize, j: usize, r: usize) -> bool {
        self.completes(j, r) || (self.crash(j) == r && self.names(j, i))
    }

    /// Questions 4, 5 and 6 on process i; n and t are in their limits.
    pub fn ask_process(&self, i: usize) -> Result<(), Refusal> {
        ask_vote(self.votes[i - 1])?;
        ask(self.crash(i) <= self.t + 1, Refusal::CrashRound)?;
        let allowed = match self.crash(i) {
            0 => 0,
            _ => everyone(self.n) & !bit(i),
        };
        ask(self.reaches[i - 1] & !allowed == 0, Refusal::Reach)
    }

    /// Question 7: f at most t. It comes after the questions on every process, though the count may end before them.
    pub fn ask_crashes(&self) -> Result<(), Refusal> {
        ask(self.f() <= self.t, Refusal::TooManyCrashes)
    }

    /// Questions 1 to 7 for a call that takes two answer tables of these lengths.
    pub fn ask_tables(&self, decisions: usize, rounds: usize) -> Result<(), Refusal> {
        ask_sizes(self.n, self.t)?;
        let lengths = [
            self.votes.len(),
            self.crashes.len(),
            self.reaches.len(),
            decisions,
            rounds,
        ];
        ask(lengths == [self.n; 5], Refusal::Tables)?;
        for i in 1..=self.n {
            self.ask_process(i)?;
        }
        self.ask_crashes()
    }

    /// Questions 1 to 7 for a call that takes the three input tables alone: as with answer tables of the right length.
    pub fn ask(&self) -> Result<(), Refusal> {
        self.ask_tables(self.n, self.n)
    }
}
