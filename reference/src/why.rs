//! Why a process decided (document 02, K9): the rule, and its number.
//!
//! Document 02: "For a process of an accepted schedule under FCWFA the tool names the rule that decided it: a decided
//! message with the lowest sender, round 2 with zeros only, a quiet round with its number of missing estimates, round t
//! with its number of estimates, or the last round. A process without a decision gets its crash round. The rule named is
//! the first in 01's order that was met in that process's own round, and the numbers are those of the row that it heard
//! there."
//!
//! So a process that decided gets its rule, though it may crash later. Its own round is its decided round.

use crate::member::{count, Member, DECIDED_0, DECIDED_1, ESTIMATE_0, ESTIMATE_1};
use crate::questions::{ask, Refusal};
use crate::report::refusal;
use crate::run::{run_heard, Hearing, Run};
use crate::schedule::Schedule;
use crate::text::read;

/// The names of line 1 of what the program `why` prints.
pub const HEADING: &str = "id rule number";

/// The words that it prints, each at the place of its kind.
pub const WORDS: [&str; 6] = ["crashed", "told", "zeros", "quiet", "round-t", "last"];

/// Why a process decided, or that it didn't.
#[derive(Clone, Copy, Debug, PartialEq, Eq)]
pub enum Why {
    /// It has no decision, and crashed in this round.
    Crashed { round: usize },
    /// It heard decided messages, and this is the lowest number of those that sent one.
    Told { sender: usize },
    /// In round 2 all estimates that it heard were 0.
    ZerosOnly,
    /// In a round up to t - 1 so few processes sent no estimate.
    Quiet { missing: usize },
    /// In round t so many estimates were enough.
    RoundT { estimates: usize },
    /// Round t + 1 decides.
    LastRound,
}

impl Why {
    /// The two numbers of the call: the kind, and the number that goes with it, 0 where there is none.
    pub fn numbers(self) -> [usize; 2] {
        match self {
            Why::Crashed { round } => [0, round],
            Why::Told { sender } => [1, sender],
            Why::ZerosOnly => [2, 0],
            Why::Quiet { missing } => [3, missing],
            Why::RoundT { estimates } => [4, estimates],
            Why::LastRound => [5, 0],
        }
    }

    /// Whether a number goes with the kind.
    fn has_number(self) -> bool {
        !matches!(self, Why::ZerosOnly | Why::LastRound)
    }

    /// The word and the number, as the program prints them.
    fn words(self) -> String {
        let [kind, number] = self.numbers();
        let word = WORDS[kind];
        if self.has_number() {
            format!("{word} {number}")
        } else {
            format!("{word} -")
        }
    }
}

/// Why a process decided, or the number of the refusal. The call takes the three input tables alone, so that question 3
/// asks about no other. Document 02: "Process number from 1 to n? 10, after number 7."
pub fn why(schedule: &Schedule, id: usize) -> Result<Why, Refusal> {
    let (run, hearings) = run_heard(schedule)?;
    ask((1..=schedule.n).contains(&id), Refusal::OwnNumber)?;
    Ok(of_run(schedule, &run, &hearings, id))
}

/// Why process i decided, from the finished run of an accepted schedule and its hearings.
pub fn of_run(schedule: &Schedule, run: &Run, hearings: &[Hearing], i: usize) -> Why {
    match usize::from(run.rounds[i - 1]) {
        0 => Why::Crashed {
            round: schedule.crash(i),
        },
        decided => {
            let hearing = heard_in(hearings, i, decided);
            let hearing = hearing.expect("a process hears the row of its decided round");
            let rule = first_met(&hearing.before, &hearing.row);
            rule.expect("a process decides by some rule")
        }
    }
}

/// The same for all processes in order.
pub fn of_all(schedule: &Schedule, run: &Run, hearings: &[Hearing]) -> Vec<Why> {
    let of_process = |i| of_run(schedule, run, hearings, i);
    (1..=schedule.n).map(of_process).collect()
}

/// What process i hears in round r, if it hears a row there. The hearings of a run stand in the order of the rounds, and in
/// a round in that of the processes.
pub fn heard_in(hearings: &[Hearing], i: usize, r: usize) -> Option<&Hearing> {
    let place = hearings.binary_search_by_key(&(r, i), |h| (h.round, h.before.own));
    place.ok().map(|place| &hearings[place])
}

/// The first rule that a row meets, in document 01's order, for an undecided member in its round r, which is 2 or later;
/// none if it meets none. The order: "some code 3 or 4"; "r = 2 and all estimates heard are 0"; "r ≤ t − 1 and at most
/// r − 2 processes sent no estimate"; "r = t and at least n − t + 1 estimates"; "r = t + 1".
pub fn first_met(member: &Member, row: &[u8]) -> Option<Why> {
    let (n, t, r) = (member.n, member.t, member.round);
    let zeros = count(row, ESTIMATE_0);
    let estimates = zeros + count(row, ESTIMATE_1);
    let missing = n - estimates;
    if let Some(sender) = lowest_decided(row) {
        Some(Why::Told { sender })
    } else if r == 2 && zeros == estimates {
        Some(Why::ZerosOnly)
    } else if r < t && missing <= r - 2 {
        Some(Why::Quiet { missing })
    } else if r == t && estimates > n - t {
        Some(Why::RoundT { estimates })
    } else if r == t + 1 {
        Some(Why::LastRound)
    } else {
        None
    }
}

/// The lowest number of those whose code in a row is 3 or 4.
fn lowest_decided(row: &[u8]) -> Option<usize> {
    let decided = |code: &u8| *code == DECIDED_0 || *code == DECIDED_1;
    row.iter().position(decided).map(|place| place + 1)
}

/// What `why` prints for a text; a refused one prints the same three lines as with `bench`.
pub fn answer(text: &[u8]) -> Vec<u8> {
    match read(text) {
        Err(refused) => refusal(text, refused),
        Ok(schedule) => {
            let heard = run_heard(&schedule);
            let (run, hearings) = heard.expect("the reader asks every question of a run");
            lines(&of_all(&schedule, &run, &hearings))
        }
    }
}

/// The lines for a schedule: the names, and for each process in order its number, the word of the rule and the number
/// that goes with it, `-` where there is none.
pub fn lines(whys: &[Why]) -> Vec<u8> {
    let mut lines = format!("{HEADING}\n");
    for (id, why) in (1..).zip(whys) {
        lines += &format!("{id} {}\n", why.words());
    }
    lines.into_bytes()
}
