//! The run of a schedule (document 01, "Who hears whom"; document 02, K1: what a sender adds to the messages; K3: the
//! first decider).

use crate::member::{Member, NOTHING};
use crate::questions::Refusal;
use crate::schedule::{bit, Schedule};
use crate::{Set, LARGEST};

/// The decision of a process that has none.
pub const NONE: u8 = 2;

/// The rows of a round: row i - 1 is what process i hears.
type Grid = [[u8; LARGEST]; LARGEST];

/// The report's counts.
#[derive(Clone, Copy, Debug, PartialEq, Eq)]
pub struct Counts {
    /// The number of processes that crash.
    pub f: usize,
    /// The first decider: among the processes that decided, the one with the smallest decided round; among equals one
    /// that survives before one that crashes, and only then the lower number.
    pub first: usize,
    /// The largest decided round.
    pub last: usize,
    /// The messages on the wire, of all rounds and senders: a process's copy to itself is not one.
    pub messages: usize,
}

/// A finished run.
#[derive(Clone, Debug, PartialEq, Eq)]
pub struct Run {
    /// For each process 0, 1 or 2 (none).
    pub decisions: Vec<u8>,
    /// For each process its decided round, 0 for none.
    pub rounds: Vec<u8>,
    /// The counts.
    pub counts: Counts,
    /// For each round the processes that complete it undecided.
    pub undecided: Vec<Set>,
}

/// A row that a process hears in a run, and its member's state before and after it.
#[derive(Clone, Debug, PartialEq, Eq)]
pub struct Hearing {
    /// The round of the run.
    pub round: usize,
    /// The state at the start of the round.
    pub before: Member,
    /// The row.
    pub row: Vec<u8>,
    /// The state after it.
    pub after: Member,
}

/// Runs a schedule to its end, or gives the number of its refusal.
pub fn run(schedule: &Schedule) -> Result<Run, Refusal> {
    schedule.ask()?;
    Ok(play(schedule, hear))
}

/// The same with every hearing of the run, as [`play_heard`] has them.
pub fn run_heard(schedule: &Schedule) -> Result<(Run, Vec<Hearing>), Refusal> {
    schedule.ask()?;
    Ok(play_heard(schedule, hear))
}

/// What hearing a row does in a run. Each hearing asks its own questions too: document 01 says that none of them is
/// answered by no here.
fn hear(member: &Member, row: &[u8]) -> Member {
    let heard = member.hear(row);
    heard.expect("a member of a bench run refuses no row")
}

/// The call on tables: fills the answer tables and gives the counts; a refused call leaves the tables as they were.
pub fn simulate(
    schedule: &Schedule,
    decisions: &mut [u8],
    rounds: &mut [u8],
) -> Result<Counts, Refusal> {
    schedule.ask_tables(decisions.len(), rounds.len())?;
    let run = run(schedule)?;
    decisions.copy_from_slice(&run.decisions);
    rounds.copy_from_slice(&run.rounds);
    Ok(run.counts)
}

/// Plays rounds 1 to t + 1 of an accepted schedule by a given way of hearing. Only [`run`] gives the way of document
/// 01; another one shows what a wrong turn would answer.
pub fn play(schedule: &Schedule, hear: impl Fn(&Member, &[u8]) -> Member) -> Run {
    play_rounds(schedule, |_, member, row| hear(member, row))
}

/// The same with every hearing of the run: the rounds in order, and in a round the processes in order.
pub fn play_heard(
    schedule: &Schedule,
    hear: impl Fn(&Member, &[u8]) -> Member,
) -> (Run, Vec<Hearing>) {
    let mut hearings = Vec::new();
    let run = play_rounds(schedule, |round, member, row| {
        let after = hear(member, row);
        hearings.push(Hearing {
            round,
            before: *member,
            row: row.to_vec(),
            after,
        });
        after
    });
    (run, hearings)
}

/// Plays the rounds by a way of hearing that is told the round, too.
fn play_rounds(schedule: &Schedule, mut hear: impl FnMut(usize, &Member, &[u8]) -> Member) -> Run {
    let n = schedule.n;
    let mut members = opened(schedule);
    let mut messages = 0;
    let mut undecided = Vec::with_capacity(schedule.t + 1);
    for r in 1..=schedule.t + 1 {
        messages += messages_of_round(schedule, &members, r);
        let grid = rows_of_round(schedule, &members, r);
        let mut still_undecided = 0;
        for (member, row) in members.iter_mut().zip(&grid) {
            let completes = schedule.completes(member.own, r);
            if completes && !member.stopped() {
                *member = hear(r, member, &row[..n]);
            }
            if completes && member.decided == 0 {
                still_undecided |= bit(member.own);
            }
        }
        undecided.push(still_undecided);
    }
    Run {
        decisions: members.iter().map(decision).collect(),
        rounds: members.iter().map(|member| member.decided as u8).collect(),
        counts: counts(schedule, &members, messages),
        undecided,
    }
}

/// Every member opened with n, t, its own number and its vote.
fn opened(schedule: &Schedule) -> Vec<Member> {
    let (n, t) = (schedule.n, schedule.t);
    let open = |i: usize| Member::open(n, t, i, schedule.votes[i - 1]);
    (1..=n)
        .map(|i| open(i).expect("an accepted schedule opens every member"))
        .collect()
}

/// The rows of round r, all from the states at its start. The row of a process that doesn't complete the round is
/// empty: it hears nothing.
fn rows_of_round(schedule: &Schedule, members: &[Member], r: usize) -> Grid {
    let mut grid = [[NOTHING; LARGEST]; LARGEST];
    let completing = (1..=schedule.n).filter(|i| schedule.completes(*i, r));
    let hearers: Vec<usize> = completing.collect();
    // A sender that says nothing leaves its places as they are.
    for sender in members.iter().filter(|member| member.says() != NOTHING) {
        let (j, code) = (sender.own, sender.says());
        for i in &hearers {
            if schedule.hears(*i, j, r) {
                grid[i - 1][j - 1] = code;
            }
        }
    }
    grid
}

/// The messages that all senders add in round r. Document 02, K1: "A completing sender that says something now adds
/// n - 1. A crash adds the ones of its reach as before." Before, in document 01: "a crashing sender adds the ones of
/// its reach if it says something; all others add 0".
fn messages_of_round(schedule: &Schedule, members: &[Member], r: usize) -> usize {
    let added = |sender: &Member| {
        if sender.says() == NOTHING {
            0
        } else if schedule.completes(sender.own, r) {
            // The copy to itself never touches the wire.
            schedule.n - 1
        } else if schedule.crash(sender.own) == r {
            schedule.reaches[sender.own - 1].count_ones() as usize
        } else {
            0
        }
    };
    members.iter().map(added).sum()
}

/// The decision of a member at the end of the run.
fn decision(member: &Member) -> u8 {
    match member.decided {
        0 => NONE,
        _ => member.estimate,
    }
}

/// The counts at the end of the run. Some process never crashes, as f is at most n - 1, and it decides in round t + 1
/// at the latest: so there is a first. (0 stands for none, which only a wrong way of hearing can bring about.)
fn counts(schedule: &Schedule, members: &[Member], messages: usize) -> Counts {
    let decided = || members.iter().filter(|member| member.decided != 0);
    // Document 02, K3: "Among equal smallest rounds a process whose crash round is 0 now goes before one that crashes,
    // and only then the lower number." Whether it crashes counts, not when; false is less than true.
    let order = |member: &&Member| {
        let crashes = !schedule.survives(member.own);
        (member.decided, crashes, member.own)
    };
    Counts {
        f: schedule.f(),
        first: decided().min_by_key(order).map_or(0, |member| member.own),
        last: decided().map(|member| member.decided).max().unwrap_or(0),
        messages,
    }
}
