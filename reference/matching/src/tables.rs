//! Calls on tables, accepted and refused, through the implementation under test and through the reference.

use reference::questions::Refusal;
use reference::run::{self, Counts};
use reference::schedule::{bit, Schedule};
use reference::LARGEST;

use crate::findings::{share, Findings};
use crate::generate::{of_size, sizes, walked};
use crate::random::Random;

/// The call under test: it fills the two answer tables, decisions and rounds, and gives the counts or a number.
pub type Simulate<'a> = &'a (dyn Fn(&Schedule, &mut [u8], &mut [u8]) -> Result<Counts, u8> + Sync);

/// The refusal numbers that a call on tables can get.
pub const NUMBERS: [u8; 7] = [1, 2, 3, 4, 5, 6, 7];

/// The part's key for the random numbers.
const TABLES: u64 = 3;

/// A call: the schedule as given, and the answer tables as lent.
#[derive(Clone, Debug)]
pub struct Call {
    pub schedule: Schedule,
    pub decisions: Vec<u8>,
    pub rounds: Vec<u8>,
}

/// What a call gives, and the answer tables after it.
#[derive(Clone, Debug, PartialEq, Eq)]
pub struct Answer {
    pub counts: Result<Counts, u8>,
    pub decisions: Vec<u8>,
    pub rounds: Vec<u8>,
}

impl Call {
    /// Makes the call.
    pub fn answer(&self, simulate: Simulate) -> Answer {
        let (mut decisions, mut rounds) = (self.decisions.clone(), self.rounds.clone());
        let counts = simulate(&self.schedule, &mut decisions, &mut rounds);
        Answer {
            counts,
            decisions,
            rounds,
        }
    }
}

/// The reference's call on tables.
pub fn by_reference(
    schedule: &Schedule,
    decisions: &mut [u8],
    rounds: &mut [u8],
) -> Result<Counts, u8> {
    run::simulate(schedule, decisions, rounds).map_err(Refusal::number)
}

/// Compares two answers to a call.
pub fn compare_answers(
    findings: &mut Findings,
    case: u64,
    call: &Call,
    expected: &Answer,
    found: &Answer,
) {
    findings.compare(case, expected == found, || {
        format!("call: {call:?}\nreference: {expected:?}\nunder test: {found:?}\n")
    });
}

/// Compares so many calls. The sizes are walked: each comes up once with every kind, and then the next one.
pub fn compare(seed: u64, count: u64, simulate: Simulate) -> Findings {
    let sizes = sizes();
    share(count, KINDS.len(), |findings, case| {
        let mut random = Random::of_case(seed, TABLES, case);
        let (walk, kind) = (case as usize / KINDS.len(), case as usize % KINDS.len());
        let call = call_of_kind(&mut random, walked(&sizes, walk), kind);
        let expected = call.answer(&by_reference);
        findings.count(kind, expected.counts.err());
        if expected.counts.is_ok() {
            findings.sizes.insert((call.schedule.n, call.schedule.t));
        }
        let found = call.answer(simulate);
        compare_answers(findings, case, &call, &expected, &found);
    })
}

/// A call of a kind, made of an accepted one with these n and t.
pub fn call_of_kind(random: &mut Random, size: (usize, usize), kind: usize) -> Call {
    let mut call = accepted_call(random, size);
    let (_, change) = KINDS[kind];
    change(random, &mut call);
    call
}

/// An accepted call with anything in the answer tables.
fn accepted_call(random: &mut Random, size: (usize, usize)) -> Call {
    let schedule = of_size(random, size);
    let mut table = || (0..schedule.n).map(|_| random.byte()).collect();
    let (decisions, rounds) = (table(), table());
    Call {
        schedule,
        decisions,
        rounds,
    }
}

/// How an accepted call is changed.
type Change = fn(&mut Random, &mut Call);

/// The kinds of calls and their names.
pub const KINDS: [(&str, Change); 15] = [
    ("accepted", |_, _| {}),
    ("accepted, too", |_, _| {}),
    ("n of any size", any_n),
    ("n and all tables too short or too long", other_n_and_tables),
    ("t of any size", any_t),
    ("t just out of range", near_t),
    ("one table of another length", one_table),
    ("several tables of another length", several_tables),
    ("vote above 1", vote_above_1),
    ("crash round above t + 1", crash_above_last_round),
    ("reach wrong", wrong_reach),
    ("any reach", any_reach),
    ("f above t", too_many_crashes),
    ("f above t and a process wrong", too_many_and_wrong),
    ("several changes", several),
];

/// How many of the kinds change nothing; they are the first ones.
pub const ACCEPTED: usize = 2;

/// The place of the kind "f above t".
pub const F_ABOVE_T: usize = 12;

/// Two or three changes of any kind but this one, which is the last.
fn several(random: &mut Random, call: &mut Call) {
    for _ in 0..random.within(2..=3) {
        let (_, change) = random.pick(&KINDS[..KINDS.len() - 1]);
        change(random, call);
    }
}

fn any_n(random: &mut Random, call: &mut Call) {
    call.schedule.n = random.any_size();
}

/// The longest table that is lent: somewhat longer than the tables of the largest cluster.
const MAX_TABLE: usize = LARGEST + 8;

/// n of 0 to MAX_TABLE, and tables that are n long: mostly in range.
fn other_n_and_tables(random: &mut Random, call: &mut Call) {
    let n = random.within(0..=MAX_TABLE);
    call.schedule.n = n;
    for table in 0..5 {
        resize(call, table, n);
    }
}

fn any_t(random: &mut Random, call: &mut Call) {
    call.schedule.t = random.any_size();
}

fn near_t(random: &mut Random, call: &mut Call) {
    call.schedule.t = match random.below(2) {
        0 => random.below(3),
        _ => call.schedule.n.saturating_add(random.below(3)),
    };
}

/// Gives one of the five tables another length.
fn resize(call: &mut Call, table: usize, length: usize) {
    match table {
        0 => call.schedule.votes.resize(length, 1),
        1 => call.schedule.crashes.resize(length, 0),
        2 => call.schedule.reaches.resize(length, 0),
        3 => call.decisions.resize(length, 5),
        _ => call.rounds.resize(length, 5),
    }
}

fn one_table(random: &mut Random, call: &mut Call) {
    let right = call.decisions.len();
    let length = match random.below(4) {
        0 => right + 1,
        1 => right.saturating_sub(1),
        2 => 0,
        _ => random.within(0..=MAX_TABLE),
    };
    resize(call, random.below(5), length);
}

fn several_tables(random: &mut Random, call: &mut Call) {
    for _ in 0..random.within(2..=5) {
        one_table(random, call);
    }
}

fn vote_above_1(random: &mut Random, call: &mut Call) {
    let votes = &mut call.schedule.votes;
    if let Some(place) = random.place(votes.len()) {
        votes[place] = random.within(2..=255) as u8;
    }
}

fn crash_above_last_round(random: &mut Random, call: &mut Call) {
    let next = call.schedule.t.saturating_add(2).min(255);
    let crashes = &mut call.schedule.crashes;
    if let Some(place) = random.place(crashes.len()) {
        crashes[place] = match random.below(2) {
            0 => next as u8,
            _ => random.within(next..=255) as u8,
        };
    }
}

/// A reach that names its own process, or a process above n, or somebody without a crash.
fn wrong_reach(random: &mut Random, call: &mut Call) {
    let schedule = &mut call.schedule;
    let length = schedule.reaches.len().min(LARGEST);
    if let Some(place) = random.place(length) {
        schedule.reaches[place] |= match random.below(4) {
            0 => bit(place + 1),
            1 => bit((schedule.n % LARGEST) + 1),
            2 => bit(random.within(1..=LARGEST)),
            _ => bit(LARGEST),
        };
    }
}

fn any_reach(random: &mut Random, call: &mut Call) {
    let reaches = &mut call.schedule.reaches;
    if let Some(place) = random.place(reaches.len()) {
        reaches[place] = random.bits();
    }
}

fn too_many_crashes(random: &mut Random, call: &mut Call) {
    let schedule = &mut call.schedule;
    let last = schedule.t.saturating_add(1).min(255);
    let spared = random.below(2 + schedule.crashes.len().saturating_sub(last));
    for crash in schedule.crashes.iter_mut().skip(spared) {
        if *crash == 0 {
            *crash = random.within(1..=last) as u8;
        }
    }
}

/// The wrong process is often one after the crash that makes t + 1 of them; its own question goes before number 7.
fn too_many_and_wrong(random: &mut Random, call: &mut Call) {
    too_many_crashes(random, call);
    let wrong: [Change; 3] = [vote_above_1, crash_above_last_round, wrong_reach];
    random.pick(&wrong)(random, call);
}
