//! Whole runs: each process's member is opened and hears, round by round, the rows of the reference's run through the
//! machine under test. Every state, at the opening and after each round in which the process hears a row, is compared
//! whole with the reference's.

use reference::member::{Member, STATE_BYTES};
use reference::run::{run_heard, Hearing};
use reference::schedule::Schedule;

use crate::demands;
use crate::findings::{share, Findings};
use crate::generate::{of_case, sizes, FAMILIES};
use crate::members::{ByReference, Machine, State};
use crate::random::Random;

/// The part's key for the random numbers.
const RUNS: u64 = 6;

/// Compares the members of so many runs, which are of all families and sizes in turn.
pub fn compare(seed: u64, count: u64, machine: &dyn Machine) -> Findings {
    let sizes = sizes();
    share(count, FAMILIES.len(), |findings, case| {
        let mut random = Random::of_case(seed, RUNS, case);
        let (family, schedule) = of_case(&mut random, &sizes, case);
        findings.count(family, None);
        findings.sizes.insert((schedule.n, schedule.t));
        compare_run(findings, case, &schedule, machine);
    })
}

/// Compares the members of one run. The states of the machine under test are held against the rule of the silent
/// processes, too.
fn compare_run(findings: &mut Findings, case: u64, schedule: &Schedule, machine: &dyn Machine) {
    let (run, expected) = run_heard(schedule).expect("the schedule is accepted");
    let mut states: Vec<State> = (1..=schedule.n)
        .map(|i| opened(findings, case, schedule, i, machine))
        .collect();
    let mut found = Vec::with_capacity(expected.len());
    for hearing in &expected {
        let state = &mut states[hearing.before.own - 1];
        found.extend(heard(findings, case, hearing, state, machine));
    }
    demands::check(findings, case, schedule, &run, &found);
}

/// The state of process i as the machine opens it; after a refusal, which is a difference, one that is refused too.
fn opened(
    findings: &mut Findings,
    case: u64,
    schedule: &Schedule,
    i: usize,
    machine: &dyn Machine,
) -> State {
    let (n, t, vote) = (schedule.n, schedule.t, schedule.votes[i - 1]);
    let expected = ByReference.open(n, t, i, vote);
    let found = machine.open(n, t, i, vote);
    findings.compare(case, expected == found, || {
        format!(
            "schedule: {schedule:?}\nopened: {i}\nreference: {expected:?}\nunder test: {found:?}\n"
        )
    });
    found.unwrap_or([0; STATE_BYTES])
}

/// Lets a member hear the row of a hearing, and gives the hearing with its own states unless it is refused.
fn heard(
    findings: &mut Findings,
    case: u64,
    hearing: &Hearing,
    state: &mut State,
    machine: &dyn Machine,
) -> Option<Hearing> {
    let before = *state;
    let answer = machine.hear(state, &hearing.row);
    let equal = answer.is_ok() && *state == hearing.after.to_bytes();
    findings.compare(case, equal, || {
        format!("hearing: {hearing:?}\nunder test: {before:?}, then {answer:?} and {state:?}\n")
    });
    let found = Hearing {
        before: Member::from_bytes(before),
        after: Member::from_bytes(*state),
        ..hearing.clone()
    };
    answer.is_ok().then_some(found)
}
