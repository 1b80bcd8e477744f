//! Demand 3, and the rules of the first decider, of the crashes so far and of the silent processes, on finished runs.
//!
//! The runs are the reference's. Its hearings go with them, or those of a machine under test over the same rows, whose
//! states are held against the rule of the silent processes. What else the proved code answers is not held against any
//! of these once more: it is compared with the reference's byte for byte, so that an answer that breaks one of these
//! differs from the reference's, or the reference's breaks it too.

use reference::run::{Hearing, Run};
use reference::schedule::Schedule;
use reference::so_far::{Rule, RULE};
use reference::{demand3, first, silent};

use crate::findings::Findings;

/// Holds a finished run with its hearings against demand 3 and the three rules.
pub fn check(
    findings: &mut Findings,
    case: u64,
    schedule: &Schedule,
    run: &Run,
    hearings: &[Hearing],
) {
    check_by(&RULE, findings, case, schedule, run, hearings);
}

/// The same with a given rule of the crashes so far.
pub fn check_by(
    rule: &Rule,
    findings: &mut Findings,
    case: u64,
    schedule: &Schedule,
    run: &Run,
    hearings: &[Hearing],
) {
    let held = held(rule, schedule, run, hearings);
    findings.demand(case, held.is_ok(), || {
        let words = held.clone().expect_err("something is broken");
        format!("{words}\nschedule: {schedule:?}\nrun: {run:?}\n")
    });
    findings.equalities += rule.equalities(schedule, run);
    findings.settings += silent::settings(schedule, hearings);
}

/// What a finished run breaks, if anything, in words.
fn held(rule: &Rule, schedule: &Schedule, run: &Run, hearings: &[Hearing]) -> Result<(), String> {
    demand3::check(schedule, run).map_err(|words| format!("demand 3: {words}"))?;
    first::check(schedule, run).map_err(|words| format!("first decider: {words}"))?;
    let so_far = rule.check(schedule, run);
    so_far.map_err(|words| format!("crashes so far: {words}"))?;
    let silent = silent::check(schedule, hearings);
    silent.map_err(|words| format!("silent processes: {words}"))
}
