//! How fast the proved code is: the simulator and the call for the outcome against the reference and against a limit, the call for the
//! outcome and the call for why a process decided against the simulator, and that call, the member's hear and the writer and the reader of
//! a schedule's text against the reference.
//!
//! `speed` compares the limit's answers with the reference's, then measures all in one run on the same schedules. `speed --check` only
//! compares. docs/PERFORMANCE.md says how to read what is printed.

mod arguments;
mod limit;
mod measure;
mod schedules;
mod tables;

use std::process::ExitCode;

use matching::small::{self, Through};
use matching::{outcomes, tables as calls};

use arguments::{help, parse, Task, USAGE};

/// How many random calls the limit is compared on, accepted and refused ones: calls on tables, and calls for the outcome.
const CALLS: u64 = 200_000;
const OUTCOME_CALLS: u64 = 120_000;

/// Every so many of the schedules with n = 4 and t = 3 are compared too.
const STEP: usize = 7;

/// Compares the limit with the reference; true if they never differ.
fn limit_is_right() -> bool {
    let small_calls = [
        Through::Run(&limit::simulate),
        Through::Outcome(&limit::outcome),
    ];
    let parts = [
        calls::compare(1, CALLS, &limit::simulate),
        outcomes::compare(1, OUTCOME_CALLS, &limit::outcome),
        small::compare(STEP, &small_calls),
    ];
    let compared: u64 = parts.iter().map(|part| part.compared).sum();
    let differ: u64 = parts.iter().map(|part| part.differ).sum();
    for (case, words) in parts.iter().flat_map(|part| &part.differences) {
        println!("case {case}: {words}");
    }
    println!("the limit against the reference: compared {compared}, differ {differ}");
    differ == 0
}

fn main() -> ExitCode {
    let given: Vec<String> = std::env::args().skip(1).collect();
    let task = match parse(&given) {
        Ok(task) => task,
        Err(words) => {
            eprintln!("{words}\n{USAGE}");
            return ExitCode::from(2);
        }
    };
    if task == Task::Help {
        print!("{}", help());
        return ExitCode::SUCCESS;
    }
    if !limit_is_right() {
        return ExitCode::FAILURE;
    }
    if task == Task::Check {
        return ExitCode::SUCCESS;
    }
    tables::by_size();
    let slower = tables::by_outcome();
    tables::by_why();
    tables::by_crashes_borne();
    tables::by_row();
    tables::by_text_written();
    tables::by_text_read();
    match slower.as_slice() {
        [] => ExitCode::SUCCESS,
        sizes => {
            println!("\nthe outcome is not faster than the whole run at n = {sizes:?}");
            ExitCode::FAILURE
        }
    }
}
