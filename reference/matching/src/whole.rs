//! The whole matching: all parts one after the other.

use std::path::Path;

use reference::why::WORDS;

use crate::arguments::Arguments;
use crate::findings::Findings;
use crate::proved::{count_crashes, outcome, read_schedule, simulate, why, write_schedule, Proved};
use crate::small::Through;
use crate::summary::{equality_words, print_part, rule_words, setting_words, Summary};
use crate::texts::Prints;
use crate::{crashes, damage, generate, members, outcomes, program, reads, runs, small, tables};
use crate::{texts, trips, whys, writes};

/// Does everything that the arguments ask for, prints what is found, and gives the sum.
pub fn run(arguments: &Arguments) -> Summary {
    let mut summary = Summary::default();
    let programs = [
        ("bench", &arguments.bench, Prints::Report),
        ("outcome", &arguments.outcome, Prints::Outcome),
        ("why", &arguments.why, Prints::Why),
    ];
    for (name, path, prints) in programs {
        match path {
            None => println!("texts through {name}: SKIPPED, for no --{name} is given"),
            Some(path) => {
                let compiled = Compiled { name, prints, path };
                for seed in &arguments.seeds {
                    match_texts(&mut summary, *seed, arguments, &compiled);
                }
            }
        }
    }
    if arguments.skip_small {
        println!("all schedules with n = 4, t = 3: SKIPPED, as asked");
    } else {
        match_small(&mut summary);
    }
    for seed in &arguments.seeds {
        match_tables(&mut summary, *seed, arguments.tables);
        match_outcomes(&mut summary, *seed, arguments.outcome_calls);
        match_whys(&mut summary, *seed, arguments.why_calls);
        match_counts(&mut summary, *seed, arguments.counts);
        match_writes(&mut summary, *seed, arguments.writes);
        match_reads(&mut summary, *seed, arguments.reads);
        match_trips(&mut summary, *seed, arguments.trips);
        match_members(&mut summary, *seed, arguments.members);
        match_runs(&mut summary, *seed, arguments.runs);
    }
    summary
}

/// Whether a part is asked for; prints that it isn't.
fn asked(part: &str, count: u64) -> bool {
    if count == 0 {
        println!("{part}: SKIPPED, as asked");
    }
    count != 0
}

/// Prints a part and adds it.
fn add(summary: &mut Summary, heading: &str, names: &[&str], findings: &Findings, numbers: &[u8]) {
    print_part(heading, names, findings, numbers);
    summary.add(heading, findings, numbers);
}

/// The names of a table of kinds.
fn names<'a, T>(kinds: &[(&'a str, T)]) -> Vec<&'a str> {
    kinds.iter().map(|(name, _)| *name).collect()
}

/// How many sizes were met with something accepted, in words.
fn sizes_met(findings: &Findings) -> String {
    let (met, all) = (findings.sizes.len(), generate::SIZES_COUNT);
    format!("{met} of {all} sizes n and t")
}

/// Something of every size has to be accepted.
pub fn check_sizes(summary: &mut Summary, part: &str, findings: &Findings) {
    if findings.sizes.len() != generate::SIZES_COUNT {
        let met = sizes_met(findings);
        summary.fault(format!("{part}: accepted in only {met}"));
    }
}

/// A compiled program that takes texts.
struct Compiled<'a> {
    name: &'a str,
    prints: Prints,
    path: &'a Path,
}

fn match_texts(summary: &mut Summary, seed: u64, arguments: &Arguments, compiled: &Compiled) {
    let (name, prints) = (compiled.name, compiled.prints);
    let program = |text: &[u8]| program::answer(compiled.path, text);
    let part = format!("valid texts through {name}");
    if asked(&part, arguments.valid) {
        let findings = texts::compare_valid(seed, arguments.valid, prints, &program);
        let heading = format!("{part}, seed {seed}, {}", sizes_met(&findings));
        let names = names(&generate::FAMILIES);
        add(summary, &heading, &names, &findings, &[]);
        check_sizes(summary, &part, &findings);
        if prints == Prints::Why {
            check_rules(summary, &part, &findings);
        }
    }
    let part = format!("damaged texts through {name}");
    if asked(&part, arguments.damaged) {
        let findings = texts::compare_damaged(seed, arguments.damaged, prints, &program);
        let heading = format!("{part}, seed {seed}");
        let names = names(&damage::DAMAGES);
        add(summary, &heading, &names, &findings, &texts::NUMBERS);
    }
}

fn match_small(summary: &mut Summary) {
    let calls = [
        Through::Run(&simulate),
        Through::Outcome(&outcome),
        Through::Why(&why),
    ];
    let findings = small::compare(1, &calls);
    let heading = "all schedules with n = 4, t = 3, through three calls";
    add(summary, heading, &small::CALLS, &findings, &[]);
    check_small_count(summary, &findings);
    check_small_equalities(summary, &findings);
    check_small_settings(summary, &findings);
    check_small_rules(summary, &findings);
}

/// The schedules with n = 4 and t = 3 have to be all that there are, with the answers from each call.
pub fn check_small_count(summary: &mut Summary, findings: &Findings) {
    let (expected, found) = (small::ANSWERS * small::COUNT, findings.compared);
    if found != expected {
        summary.fault(format!(
            "{found} answers for the schedules with n = 4, t = 3, not {expected}"
        ));
    }
}

/// The schedules with n = 4 and t = 3 have to meet the number of crashes so far with equality as often as they do. The
/// runs alone would not show a rule that says less.
pub fn check_small_equalities(summary: &mut Summary, findings: &Findings) {
    if findings.equalities != small::EQUALITIES {
        let expected = equality_words(small::EQUALITIES);
        let found = equality_words(findings.equalities);
        summary.fault(format!(
            "n = 4, t = 3: {found}; not as expected: {expected}"
        ));
    }
}

/// The rows of the schedules with n = 4 and t = 3 have to set the silent processes as often as they do, and to name
/// those that crash in the round of a row as often. The runs alone would not show a rule that looks at fewer rows.
pub fn check_small_settings(summary: &mut Summary, findings: &Findings) {
    if findings.settings != small::SETTINGS {
        let expected = setting_words(small::SETTINGS);
        let found = setting_words(findings.settings);
        summary.fault(format!(
            "n = 4, t = 3: {found}; not as expected: {expected}"
        ));
    }
}

/// Each rule has to be named for the processes of the schedules with n = 4 and t = 3 as often as it is. The reference's own
/// answers would not show that it names a wrong one.
pub fn check_small_rules(summary: &mut Summary, findings: &Findings) {
    if findings.rules != small::RULES {
        let expected = rule_words(&small::RULES);
        let found = rule_words(&findings.rules);
        summary.fault(format!(
            "n = 4, t = 3: {found}; not as expected: {expected}"
        ));
    }
}

fn match_tables(summary: &mut Summary, seed: u64, count: u64) {
    if asked("calls on tables", count) {
        let findings = tables::compare(seed, count, &simulate);
        let heading = format!("calls on tables, seed {seed}, {}", sizes_met(&findings));
        let names = names(&tables::KINDS);
        add(summary, &heading, &names, &findings, &tables::NUMBERS);
        check_sizes(summary, "calls on tables", &findings);
    }
}

fn match_outcomes(summary: &mut Summary, seed: u64, count: u64) {
    if asked("calls for the outcome", count) {
        let findings = outcomes::compare(seed, count, &outcome);
        let heading = format!(
            "calls for the outcome, seed {seed}, {}",
            sizes_met(&findings)
        );
        let names = outcomes::names();
        add(summary, &heading, &names, &findings, &outcomes::NUMBERS);
        check_sizes(summary, "calls for the outcome", &findings);
        check_kinds(summary, "calls for the outcome", &findings);
    }
}

fn match_whys(summary: &mut Summary, seed: u64, count: u64) {
    if asked("calls for why", count) {
        let findings = whys::compare(seed, count, &why);
        let heading = format!("calls for why, seed {seed}, {}", sizes_met(&findings));
        let names = whys::names();
        add(summary, &heading, &names, &findings, &whys::NUMBERS);
        check_sizes(summary, "calls for why", &findings);
        check_kinds(summary, "calls for why", &findings);
        check_rules(summary, "calls for why", &findings);
    }
}

/// Each rule has to be named.
pub fn check_rules(summary: &mut Summary, part: &str, findings: &Findings) {
    for (word, count) in WORDS.iter().zip(findings.rules) {
        if count == 0 {
            summary.fault(format!("{part}: the rule {word} was never named"));
        }
    }
}

fn match_counts(summary: &mut Summary, seed: u64, count: u64) {
    if asked("counts of crashes", count) {
        let findings = crashes::compare(seed, count, &count_crashes);
        let (met, all) = (findings.lengths.len(), crashes::LENGTHS);
        let heading = format!("counts of crashes, seed {seed}, {met} of {all} lengths");
        add(summary, &heading, &names(&crashes::KINDS), &findings, &[]);
        check_lengths(summary, &findings);
    }
}

/// Crashes have to be counted in tables of all lengths.
pub fn check_lengths(summary: &mut Summary, findings: &Findings) {
    let (met, all) = (findings.lengths.len(), crashes::LENGTHS);
    if met != all {
        summary.fault(format!(
            "crashes counted in tables of {met} lengths, not {all}"
        ));
    }
}

fn match_writes(summary: &mut Summary, seed: u64, count: u64) {
    if asked("schedules written", count) {
        let findings = writes::compare(seed, count, &write_schedule);
        let heading = format!("schedules written, seed {seed}, {}", sizes_met(&findings));
        let names = writes::names();
        add(summary, &heading, &names, &findings, &writes::NUMBERS);
        check_sizes(summary, "schedules written", &findings);
        check_kinds(summary, "schedules written", &findings);
    }
}

fn match_reads(summary: &mut Summary, seed: u64, count: u64) {
    if asked("texts read", count) {
        let findings = reads::compare(seed, count, &read_schedule);
        let heading = format!("texts read, seed {seed}, {}", sizes_met(&findings));
        let names = reads::names();
        add(summary, &heading, &names, &findings, &reads::NUMBERS);
        check_sizes(summary, "texts read", &findings);
        check_kinds(summary, "texts read", &findings);
    }
}

fn match_trips(summary: &mut Summary, seed: u64, count: u64) {
    if asked("round trips", count) {
        let findings = trips::compare(seed, count, &write_schedule, &read_schedule);
        let heading = format!("round trips, seed {seed}, {}", sizes_met(&findings));
        let names = names(&generate::FAMILIES);
        add(summary, &heading, &names, &findings, &[]);
        check_sizes(summary, "round trips", &findings);
        check_kinds(summary, "round trips", &findings);
    }
}

/// Each kind of case has to come up.
pub fn check_kinds(summary: &mut Summary, part: &str, findings: &Findings) {
    let all = findings.kinds.len();
    let kinds = findings.kinds.iter();
    let met = kinds.filter(|kind| kind.accepted + kind.refused != 0);
    let met = met.count();
    if met != all {
        summary.fault(format!("{part}: only {met} of {all} kinds came up"));
    }
}

fn match_members(summary: &mut Summary, seed: u64, count: u64) {
    if asked("calls to a member", count) {
        let findings = members::compare(seed, count, &Proved);
        let heading = format!("calls to a member, seed {seed}, {}", sizes_met(&findings));
        let names = names(&members::KINDS);
        add(summary, &heading, &names, &findings, &members::NUMBERS);
        check_sizes(summary, "calls to a member", &findings);
    }
}

fn match_runs(summary: &mut Summary, seed: u64, count: u64) {
    if asked("members in runs", count) {
        let findings = runs::compare(seed, count, &Proved);
        let heading = format!("members in runs, seed {seed}, {}", sizes_met(&findings));
        let names = names(&generate::FAMILIES);
        add(summary, &heading, &names, &findings, &[]);
        check_sizes(summary, "members in runs", &findings);
    }
}
