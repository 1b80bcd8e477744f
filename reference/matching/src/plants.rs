//! The self-test: each planted difference has to be found, and the right implementation has to pass.

use reference::demand3::message_limit;
use reference::member::Member;
use reference::report::answer;
use reference::run::{Run, NONE};
use reference::schedule::{bit, Schedule};
use reference::so_far::{crashes_by, settling_round, Rule, RULE};
use reference::{outcome, why, LARGEST};

use crate::crashes::{self, CountCrashes};
use crate::files::{self, ReadBy, Text, WriteBy, ACCEPTED, BUFFERS, IN_LONGER, QUESTIONS, TEXTS};
use crate::findings::{share, Findings};
use crate::limits::{self, Cut, Refuse, UpTo, CUTS, REFUSED};
use crate::members::{self, Machine};
use crate::outcomes::{self, Tell};
use crate::random::Random;
use crate::reads::{self, Read};
use crate::silent::{self, HighestFirst, IN_ANY_STATE, IN_RUNS, TAKEN};
use crate::small::Through;
use crate::summary::{spelled, Summary};
use crate::tables::{self, by_reference, Simulate};
use crate::texts::{self, Prints, Program};
use crate::whole::check_small_settings;
use crate::whole::{check_kinds, check_lengths, check_rules, check_sizes};
use crate::whole::{check_small_count, check_small_equalities, check_small_rules};
use crate::whys::{self, Explain};
use crate::writes::{self, Write};
use crate::wrong::{self, Change, Hear, Take, Wrong, COUNTS, CRASHES, ENDS, FIRSTS, RIGHT, TURNS};
use crate::wrong::{LOOSE, RULES, STOPPING};
use crate::wrong_outcomes::{self, AnswerBy, OutcomeBy, Print, TellBy};
use crate::wrong_outcomes::{ASKED, PRINTED, REFUSALS, TAKES, WRITTEN};
use crate::wrong_whys::{self, ExplainBy, WhyBy};
use crate::{demands, generate, runs, small, trips};

/// The seed and the counts of the self-test. Every size comes up among the finished runs, those of members and the
/// round trips, every second one among the valid texts, and every length of a table with every kind of count of
/// crashes.
const SEED: u64 = 1;
const SIZES: u64 = generate::SIZES_COUNT as u64;
const VALID: u64 = SIZES / 2;
const DAMAGED: u64 = 1_400;
const STEP: usize = 97;
const TABLES: u64 = 9_000;
const OUTCOMES: u64 = 200 * outcomes::KINDS as u64;
const WHYS: u64 = 100 * whys::KINDS as u64;
const CRASH_COUNTS: u64 = 2 * (crashes::KINDS.len() * crashes::LENGTHS) as u64;
const WRITES: u64 = 200 * writes::KINDS as u64;
const READS: u64 = 100 * reads::KINDS as u64;
const MEMBERS: u64 = 70_000;

/// A planted difference: the part of the matching, its name, and what that part then finds.
pub struct Plant {
    pub part: &'static str,
    pub name: &'static str,
    pub findings: Findings,
    /// The sum from which the exit code comes.
    pub summary: Summary,
}

impl Plant {
    /// A plant in a part that has to meet these refusal numbers.
    fn new(part: &'static str, name: &'static str, findings: Findings, numbers: &[u8]) -> Plant {
        let mut summary = Summary::default();
        summary.add(part, &findings, numbers);
        Plant {
            part,
            name,
            findings,
            summary,
        }
    }

    /// Whether the difference was found: it is counted, shown in full, and the exit code would be 1.
    pub fn found(&self) -> bool {
        let counted = self.findings.differ + self.findings.broken != 0;
        counted && !self.findings.differences.is_empty() && self.summary.exit_code() == 1
    }

    fn print(&self, verdict: &str) {
        let (part, name, findings) = (self.part, spelled(self.name), &self.findings);
        let what = match findings.compared {
            0 => format!("{} of {} runs", findings.broken, findings.demands),
            compared => format!("{} of {compared} answers", findings.differ),
        };
        println!("{verdict} {part}: {name}: {what} differ");
    }
}

/// Runs the self-test, prints a line for each plant, and gives the exit code.
pub fn self_test() -> u8 {
    let mut right = true;
    let mut verdict = |passes: bool, word: &'static str| {
        right &= passes;
        if passes {
            word
        } else {
            "FAILED"
        }
    };
    for control in controls() {
        control.print(verdict(control.summary.exit_code() == 0, "passes"));
    }
    for plant in plants() {
        plant.print(verdict(plant.found(), "found"));
    }
    for plant in faults() {
        plant.print(verdict(plant.summary.exit_code() == 1, "found"));
    }
    println!("self-test {}", if right { "passed" } else { "FAILED" });
    u8::from(!right)
}

/// Each part with the right implementation.
pub fn controls() -> Vec<Plant> {
    const NAME: &str = "nothing planted";
    let right = |text: &[u8]| Ok(answer(text));
    let right_outcome = |text: &[u8]| Ok(outcome::answer(text));
    let right_why = |text: &[u8]| Ok(why::answer(text));
    vec![
        sized(NAME, SIZES, &right),
        damaged(NAME, &right),
        sized_outcome(NAME, SIZES, &right_outcome),
        damaged_outcome(NAME, &right_outcome),
        sized_why(NAME, SIZES, &right_why),
        damaged_why(NAME, &right_why),
        every_nth(NAME, &by_reference),
        every_nth_told(NAME, &outcomes::by_reference),
        every_nth_explained(NAME, &whys::by_reference),
        promised(NAME, Member::after, unchanged),
        met_with_equality(NAME, &RULE),
        called(NAME, &by_reference),
        told(NAME, &outcomes::by_reference),
        explained(NAME, &whys::by_reference),
        counted(NAME, &crashes::by_reference),
        schedules_written(NAME, &writes::by_reference),
        texts_read(NAME, &reads::by_reference),
        tripped(NAME, &writes::by_reference, &reads::by_reference),
        machine(NAME, &RIGHT),
        in_run(NAME, &RIGHT),
    ]
}

/// All plants.
pub fn plants() -> Vec<Plant> {
    let mut plants = turns();
    plants.extend(counts());
    plants.extend(in_texts());
    plants.extend(in_calls());
    plants.extend(in_outcomes());
    plants.extend(in_outcome_calls());
    plants.extend(in_outcome_texts());
    plants.extend(in_whys());
    plants.extend(in_why_calls());
    plants.extend(in_why_texts());
    plants.extend(in_crash_counts());
    plants.extend(in_writes());
    plants.extend(in_reads());
    plants.extend(in_trips());
    plants.extend(in_promises());
    plants.extend(in_rounds_by_crashes());
    plants.extend(in_members());
    plants.extend(in_silent_sets());
    plants.extend(in_silent_promises());
    plants.extend(in_limits());
    plants
}

/// Faults other than differences: a refusal number that is never met, a schedule left out, a row left out that sets the
/// silent processes, a process left out for which a rule is named, a rule that is never named, a size left out, a length
/// left out, a kind left out, and rules of the crashes so far that no run breaks.
pub fn faults() -> Vec<Plant> {
    let right = |text: &[u8]| Ok(answer(text));
    let right_outcome = |text: &[u8]| Ok(outcome::answer(text));
    let right_why = |text: &[u8]| Ok(why::answer(text));
    let few = texts::compare_damaged(SEED, 3, Prints::Report, &right);
    let mut left_out = every_nth("schedules left out", &by_reference);
    check_small_count(&mut left_out.summary, &left_out.findings);
    let mut fewer_rows = every_nth("rows that set the silent left out", &by_reference);
    check_small_settings(&mut fewer_rows.summary, &fewer_rows.findings);
    let mut fewer_whys = every_nth_explained("processes left out", &whys::by_reference);
    check_small_rules(&mut fewer_whys.summary, &fewer_whys.findings);
    let too_few = CRASH_COUNTS / 2 - crashes::KINDS.len() as u64;
    let short = counted_times("one length left out", too_few, &crashes::by_reference);
    let name = "refusal numbers never met";
    let mut faults = vec![
        Plant::new("damaged texts", name, few, &texts::NUMBERS),
        left_out,
        fewer_rows,
        fewer_whys,
        sized("one size left out", SIZES - 1, &right),
        sized_outcome("one size left out", SIZES - 1, &right_outcome),
        sized_why("one size left out", SIZES - 1, &right_why),
        in_run_times("one size left out", SIZES - 1, &RIGHT),
        short,
    ];
    faults.extend(few_outcomes());
    faults.extend(few_whys());
    faults.extend(few_files());
    let loose = LOOSE.into_iter();
    faults.extend(loose.map(|(name, rule)| met_with_equality(name, &rule)));
    faults
}

/// Too few calls for the outcome.
fn few_outcomes() -> [Plant; 2] {
    let few = |count| outcomes::compare(SEED, count, &outcomes::by_reference);
    let (part, numbers) = ("calls for the outcome", outcomes::NUMBERS);
    let all_but_one = few(outcomes::KINDS as u64 - 1);
    let mut kinds = Plant::new(part, "one kind left out", all_but_one, &[]);
    check_kinds(&mut kinds.summary, part, &kinds.findings);
    let never = Plant::new(part, "refusal numbers never met", few(3), &numbers);
    [never, kinds]
}

/// Too few calls for why.
fn few_whys() -> [Plant; 4] {
    let few = |count| whys::compare(SEED, count, &whys::by_reference);
    let (part, numbers) = ("calls for why", whys::NUMBERS);
    let all_but_one = few(whys::KINDS as u64 - 1);
    let mut kinds = Plant::new(part, "one kind left out", all_but_one, &[]);
    check_kinds(&mut kinds.summary, part, &kinds.findings);
    let never = Plant::new(part, "refusal numbers never met", few(3), &numbers);
    let mut rules = Plant::new(part, "rules never named", few(3), &[]);
    check_rules(&mut rules.summary, part, &rules.findings);
    let right_why = |text: &[u8]| Ok(why::answer(text));
    let mut in_texts = valid_why_times("rules never named", 3, &right_why);
    check_rules(&mut in_texts.summary, in_texts.part, &in_texts.findings);
    [never, kinds, rules, in_texts]
}

/// Too few writings, readings and round trips.
fn few_files() -> Vec<Plant> {
    let (write, read): (WriteBy, ReadBy) = (writes::by_reference, reads::by_reference);
    let (never, kind) = ("refusal numbers never met", "one kind left out");
    let few_writes = |count| writes::compare(SEED, count, &write);
    let few_reads = |count| reads::compare(SEED, count, &read);
    let all_but_one = (writes::KINDS as u64 - 1, reads::KINDS as u64 - 1);
    let mut faults = vec![
        Plant::new("schedules written", never, few_writes(3), &writes::NUMBERS),
        Plant::new("texts read", never, few_reads(3), &reads::NUMBERS),
        tripped_times("one size left out", SIZES - 1, &write, &read),
    ];
    let few_kinds = [
        Plant::new("schedules written", kind, few_writes(all_but_one.0), &[]),
        Plant::new("texts read", kind, few_reads(all_but_one.1), &[]),
    ];
    for mut plant in few_kinds {
        check_kinds(&mut plant.summary, plant.part, &plant.findings);
        faults.push(plant);
    }
    faults
}

/// The wrong turns of document 01 in every part.
fn turns() -> Vec<Plant> {
    let of_turn = |(name, hear): (&'static str, Hear)| {
        let machine_with_turn = Wrong { hear, ..RIGHT };
        [
            valid(name, &wrong::program_by(hear, unchanged)),
            every_nth(name, &wrong::simulate_by(hear, unchanged)),
            called(name, &wrong::simulate_by(hear, unchanged)),
            machine(name, &machine_with_turn),
            in_run(name, &machine_with_turn),
        ]
    };
    TURNS.into_iter().flat_map(of_turn).collect()
}

/// The wrong turns of counting messages, the wrong orders of the first decider and the wrong turns of f, in every part
/// that gives counts.
fn counts() -> Vec<Plant> {
    let of_turn = |(name, change): (&'static str, Change)| {
        let simulate = wrong::simulate_by(Member::after, change);
        [
            valid(name, &wrong::program_by(Member::after, change)),
            every_nth(name, &simulate),
            called(name, &simulate),
        ]
    };
    let turns = COUNTS.into_iter().chain(FIRSTS).chain(CRASHES);
    turns.flat_map(of_turn).collect()
}

fn in_texts() -> Vec<Plant> {
    let right = Member::after;
    vec![
        valid("a report with one byte changed", &wrong::changed_byte),
        valid(
            "messages off by one at f = t",
            &wrong::program_by(right, wrong::one_message_more),
        ),
        valid(
            "a decision in the crash round",
            &wrong::program_by(right, wrong::acts_in_crash_round),
        ),
        damaged(
            "number 7 with a wrong line",
            &wrong::refused_by(wrong::wrong_line),
        ),
        damaged(
            "number 7 with the line of the crash that is too many",
            &wrong::refused_by(wrong::line_of_the_crash),
        ),
        damaged(
            "number 7 asked before later processes",
            &wrong::refused_by(wrong::crashes_before_later_lines),
        ),
        damaged(
            "a refused line without its NUL",
            &wrong::refused_by(wrong::without_nul),
        ),
        damaged(
            "number 7 asked before the end of the text",
            &wrong::refused_by(wrong::crashes_before_end),
        ),
        damaged("a text of LONGEST + 1 bytes read", &wrong::long_text),
        damaged("CR LF taken for LF", &wrong::cr_lf),
        damaged("no answer to an empty line 1", &wrong::fails),
    ]
}

fn in_calls() -> Vec<Plant> {
    let changed = |change| wrong::simulate_by(Member::after, change);
    let more = changed(wrong::one_message_more);
    let acts = changed(wrong::acts_in_crash_round);
    vec![
        every_nth("a decision in the crash round", &acts),
        every_nth("messages off by one at f = t", &more),
        called("messages off by one at f = t", &more),
        called("a table changed on refusal 7", &wrong::table_on_refusal),
        called(
            "number 7 asked before later processes",
            &wrong::crashes_before_later_processes,
        ),
        called("a rounds table that is too long", &wrong::long_table),
        called("reaches above n let pass", &wrong::reach_above_n),
        called("n and t taken as bytes", &wrong::sizes_as_bytes),
    ]
}

/// The wrong values and rounds that document 02's K6 invites, in every part that gives outcomes; and the wrong turns of
/// hearing, but for the one that shows only after the first decision.
fn in_outcomes() -> Vec<Plant> {
    let of_take = |(name, take): (&'static str, OutcomeBy)| {
        let tell = wrong_outcomes::taking(take);
        [
            valid_outcome(name, &wrong_outcomes::program_taking(take)),
            every_nth_told(name, &tell),
            told(name, &tell),
        ]
    };
    let of_turn = |(name, hear): (&'static str, Hear)| {
        let tell = wrong_outcomes::hearing(hear);
        [every_nth_told(name, &tell), told(name, &tell)]
    };
    let mut plants: Vec<Plant> = TAKES.into_iter().flat_map(of_take).collect();
    let shown = |(place, turn)| (place != STOPPING).then_some(turn);
    let turns = TURNS.into_iter().enumerate().filter_map(shown);
    plants.extend(turns.flat_map(of_turn));
    plants
}

/// The wrong calls for the outcome that it invites, and those that K11 does.
fn in_outcome_calls() -> Vec<Plant> {
    let of_tell = |(name, tell): (&'static str, TellBy)| told(name, &tell);
    let refusing =
        |(name, refuse): (&'static str, Refuse)| told(name, &wrong_outcomes::refusing(refuse));
    let cutting = |(name, cut): (&'static str, Cut)| told(name, &wrong_outcomes::cutting(cut));
    let estimates = wrong_outcomes::hearing(limits::estimates_in_six_bits);
    let mut plants: Vec<Plant> = WRITTEN.into_iter().chain(ASKED).map(of_tell).collect();
    plants.extend(REFUSED.into_iter().map(refusing));
    plants.extend(CUTS.into_iter().map(cutting));
    plants.push(told("64 estimates counted in six bits", &estimates));
    plants
}

/// The wrong lines that it invites.
fn in_outcome_texts() -> Vec<Plant> {
    let of_print = |(name, print): (&'static str, Print)| {
        valid_outcome(name, &wrong_outcomes::printing(print))
    };
    let of_refusal = |(name, answer): (&'static str, AnswerBy)| {
        damaged_outcome(name, &move |text: &[u8]| Ok(answer(text)))
    };
    let mut plants: Vec<Plant> = PRINTED.into_iter().map(of_print).collect();
    plants.extend(REFUSALS.into_iter().map(of_refusal));
    plants.push(valid_outcome(
        "the report printed",
        &wrong_outcomes::report_printed,
    ));
    plants
}

/// The wrong rules and numbers that document 02's K9 invites, in every part that names them, but for those that need larger
/// clusters; and the wrong turns of hearing.
fn in_whys() -> Vec<Plant> {
    let of_take = |(name, take): (&'static str, WhyBy)| {
        let explain = wrong_whys::taking(take);
        [
            valid_why(name, &wrong_whys::program_taking(take)),
            explained(name, &explain),
        ]
    };
    let with_n_4 = |(name, take): (&'static str, WhyBy)| {
        let explain = wrong_whys::taking(take);
        every_nth_explained(name, &explain)
    };
    let of_turn = |(name, hear): (&'static str, Hear)| {
        let explain = wrong_whys::hearing(hear);
        [
            every_nth_explained(name, &explain),
            explained(name, &explain),
        ]
    };
    let takes = wrong_whys::TAKES.into_iter();
    let all_takes = takes.clone().chain(wrong_whys::LARGER_TAKES);
    let mut plants: Vec<Plant> = all_takes.flat_map(of_take).collect();
    plants.extend(takes.map(with_n_4));
    plants.extend(TURNS.into_iter().flat_map(of_turn));
    let (name, take) = wrong_whys::IN_SIX_BITS;
    plants.push(explained(name, &wrong_whys::taking(take)));
    plants
}

/// The wrong calls for why that it invites, and those that K11 does.
fn in_why_calls() -> Vec<Plant> {
    let of_explain = |(name, explain): (&'static str, ExplainBy)| explained(name, &explain);
    let refusing =
        |(name, refuse): (&'static str, Refuse)| explained(name, &wrong_whys::refusing(refuse));
    let cutting = |(name, cut): (&'static str, Cut)| explained(name, &wrong_whys::cutting(cut));
    let estimates = wrong_whys::hearing(limits::estimates_in_six_bits);
    let calls = wrong_whys::WRITTEN.into_iter().chain(wrong_whys::ASKED);
    let mut plants: Vec<Plant> = calls.map(of_explain).collect();
    plants.extend(REFUSED.into_iter().map(refusing));
    plants.extend(CUTS.into_iter().map(cutting));
    plants.push(explained("64 estimates counted in six bits", &estimates));
    plants
}

/// The wrong lines that it invites.
fn in_why_texts() -> Vec<Plant> {
    let of_print = |(name, print): (&'static str, wrong_whys::Print)| {
        valid_why(name, &wrong_whys::printing(print))
    };
    let of_refusal = |(name, answer): (&'static str, AnswerBy)| {
        damaged_why(name, &move |text: &[u8]| Ok(answer(text)))
    };
    let of_other = |(name, answer): (&'static str, AnswerBy)| {
        valid_why(name, &move |text: &[u8]| Ok(answer(text)))
    };
    let mut plants: Vec<Plant> = wrong_whys::PRINTED.into_iter().map(of_print).collect();
    plants.extend(wrong_whys::REFUSALS.into_iter().map(of_refusal));
    plants.extend(wrong_whys::OTHERS.into_iter().map(of_other));
    plants
}

/// The wrong counts of crashes.
fn in_crash_counts() -> Vec<Plant> {
    let of_count = |(name, count): (&'static str, wrong::Count)| counted(name, &count);
    ENDS.into_iter().map(of_count).collect()
}

/// The wrong writers that document 02's K2 invites.
fn in_writes() -> Vec<Plant> {
    let of_text =
        |(name, text): (&'static str, Text)| schedules_written(name, &files::writing(text));
    let of_writer = |(name, write): (&'static str, WriteBy)| schedules_written(name, &write);
    let mut plants: Vec<Plant> = TEXTS.into_iter().map(of_text).collect();
    plants.extend(BUFFERS.into_iter().chain(QUESTIONS).map(of_writer));
    plants
}

/// The wrong readers that it invites.
fn in_reads() -> Vec<Plant> {
    let of_reader = |(name, read): (&'static str, ReadBy)| texts_read(name, &read);
    let readers = ACCEPTED.into_iter().chain(files::TAKEN);
    readers.chain(files::REFUSED).map(of_reader).collect()
}

/// Those of the wrong writers that show in a text or behind it, with the right reader; and with the right writer the
/// wrong readers of accepted texts, and those that take more texts.
fn in_trips() -> Vec<Plant> {
    let (right_write, right_read): (WriteBy, ReadBy) = (writes::by_reference, reads::by_reference);
    let of_text = |(name, text): (&'static str, Text)| {
        let write = files::writing(text);
        tripped(name, &write, &right_read)
    };
    let of_writer = |(name, write): (&'static str, WriteBy)| tripped(name, &write, &right_read);
    let of_reader = |(name, read): (&'static str, ReadBy)| tripped(name, &right_write, &read);
    let mut plants: Vec<Plant> = TEXTS.into_iter().map(of_text).collect();
    plants.extend(BUFFERS.into_iter().take(IN_LONGER).map(of_writer));
    let readers = ACCEPTED.into_iter().chain(files::TAKEN);
    plants.extend(readers.map(of_reader));
    plants
}

fn in_promises() -> Vec<Plant> {
    let right = Member::after;
    vec![
        promised("only zeros counted in round 1", TURNS[1].1, unchanged),
        promised("one process decides otherwise", right, disagree),
        promised("a 1 decided in spite of a vote 0", right, commit_all),
        promised("round B completed undecided", right, late),
        promised("one message above the bound", right, above_bound),
        promised("one message more without a crash", right, more_if_quiet),
        promised("the own copy counted", right, COUNTS[0].1),
        promised("decided in round 3 after a vote 0", right, slow_abort),
        promised("decided in round 3 without a crash", right, slow_commit),
        promised("the lower number first, crash or not", right, FIRSTS[0].1),
        promised("a survivor first, whatever its round", right, FIRSTS[5].1),
    ]
}

/// The wrong rules of the crashes so far on right runs, and runs in which a process decides too late for the crashes.
fn in_rounds_by_crashes() -> Vec<Plant> {
    let rules = RULES.into_iter();
    let mut plants: Vec<Plant> = rules.map(|(name, rule)| ruled(name, &rule)).collect();
    plants.extend(late_runs());
    plants
}

fn late_runs() -> Vec<Plant> {
    let right = Member::after;
    vec![
        promised("undecided with r - 2 crashes by r", right, late_before_t),
        promised("undecided with t - 1 crashes by t", right, late_in_t),
        promised("undecided in the last round", right, late_at_the_end),
        promised("undecided for a later crash", right, late_for_later_crash),
    ]
}

fn in_members() -> Vec<Plant> {
    let refused = |refused| Wrong { refused, ..RIGHT };
    let own = |own: usize, n: usize| own.min(n);
    let said = |said| match said {
        Err(11) => Ok(0),
        _ => said,
    };
    vec![
        machine(
            "a state changed on refusal 17",
            &refused(wrong::round_grows),
        ),
        machine("13 asked before 12", &refused(wrong::length_first)),
        machine("17 asked before 16", &refused(wrong::both_first)),
        machine("own number n + 1 opened", &Wrong { own, ..RIGHT }),
        machine("nothing said out of range", &Wrong { said, ..RIGHT }),
    ]
}

/// The wrong sets of silent processes that document 02's K7 invites.
fn in_silent_sets() -> Vec<Plant> {
    let mut plants = Vec::new();
    plants.extend(IN_RUNS.into_iter().flat_map(set_in_runs));
    plants.extend(IN_ANY_STATE.into_iter().map(set_in_any_state));
    plants.extend(TAKEN.into_iter().map(set_in_range));
    let full = "everybody else in the set at opening";
    let opened = silent::all_others;
    let turned = "the set's bytes highest first";
    let refused = silent::emptied;
    plants.extend([
        machine(full, &Wrong { opened, ..RIGHT }),
        in_run(full, &Wrong { opened, ..RIGHT }),
        machine(turned, &HighestFirst),
        in_run(turned, &HighestFirst),
        machine("a set emptied on refusal 17", &Wrong { refused, ..RIGHT }),
    ]);
    plants
}

fn set_in_runs((name, hear): (&'static str, Hear)) -> [Plant; 2] {
    let wrong = Wrong { hear, ..RIGHT };
    [machine(name, &wrong), in_run(name, &wrong)]
}

fn set_in_any_state((name, hear): (&'static str, Hear)) -> Plant {
    machine(name, &Wrong { hear, ..RIGHT })
}

fn set_in_range((name, taken): (&'static str, Take)) -> Plant {
    machine(name, &Wrong { taken, ..RIGHT })
}

/// Those of the wrong sets that break what holds of them in a run: the rows that should set it and don't, and the sets
/// of wrong processes.
fn in_silent_promises() -> Vec<Plant> {
    let of_way = |(name, hear): (&'static str, Hear)| promised(name, hear, unchanged);
    let ways = IN_RUNS.into_iter().skip(silent::SHOULD_SET);
    ways.map(of_way).collect()
}

/// The wrong limits, and sets and numbers that are too narrow, that document 02's K11 invites.
fn in_limits() -> Vec<Plant> {
    let mut plants = Vec::new();
    plants.extend(REFUSED.into_iter().flat_map(still_refused));
    plants.extend(CUTS.into_iter().flat_map(cut));
    plants.extend(too_narrow());
    plants.extend(old_limits());
    plants.extend(one_more_let_in());
    plants
}

fn still_refused((name, refuse): (&'static str, Refuse)) -> [Plant; 2] {
    [
        valid(name, &limits::program_refusing(refuse)),
        called(name, &limits::simulate_refusing(refuse)),
    ]
}

fn cut((name, cut): (&'static str, Cut)) -> [Plant; 2] {
    [
        valid(name, &limits::program_cutting(cut)),
        called(name, &limits::simulate_cutting(cut)),
    ]
}

/// Numbers that are too narrow for the largest cluster.
fn too_narrow() -> Vec<Plant> {
    let messages = "messages kept in two bytes";
    let estimates = "64 estimates counted in six bits";
    let (right, kept) = (Member::after, limits::messages_in_two_bytes);
    let hear = limits::estimates_in_six_bits;
    vec![
        valid(messages, &wrong::program_by(right, kept)),
        called(messages, &wrong::simulate_by(right, kept)),
        valid(estimates, &wrong::program_by(hear, unchanged)),
        called(estimates, &wrong::simulate_by(hear, unchanged)),
        machine(estimates, &Wrong { hear, ..RIGHT }),
    ]
}

/// Limits of document 01, apart from those of an accepted schedule.
fn old_limits() -> Vec<Plant> {
    let texts = "texts over 2,048 bytes still refused";
    vec![
        valid(texts, &limits::short_texts_only),
        damaged(texts, &limits::short_texts_only),
        called(
            "a rounds table that is too long above n = 32",
            &limits::long_table_above_32,
        ),
        counted("crashes above process 32 left out", &limits::crashes_of_32),
        machine("n above 32 still refused", &UpTo(limits::OLD_LARGEST)),
    ]
}

/// What is just beyond a limit, let in. (A text of LONGEST + 1 bytes stands among the texts.)
fn one_more_let_in() -> Vec<Plant> {
    vec![
        damaged("n = 65 let in", &wrong::refused_by(limits::line_of_65)),
        called("n = 65 let in", &limits::tables_of_65),
        machine("n = 65 let in", &UpTo(LARGEST + 1)),
        called("process 64 named at n = 63", &limits::process_64_of_63),
        called("any reach let pass at n = 64", &limits::any_reach_of_64),
    ]
}

fn valid(name: &'static str, program: Program) -> Plant {
    valid_times(name, VALID, program)
}

/// The same on so many texts, which have to be of all sizes.
fn sized(name: &'static str, count: u64, program: Program) -> Plant {
    let mut plant = valid_times(name, count, program);
    check_sizes(&mut plant.summary, plant.part, &plant.findings);
    plant
}

fn valid_times(name: &'static str, count: u64, program: Program) -> Plant {
    let findings = texts::compare_valid(SEED, count, Prints::Report, program);
    Plant::new("valid texts", name, findings, &[])
}

fn damaged(name: &'static str, program: Program) -> Plant {
    let findings = texts::compare_damaged(SEED, DAMAGED, Prints::Report, program);
    Plant::new("damaged texts", name, findings, &texts::NUMBERS)
}

/// The same texts through a program that prints the outcome.
fn valid_outcome(name: &'static str, program: Program) -> Plant {
    valid_outcome_times(name, VALID, program)
}

fn sized_outcome(name: &'static str, count: u64, program: Program) -> Plant {
    let mut plant = valid_outcome_times(name, count, program);
    check_sizes(&mut plant.summary, plant.part, &plant.findings);
    plant
}

fn valid_outcome_times(name: &'static str, count: u64, program: Program) -> Plant {
    let findings = texts::compare_valid(SEED, count, Prints::Outcome, program);
    Plant::new("valid texts, outcome", name, findings, &[])
}

fn damaged_outcome(name: &'static str, program: Program) -> Plant {
    let findings = texts::compare_damaged(SEED, DAMAGED, Prints::Outcome, program);
    Plant::new("damaged texts, outcome", name, findings, &texts::NUMBERS)
}

/// The same texts through a program that prints why each process decided.
fn valid_why(name: &'static str, program: Program) -> Plant {
    valid_why_times(name, VALID, program)
}

fn sized_why(name: &'static str, count: u64, program: Program) -> Plant {
    let mut plant = valid_why_times(name, count, program);
    check_sizes(&mut plant.summary, plant.part, &plant.findings);
    check_rules(&mut plant.summary, plant.part, &plant.findings);
    plant
}

fn valid_why_times(name: &'static str, count: u64, program: Program) -> Plant {
    let findings = texts::compare_valid(SEED, count, Prints::Why, program);
    Plant::new("valid texts, why", name, findings, &[])
}

fn damaged_why(name: &'static str, program: Program) -> Plant {
    let findings = texts::compare_damaged(SEED, DAMAGED, Prints::Why, program);
    Plant::new("damaged texts, why", name, findings, &texts::NUMBERS)
}

fn every_nth(name: &'static str, simulate: Simulate) -> Plant {
    let findings = small::compare(STEP, &[Through::Run(simulate)]);
    Plant::new("n = 4, t = 3", name, findings, &[])
}

/// The same schedules through the call for the outcome.
fn every_nth_told(name: &'static str, tell: Tell) -> Plant {
    let findings = small::compare(STEP, &[Through::Outcome(tell)]);
    Plant::new("n = 4, t = 3, outcome", name, findings, &[])
}

/// The same schedules through the call for why.
fn every_nth_explained(name: &'static str, explain: Explain) -> Plant {
    let findings = small::compare(STEP, &[Through::Why(explain)]);
    Plant::new("n = 4, t = 3, why", name, findings, &[])
}

fn called(name: &'static str, simulate: Simulate) -> Plant {
    let findings = tables::compare(SEED, TABLES, simulate);
    Plant::new("calls on tables", name, findings, &tables::NUMBERS)
}

fn told(name: &'static str, tell: Tell) -> Plant {
    let findings = outcomes::compare(SEED, OUTCOMES, tell);
    let mut plant = Plant::new("calls for the outcome", name, findings, &outcomes::NUMBERS);
    check_kinds(&mut plant.summary, plant.part, &plant.findings);
    plant
}

fn explained(name: &'static str, explain: Explain) -> Plant {
    let findings = whys::compare(SEED, WHYS, explain);
    let mut plant = Plant::new("calls for why", name, findings, &whys::NUMBERS);
    check_kinds(&mut plant.summary, plant.part, &plant.findings);
    check_rules(&mut plant.summary, plant.part, &plant.findings);
    plant
}

fn counted(name: &'static str, count_crashes: CountCrashes) -> Plant {
    counted_times(name, CRASH_COUNTS, count_crashes)
}

fn counted_times(name: &'static str, count: u64, count_crashes: CountCrashes) -> Plant {
    let findings = crashes::compare(SEED, count, count_crashes);
    let mut plant = Plant::new("counts of crashes", name, findings, &[]);
    check_lengths(&mut plant.summary, &plant.findings);
    plant
}

fn schedules_written(name: &'static str, write: Write) -> Plant {
    let findings = writes::compare(SEED, WRITES, write);
    let mut plant = Plant::new("schedules written", name, findings, &writes::NUMBERS);
    check_kinds(&mut plant.summary, plant.part, &plant.findings);
    plant
}

fn texts_read(name: &'static str, read: Read) -> Plant {
    let findings = reads::compare(SEED, READS, read);
    let mut plant = Plant::new("texts read", name, findings, &reads::NUMBERS);
    check_kinds(&mut plant.summary, plant.part, &plant.findings);
    plant
}

fn tripped(name: &'static str, write: Write, read: Read) -> Plant {
    tripped_times(name, SIZES, write, read)
}

/// The same over so many round trips, which have to be of all sizes and kinds.
fn tripped_times(name: &'static str, count: u64, write: Write, read: Read) -> Plant {
    let findings = trips::compare(SEED, count, write, read);
    let mut plant = Plant::new("round trips", name, findings, &[]);
    check_sizes(&mut plant.summary, plant.part, &plant.findings);
    check_kinds(&mut plant.summary, plant.part, &plant.findings);
    plant
}

fn machine(name: &'static str, machine: &dyn Machine) -> Plant {
    let findings = members::compare(SEED, MEMBERS, machine);
    Plant::new("calls to a member", name, findings, &members::NUMBERS)
}

fn in_run(name: &'static str, machine: &dyn Machine) -> Plant {
    in_run_times(name, SIZES, machine)
}

/// The same over so many runs, which have to be of all sizes.
fn in_run_times(name: &'static str, count: u64, machine: &dyn Machine) -> Plant {
    let findings = runs::compare(SEED, count, machine);
    let mut plant = Plant::new("members in runs", name, findings, &[]);
    check_sizes(&mut plant.summary, plant.part, &plant.findings);
    plant
}

/// Demand 3 and the rules of the first decider, of the crashes so far and of the silent processes on runs that hear by
/// a way and are changed at their end.
fn promised(name: &'static str, hear: Hear, change: Change) -> Plant {
    finished(name, &RULE, hear, change)
}

/// The same on right runs with another rule of the crashes so far.
fn ruled(name: &'static str, rule: &Rule) -> Plant {
    finished(name, rule, Member::after, unchanged)
}

fn finished(name: &'static str, rule: &Rule, hear: Hear, change: Change) -> Plant {
    let sizes = generate::sizes();
    let findings = share(SIZES, 0, |findings, case| {
        let mut random = Random::of_case(SEED, 0, case);
        let (_, schedule) = generate::of_case(&mut random, &sizes, case);
        let (run, hearings) = wrong::changed_run_heard(&schedule, hear, change);
        demands::check_by(rule, findings, case, &schedule, &run, &hearings);
    });
    Plant::new("finished runs", name, findings, &[])
}

/// The same rule on the right runs of all schedules with n = 4 and t = 3, and how often they meet it with equality, and
/// set the silent processes.
fn met_with_equality(name: &'static str, rule: &Rule) -> Plant {
    let mut plant = Plant::new("all of n = 4, t = 3", name, small::hold(rule), &[]);
    check_small_equalities(&mut plant.summary, &plant.findings);
    check_small_settings(&mut plant.summary, &plant.findings);
    plant
}

fn unchanged(_: &Schedule, _: &mut Run) {}

/// The last process that decided decides the other value.
fn disagree(_: &Schedule, run: &mut Run) {
    if let Some(decision) = run.decisions.iter_mut().rfind(|value| **value != NONE) {
        *decision = 1 - *decision;
    }
}

fn commit_all(_: &Schedule, run: &mut Run) {
    for decision in run.decisions.iter_mut().filter(|value| **value == 0) {
        *decision = 1;
    }
}

/// Process n completes round B undecided where B is t + 1.
fn late(schedule: &Schedule, run: &mut Run) {
    if schedule.f() == schedule.t {
        run.undecided[schedule.t] = bit(schedule.n);
    }
}

fn above_bound(schedule: &Schedule, run: &mut Run) {
    if schedule.f() == schedule.t - 1 {
        run.counts.messages = message_limit(schedule) + 1;
    }
}

/// Without a crash the bound is met with equality, as in case A: so this finds one that is too large, by however
/// little, and the runs with nothing planted find one that is too small.
fn more_if_quiet(schedule: &Schedule, run: &mut Run) {
    if schedule.f() == 0 {
        run.counts.messages += 1;
    }
}

fn slow_abort(schedule: &Schedule, run: &mut Run) {
    if schedule.has_vote_0() {
        slow(run);
    }
}

fn slow_commit(schedule: &Schedule, run: &mut Run) {
    if schedule.f() == 0 {
        slow(run);
    }
}

/// The last process that decided decides in round 3, unless it is the first decider: that one stays right. So demand 3
/// is broken, and with too few crashes for round 2 their rule too, which is asked after it.
fn slow(run: &mut Run) {
    let last = run.rounds.iter().rposition(|round| *round != 0);
    match last {
        Some(place) if place + 1 != run.counts.first => run.rounds[place] = 3,
        _ => {}
    }
}

/// Some process completes the settling round undecided, which is before t. The round before it has enough crashes, or
/// is round 1: so there is just one too few.
fn late_before_t(schedule: &Schedule, run: &mut Run) {
    let settling = settling_round(schedule.t, &schedule.crashes);
    if settling < schedule.t {
        late_by_tables(schedule, run, settling);
    }
}

/// The same where the settling round is t, and the rule of the rounds before t has enough crashes.
fn late_in_t(schedule: &Schedule, run: &mut Run) {
    let (t, crashes) = (schedule.t, &schedule.crashes);
    if settling_round(t, crashes) == t && crashes_by(crashes, t) == t - 1 {
        late_by_tables(schedule, run, t);
    }
}

/// The same where the settling round is t + 1.
fn late_at_the_end(schedule: &Schedule, run: &mut Run) {
    let settling = settling_round(schedule.t, &schedule.crashes);
    if settling == schedule.t + 1 {
        late_by_tables(schedule, run, settling);
    }
}

/// The same where the settling round is before t, and the later crashes would make enough.
fn late_for_later_crash(schedule: &Schedule, run: &mut Run) {
    let settling = settling_round(schedule.t, &schedule.crashes);
    if settling < schedule.t && schedule.f() >= settling - 1 {
        late_by_tables(schedule, run, settling);
    }
}

/// The last survivor that isn't the first decider decides in the round after r, or never if r is the last one. It is
/// kept out of the way of demand 3, so that the crashes so far alone are broken: a vote 0, or no crash, promises round
/// 2, and what the run says of who was undecided, which is held against round B, stays as it was.
fn late_by_tables(schedule: &Schedule, run: &mut Run, r: usize) {
    if schedule.has_vote_0() || schedule.f() == 0 {
        return;
    }
    let survivor = |i: &usize| schedule.survives(*i) && *i != run.counts.first;
    if let Some(i) = (1..=schedule.n).rfind(survivor) {
        if r == schedule.t + 1 {
            (run.decisions[i - 1], run.rounds[i - 1]) = (NONE, 0);
        } else {
            run.rounds[i - 1] = r as u8 + 1;
        }
    }
}

#[cfg(test)]
mod tests {
    use super::*;

    #[test]
    fn the_right_implementation_passes() {
        for control in controls() {
            assert_eq!(control.summary.exit_code(), 0, "{}", control.part);
        }
    }

    #[test]
    fn each_plant_is_found() {
        for plant in plants() {
            assert!(plant.found(), "{}: {}", plant.part, plant.name);
        }
    }

    /// Of several things that a run breaks the first is told: demand 3, the first decider, the crashes so far, the
    /// silent processes.
    #[test]
    fn finished_runs_break_what_is_planted() {
        let found = |plant: &Plant, start: &str| {
            let mut differences = plant.findings.differences.iter();
            assert!(
                differences.any(|(_, words)| words.starts_with(start)),
                "{}: no {start}",
                plant.name
            );
        };
        let starts = [
            "demand 3: weak fast abort",
            "demand 3: agreement",
            "demand 3: abort validity",
            "demand 3: round B",
            "demand 3: message bound",
            "demand 3: message bound",
            "demand 3: message bound",
            "demand 3: weak fast abort",
            "demand 3: fast commit",
            "first decider: process",
            "first decider: process",
        ];
        let promises = in_promises();
        assert_eq!(promises.len(), starts.len());
        for (plant, start) in promises.iter().zip(starts) {
            found(plant, start);
        }
        for plant in in_rounds_by_crashes() {
            found(&plant, "crashes so far: ");
        }
        for plant in in_silent_promises() {
            found(&plant, "silent processes: ");
        }
    }

    /// So demand 3 and the rule of the first decider would let them pass.
    #[test]
    fn late_runs_break_the_crashes_so_far_alone() {
        for plant in late_runs() {
            for (_, words) in &plant.findings.differences {
                assert!(words.starts_with("crashes so far: "), "{words}");
            }
        }
    }

    /// Those that should set it and don't, or name wrong processes, break what holds of a run. The others, in which a
    /// row should leave the set, are found by the states alone. Few runs are enough but for the last one, which needs
    /// process 64.
    #[test]
    fn states_of_a_wrong_machine_break_what_is_promised() {
        let ways = IN_RUNS.into_iter().take(IN_RUNS.len() - 1);
        for (place, (name, hear)) in ways.enumerate() {
            let plant = in_run_times(name, SIZES / 16, &Wrong { hear, ..RIGHT });
            let broken = plant.findings.broken != 0;
            assert_eq!(broken, place >= silent::SHOULD_SET, "{name}");
        }
    }

    #[test]
    fn each_fault_is_found() {
        for plant in faults() {
            assert_eq!(plant.summary.exit_code(), 1, "{}", plant.name);
        }
    }
}
