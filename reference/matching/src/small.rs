//! Every accepted schedule with n = 4 and t = 3.

use reference::outcome::of_run;
use reference::questions::Refusal;
use reference::run::{run_heard, Run};
use reference::schedule::Schedule;
use reference::silent::Settings;
use reference::so_far::{Equalities, Rule};
use reference::why::of_all;
use reference::Set;

use crate::demands;
use crate::findings::{share, Findings, Rules};
use crate::outcomes::{self, Tell};
use crate::tables::{compare_answers, Answer, Call, Simulate};
use crate::whys::{self, Explain};

/// How many there are: 16 votes, and 33 ways for each process to crash or not, without those where all four crash.
pub const COUNT: u64 = 2_197_520;

/// How often they meet the number of crashes so far with equality, all together. The unit is a pair of a schedule and a
/// process: before t one that completes round 2 undecided with one crash by it, in t one that completes round 3
/// undecided with three crashes by it.
///
/// Both are also worked by hand, from document 01. All votes are 1, or whoever completes round 2 decides in it.
///
/// Before t one of four processes crashes by round 2. The others don't, and they don't all crash later, of which there
/// are 17^3 - 16^3 = 817 ways. If it crashes in round 1, the three others complete round 2 undecided, but for the empty
/// reach, with which all estimates are 0: 3 * 7. If it crashes in round 2, those do that its reach doesn't name: 12
/// over all reaches. So 4 * 817 * (21 + 12) = 107844.
///
/// In t one of four processes survives, and the three others crash by round 3. Of 8 reaches it is in 4. It completes
/// rounds 2 and 3 undecided if in round 2 it misses somebody and hears an estimate 1, and in round 3 hears nobody else.
/// By how many crash in rounds 1, 2 and 3:
///
/// - 0, 0, 3: none, for nobody is missed in round 2;
/// - 0, 1, 2: 3 * 4 * (4 * 4) = 192; 0, 2, 1: 3 * (64 - 16) * 4 = 576; 0, 3, 0: 512 - 64 = 448;
/// - 1, 0, 2: 3 * 7 * (4 * 4) = 336; 1, 1, 1: 6 * (4 * 7 + 4 * 6) * 4 = 1248;
/// - 1, 2, 0: 3 * (16 * 7 + 32 * 6 + 16 * 4) = 1104;
/// - 2, 0, 1: 3 * 28 * 4 = 336; 2, 1, 0: 3 * (4 * 28 + 4 * 16) = 528; 3, 0, 0: 4 * 4 * 4 = 64.
///
/// So 4 * 4832 = 19328.
pub const EQUALITIES: Equalities = Equalities {
    before_t: 107_844,
    in_t: 19_328,
};

/// How many of their rows set the silent processes, all together, and how often the set names a process that crashes in
/// the round of such a row, and how often it doesn't.
///
/// They are also worked by hand, from documents 01 and 02. The numbers in brackets are the rows, then the processes
/// that crash in the round: named, not named.
///
/// In round 2 whoever completes it sets the set. It survives, and the others do anything, 33^3 ways; or it crashes in
/// round 3 or 4, 16 ways, and not all others crash, 33^3 - 32^3. So 4 * (35937 + 16 * 3169) = 346564 rows. Another one
/// crashes in round 2 in 12 * 8 * (33^2 + 16 * (33^2 - 32^2)) = 204384 of them, and half of its reaches name the
/// hearer. All this for each of 16 votes: 16 * (346564; 102192, 102192).
///
/// In round 3 those set it that complete round 2 undecided and hear no decided message. All votes are 1, or nobody is
/// undecided. First let nobody decide in round 2. If three complete it, each of them sets the set in
/// 17^2 + 8 * (17^2 - 16^2) = 553 ways, and each of the two others crashes in round 3 in 8 * (17 + 8) = 200 of them, so
/// (1659; 600, 600) for the three. If two complete it, these are 17 + 8 = 25 ways, and 8 of them, so (50; 8, 8) for the
/// two. One that decides in round 2 goes unheard only if it crashes in round 3 and its reach leaves the hearer out, 4
/// ways; then the set names it. By how many crash in rounds 1 and 2:
///
/// - 1, 0: nobody decides, but for the empty reach: 4 * 7 * (1659; 600, 600) = (46452; 16800, 16800);
/// - 0, 1: those decide that the reach names. Nobody: (1659; 600, 600). One, in 3 reaches with 2 hearers each: 4 * 25
///   rows that name it, and the third one crashes in round 3 in 4 * 8 of them, so 6 * (100; 100 + 16, 16). Two, in 3
///   reaches with a hearer each: 4 * 4 rows that name both, so 3 * (16; 32, 0). With 4 processes to crash these are
///   4 * (2307; 1392, 696) = (9228; 5568, 2784);
/// - 2, 0: nobody decides in 28 of 64 pairs of reaches, and both do in the others: 6 * 28 * (50; 8, 8) =
///   (8400; 1344, 1344);
/// - 1, 1: nobody decides in 6 * 8 + 2 of 64 pairs of reaches. In 4 all estimates are 0 but that of the second crash,
///   which comes to one of the two alone, and the other one decides: (4; 4, 0). So 12 * (2516; 416, 400) =
///   (30192; 4992, 4800);
/// - 0, 2: nobody decides in 36 of 64 pairs of reaches, and one of the two in 24: 6 * (1896; 384, 288) =
///   (11376; 2304, 1728);
/// - three in all: the one that is left completes round 2 undecided, by the sums for t above, in
///   4 * (448 + 1104 + 528 + 64) ways: (8576; 0, 0).
///
/// So (114224; 31008, 27456). In round 4 those set it that complete round 3 undecided, and hear nobody else:
/// (19328; 0, 0).
pub const SETTINGS: Settings = Settings {
    rows: 5_678_576,
    named: 1_666_080,
    not_named: 1_662_528,
};

/// How often each rule is named for their processes, all together; in the order of the words: crashed, told, zeros, quiet,
/// round-t, last.
///
/// They are also worked by hand, from document 01, and with the numbers above.
///
/// In round 2 each of 16 * 346564 rows finds its member undecided. With a vote 0 all estimates are 0 after round 1, so that
/// zeros only is named for every row: 15 * 346564 = 5198460. Now let all votes be 1. Whoever completes round 2 undecided is
/// one of U, by how many crash in rounds 1 and 2, and what is left for the others (817 ways for three of them, 17^2 - 16^2 =
/// 33 for two, and 1 for one):
///
/// - 1, 0 and 0, 1: 107844, as above;
/// - 2, 0: 6 * 28 * 2 * 33 = 11088; 1, 1: 12 * (50 * 2 + 4) * 33 = 41184; 0, 2: 6 * (36 * 2 + 24) * 33 = 19008;
/// - three in all: 8576, as above.
///
/// So U = 187700. A quiet round is round 2 with four estimates: nobody crashes in round 1, so that all of them are 1, and
/// whoever crashes in round 2 reaches the hearer, 4 ways. If the hearer survives, these are (1 + 16 + 4)^3; if it crashes
/// later, 16 * (21^3 - 20^3). So 4 * (9261 + 16 * 1261) = 117748. The other rows of round 2 are of zeros only, 346564 -
/// 187700 - 117748 = 41116. This is also the sum over those that are not undecided above and had a crash in round 1:
///
/// - 1, 0: the empty reach, 4 * 3 * 817 = 9804; 2, 0: 6 * 36 * 2 * 33 = 14256; 1, 1: 12 * (10 * 2 + 4) * 33 = 9504;
/// - three in all: 4 * (1536 - 1104 + 1536 - 528 + 512 - 64) = 7552.
///
/// Of U those that complete round 3 hear a decided message there, or one of the 114224 rows above. In 19328 of these rows
/// the own estimate is alone, and the last round decides; in the others round t does: 94896. Whoever completes round 2
/// undecided while another one decides completes round 3 in 553 ways with three left, and in 25 with two:
///
/// - 0, 1: 4 * 12 * 553 = 26544, of which 9228 set the silent processes: 17316 are told;
/// - 1, 1: 12 * 4 * (25 - 4) = 1008; 0, 2: 6 * 24 * (25 - 4) = 3024.
///
/// So 21348 are told. Nobody is in round 4: whoever is undecided then is alone. Those that crash in round 1 or 2 are
/// 16 * 4 * 16 * 3169 = 3245056, and of U those crash undecided in round 3 that don't complete it: 187700 - 21348 - 114224 =
/// 52128. So 3297184 have crashed; and all six together are four times the number of schedules.
pub const RULES: Rules = [3_297_184, 21_348, 5_239_576, 117_748, 94_896, 19_328];

const N: usize = 4;
const T: usize = 3;

/// Vote, crash round and reach of one process.
type Choice = (u8, u8, Set);

/// The calls that each schedule can be put through, by name.
pub const CALLS: [&str; 3] = ["the whole run", "the outcome", "why, each process"];

/// How many answers they give together for each schedule: one each, and why for each process.
pub const ANSWERS: u64 = 2 + N as u64;

/// A call under test.
#[derive(Clone, Copy)]
pub enum Through<'a> {
    /// The whole run.
    Run(Simulate<'a>),
    /// The outcome.
    Outcome(Tell<'a>),
    /// Why, for each process.
    Why(Explain<'a>),
}

/// Compares every `step`-th accepted schedule, so each one if `step` is 1, through these calls.
pub fn compare(step: usize, calls: &[Through]) -> Findings {
    share_schedules(step, |findings, case, schedule| {
        compare_one(findings, case, schedule, calls);
    })
}

/// Compares nothing, and holds the reference's run of each accepted schedule against what is promised, with a given
/// rule of the crashes so far.
pub fn hold(rule: &Rule) -> Findings {
    share_schedules(1, |findings, case, schedule| {
        let (run, hearings) = run_heard(schedule).expect("the schedule is accepted");
        demands::check_by(rule, findings, case, schedule, &run, &hearings);
    })
}

/// Takes every `step`-th accepted schedule, shared among threads.
fn share_schedules(step: usize, each: impl Fn(&mut Findings, u64, &Schedule) + Sync) -> Findings {
    let choices: Vec<Vec<Choice>> = (1..=N).map(choices).collect();
    let firsts = choices[0].len() as u64;
    share(firsts, CALLS.len(), |findings, first| {
        let mut schedule = Schedule::quiet(N, T);
        set(&mut schedule, 1, choices[0][first as usize]);
        let mut case = first * COUNT;
        for_each_from(&mut schedule, 2, &choices, &mut |schedule| {
            case += 1;
            if case as usize % step == 0 {
                each(findings, case, schedule);
            }
        });
    })
}

/// All choices of process i that questions 4 to 6 let pass, among more that they don't.
fn choices(i: usize) -> Vec<Choice> {
    let mut choices = Vec::new();
    let mut schedule = Schedule::quiet(N, T);
    for vote in 0..=2 {
        for crash in 0..=T as u8 + 2 {
            for reach in 0..1 << (N + 1) {
                let choice = (vote, crash, reach);
                set(&mut schedule, i, choice);
                if schedule.ask_process(i).is_ok() {
                    choices.push(choice);
                }
            }
        }
    }
    choices
}

fn set(schedule: &mut Schedule, i: usize, (vote, crash, reach): Choice) {
    schedule.votes[i - 1] = vote;
    schedule.crashes[i - 1] = crash;
    schedule.reaches[i - 1] = reach;
}

/// Calls `each` with every accepted schedule that has the given choices of the processes before i.
fn for_each_from(
    schedule: &mut Schedule,
    i: usize,
    choices: &[Vec<Choice>],
    each: &mut impl FnMut(&Schedule),
) {
    if i > N {
        if schedule.ask_crashes() != Err(Refusal::TooManyCrashes) {
            each(schedule);
        }
        return;
    }
    for choice in &choices[i - 1] {
        set(schedule, i, *choice);
        for_each_from(schedule, i + 1, choices, each);
    }
}

fn compare_one(findings: &mut Findings, case: u64, schedule: &Schedule, calls: &[Through]) {
    let (run, hearings) = run_heard(schedule).expect("the schedule is accepted");
    demands::check(findings, case, schedule, &run, &hearings);
    for call in calls {
        match call {
            Through::Run(simulate) => {
                findings.count(0, None);
                compare_run(findings, case, schedule, &run, *simulate);
            }
            Through::Outcome(tell) => {
                findings.count(1, None);
                outcomes::compare_accepted(findings, case, schedule, of_run(&run), *tell);
            }
            Through::Why(explain) => {
                let whys = of_all(schedule, &run, &hearings);
                for _ in &whys {
                    findings.count(2, None);
                }
                whys::compare_accepted(findings, case, schedule, &whys, *explain);
            }
        }
    }
}

/// Compares the whole run of a schedule.
fn compare_run(
    findings: &mut Findings,
    case: u64,
    schedule: &Schedule,
    run: &Run,
    simulate: Simulate,
) {
    let call = Call {
        schedule: schedule.clone(),
        decisions: vec![9; N],
        rounds: vec![9; N],
    };
    let found = call.answer(simulate);
    let expected = Answer {
        counts: Ok(run.counts),
        decisions: run.decisions.clone(),
        rounds: run.rounds.clone(),
    };
    compare_answers(findings, case, &call, &expected, &found);
}
