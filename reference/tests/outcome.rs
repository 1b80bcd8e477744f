//! The outcome of a schedule (document 02, K6). The outcomes of the cases A to K are worked by hand from the answers that
//! document 01 gives, those of the further schedules from its rules. What K6 says of every outcome is tested on schedules
//! of every size.

mod shared;

use std::fs;
use std::path::Path;

use reference::outcome::{answer, of_run, outcome, Outcome};
use reference::questions::{Refusal, MIN_CRASHES, SIZES};
use reference::run::{run, run_heard, NONE};
use reference::schedule::{bit, everyone, Schedule};
use reference::text::write;
use reference::{Set, LARGEST, LONGEST};

use shared::{called, schedule, texts, Random};

/// Expects the outcome of a schedule, from tables and from its text.
fn expect(schedule: &Schedule, value: u8, round: u8) {
    assert_eq!(outcome(schedule), Ok(Outcome { value, round }));
    let lines = format!("decision round\n{value} {round}\n");
    assert_eq!(answer(&write(schedule)), lines.as_bytes());
}

#[test]
fn cases_a_and_b_without_a_crash() {
    // A: 1@2 for all. B: 0@2 for all.
    let mut quiet = schedule(&[]);
    expect(&quiet, 1, 2);
    quiet.votes[0] = 0;
    expect(&quiet, 0, 2);
}

#[test]
fn cases_c_and_d_a_crash_in_round_1() {
    // C: - 0@2 0@2 0@2. D: - 0@3 0@3 0@3.
    expect(&schedule(&[(1, 1, "0000")]), 0, 2);
    expect(&schedule(&[(1, 1, "0100")]), 0, 3);
}

#[test]
fn cases_e_f_and_g_a_chain() {
    let (one, four) = ((1, 1, "0110"), (4, 2, "0100"));
    // E: - - 1@4 -. F: - - 0@3 -. G: - 0@3 0@3 -.
    expect(&schedule(&[one, four, (2, 3, "0000")]), 1, 4);
    expect(&schedule(&[one, four, (2, 3, "0010")]), 0, 3);
    expect(&schedule(&[one, four]), 0, 3);
}

#[test]
fn cases_h_i_and_j_a_later_crash() {
    // H: 1@2 for all. I: - 1@2 1@2 1@2. J: 1@2 for all.
    expect(&schedule(&[(1, 3, "0000")]), 1, 2);
    expect(&schedule(&[(1, 2, "0111")]), 1, 2);
    expect(&schedule(&[(1, 4, "0000")]), 1, 2);
}

#[test]
fn case_k_a_single_survivor() {
    // K: - - - 0@2.
    expect(&schedule(&[1, 2, 3].map(|i| (i, 1, "0000"))), 0, 2);
}

/// Process 3 alone hears four estimates in round 2 and decides; it crashes in round 3, unheard. The survivors 1 and 2
/// decide in round 3: 1@3 1@3 1@2 -. That the first one crashes, and that lower numbers decide later, is no matter.
#[test]
fn the_smallest_round_of_one_that_crashes() {
    expect(&schedule(&[(4, 2, "0010"), (3, 3, "0000")]), 1, 2);
}

/// Process 1 reaches 2 alone in round 1, so that 2 keeps estimate 1, and 3 and 4 take 0. In round 2 process 2 reaches 3
/// alone. So 4 hears zeros only and decides; 3 hears the 1 and misses one process, and decides on the message of round 3:
/// - - 0@3 0@2. Processes 1 and 2 are undecided for ever with estimate 1.
#[test]
fn the_value_is_that_of_a_process_that_decided() {
    expect(&schedule(&[(1, 1, "0100"), (2, 2, "0010")]), 0, 2);
}

/// Processes 1 and 2 hear four estimates in round 2, decide and crash; process 4 hears "decided" in round 3:
/// 1@2 1@2 - 1@3.
#[test]
fn the_only_survivor_decides_later() {
    let crashes = [(3, 2, "1100"), (1, 4, "0000"), (2, 3, "0000")];
    expect(&schedule(&crashes), 1, 2);
}

/// A schedule with t = n - 1 and all votes 1, in which process i crashes in round i, i from 1 to n - 1.
fn one_a_round(n: usize, reach: impl Fn(usize) -> Set) -> Schedule {
    let mut schedule = Schedule::quiet(n, n - 1);
    for i in 1..n {
        schedule.crashes[i - 1] = i as u8;
        schedule.reaches[i - 1] = reach(i);
    }
    schedule
}

/// E and F at every size. Process 1 reaches all but 2, which so takes 0, and then each reaches only the next one. In round
/// r, up to t - 1, whoever completes it hears n - r or n - r + 1 estimates, so at least r - 1 are missing, and nobody
/// decides. In round t process n hears itself, and its neighbour if that one reaches it: 2 estimates are enough there.
#[test]
fn chains_of_every_size() {
    for n in SIZES {
        let whole = |i| match i {
            1 => everyone(n) & !bit(1) & !bit(2),
            _ => bit(i + 1),
        };
        expect(&one_a_round(n, whole), 0, n as u8 - 1);
        let broken = |i| if i == n - 1 { 0 } else { whole(i) };
        expect(&one_a_round(n, broken), 1, n as u8);
    }
}

/// All crashes are in the last round, when everybody has stopped.
#[test]
fn late_crashes_of_the_largest_cluster() {
    let mut schedule = Schedule::quiet(LARGEST, LARGEST - 1);
    schedule.crashes[1..].fill(LARGEST as u8);
    expect(&schedule, 1, 2);
    schedule.votes[LARGEST - 1] = 0;
    expect(&schedule, 0, 2);
}

/// Everything is wrong at first; then the questions are put right one after the other, and the next one refuses.
#[test]
fn questions_are_asked_in_order() {
    let mut schedule = Schedule {
        n: 3,
        t: 2,
        votes: vec![2; 5],
        crashes: vec![255; 3],
        reaches: vec![bit(64); 6],
    };
    let mut expect = |refusal: Option<Refusal>, change: fn(&mut Schedule)| {
        let found = outcome(&schedule).err();
        assert_eq!(found, refusal, "{schedule:?}");
        change(&mut schedule);
    };
    expect(Some(Refusal::Processes), |s| s.n = LARGEST + 1);
    expect(Some(Refusal::Processes), |s| s.n = 4);
    expect(Some(Refusal::CrashLimit), |s| s.t = 4);
    expect(Some(Refusal::CrashLimit), |s| s.t = 3);
    expect(Some(Refusal::Tables), |s| s.votes.truncate(4));
    expect(Some(Refusal::Tables), |s| s.crashes.push(4));
    expect(Some(Refusal::Tables), |s| s.reaches.truncate(4));
    expect(Some(Refusal::Vote), |s| s.votes[0] = 0);
    expect(Some(Refusal::CrashRound), |s| s.crashes[0] = 5);
    expect(Some(Refusal::CrashRound), |s| s.crashes[0] = 4);
    expect(Some(Refusal::Reach), |s| s.reaches[0] = bit(1));
    expect(Some(Refusal::Reach), |s| s.reaches[0] = 0);
    expect(Some(Refusal::Vote), |s| s.votes.fill(1));
    expect(Some(Refusal::CrashRound), |s| s.crashes.fill(4));
    expect(Some(Refusal::Reach), |s| s.reaches.fill(0));
    expect(Some(Refusal::TooManyCrashes), |s| s.crashes[3] = 0);
    expect(None, |_| {});
}

/// Each of the three tables is n long; the call takes no answer tables.
#[test]
fn each_of_the_three_tables_is_n_long() {
    let right = Schedule::quiet(4, 3);
    for length in [0, 3, 5, LARGEST] {
        let mut schedule = right.clone();
        schedule.votes.resize(length, 1);
        assert_eq!(outcome(&schedule), Err(Refusal::Tables));
        let mut schedule = right.clone();
        schedule.crashes.resize(length, 0);
        assert_eq!(outcome(&schedule), Err(Refusal::Tables));
        let mut schedule = right.clone();
        schedule.reaches.resize(length, 0);
        assert_eq!(outcome(&schedule), Err(Refusal::Tables));
    }
}

/// The five refused schedules of document 01, a vote 2, and texts that are of no schedule.
#[test]
fn refused_texts_print_three_lines() {
    let of_lines = |sizes: &str, first: &str| {
        format!("n t\n{sizes}\nid vote crash reach\n{first}\n2 1 1 0000\n3 1 1 0000\n4 1 1 0000\n")
    };
    let printed = |text: &str| String::from_utf8(answer(text.as_bytes())).expect("letters");
    let expect = |sizes, first, lines: &str| {
        let expected = format!("refused line\n{lines}\n");
        assert_eq!(printed(&of_lines(sizes, first)), expected);
    };
    expect("3 2", "1 2 0 0000", "1 2\n3 2");
    expect("4 4", "1 1 0 0000", "2 2\n4 4");
    expect("4 3", "1 2 0 0000", "4 4\n1 2 0 0000");
    expect("4 3", "1 1 5 0000", "5 4\n1 1 5 0000");
    expect("4 3", "1 1 1 1000", "6 4\n1 1 1 1000");
    expect("4 3", "1 1 1 0000", "7 7\n4 1 1 0000");
    expect("4 3", "1 1 0 000", "9 4\n1 1 0 000");
    assert_eq!(printed(""), "refused line\n9 1\n\n");
    let too_long = "n".repeat(LONGEST + 1);
    assert_eq!(printed(&too_long), "refused line\n8 0\n\n");
}

impl Random {
    /// An accepted schedule, whose votes are mostly all 1. The crashes are in any rounds, or in the first few, or one in
    /// each round.
    fn schedule(&mut self, n: usize, t: usize) -> Schedule {
        let mut schedule = Schedule::quiet(n, t);
        if self.below(6) == 0 {
            let place = self.below(n);
            schedule.votes[place] = 0;
        }
        let (start, f, way) = (self.below(n), self.below(t + 1), self.below(3));
        for k in 1..=f {
            let place = (start + k) % n;
            let round = match way {
                0 => 1 + self.below(t + 1),
                1 => 1 + self.below(3),
                _ => k,
            };
            schedule.crashes[place] = round as u8;
            schedule.reaches[place] = self.reach(n, place + 1);
        }
        schedule
    }
}

/// How often each size comes up.
const TIMES: usize = 12;

/// Accepted schedules of every size.
fn schedules() -> impl Iterator<Item = Schedule> {
    let mut random = Random(6);
    let sizes = SIZES.flat_map(|n| (MIN_CRASHES..n).map(move |t| (n, t)));
    let times = sizes.flat_map(|size| [size; TIMES]);
    times.map(move |(n, t)| random.schedule(n, t))
}

/// Every process that decides in the full run decides this value, none in an earlier round, and some process in this one.
#[test]
fn what_holds_of_every_outcome() {
    for schedule in schedules() {
        let run = run(&schedule).expect("the schedule is accepted");
        let Outcome { value, round } = of_run(&run);
        assert!(value <= 1, "{schedule:?}");
        assert!(run.rounds.contains(&round), "{schedule:?}");
        for (decision, decided) in run.decisions.iter().zip(&run.rounds) {
            if *decision == NONE {
                assert_eq!(*decided, 0, "{schedule:?}");
            } else {
                assert_eq!(*decision, value, "{schedule:?}");
                assert!(*decided >= round, "{schedule:?}");
            }
        }
        assert_eq!(outcome(&schedule), Ok(Outcome { value, round }));
    }
}

/// "A new call plays rounds until one in which some process decides, and answers that value and round": the first row of
/// the run, in the order of the rounds and of the processes in each, after which a member is decided.
#[test]
fn the_first_row_that_decides_tells_the_outcome() {
    for schedule in schedules() {
        let (run, hearings) = run_heard(&schedule).expect("the schedule is accepted");
        let mut after = hearings.iter().map(|hearing| &hearing.after);
        let first = after.find(|member| member.decided != 0);
        let first = first.expect("some process decides");
        let found = (first.estimate, first.decided as u8);
        let Outcome { value, round } = of_run(&run);
        assert_eq!(found, (value, round), "{schedule:?}");
    }
}

/// So the outcomes above are of both values and of many rounds, and runs whose smallest decided round isn't their last one
/// come up, and such whose lowest-numbered process with a decision isn't of that round.
#[test]
fn the_schedules_are_of_many_kinds() {
    let mut met = [[0; LARGEST + 1]; 2];
    let (mut last_differs, mut lowest_differs) = (0, 0);
    for schedule in schedules() {
        let run = run(&schedule).expect("the schedule is accepted");
        let Outcome { value, round } = of_run(&run);
        met[usize::from(value)][usize::from(round)] += 1;
        last_differs += usize::from(run.counts.last != usize::from(round));
        let lowest = run.rounds.iter().find(|round| **round != 0);
        lowest_differs += usize::from(lowest != Some(&round));
    }
    for of_value in met {
        let rounds = of_value.iter().filter(|count| **count != 0).count();
        assert!(of_value[2] > 100 && of_value[3] > 100, "{of_value:?}");
        assert!(rounds > 10, "only {rounds} rounds");
    }
    assert!(last_differs > 1_000, "only {last_differs}");
    assert!(lowest_differs > 100, "only {lowest_differs}");
}

/// What has to be printed for a text with this report: the report itself if it is a refusal, else the value and the round
/// of its line with the smallest round that isn't 0.
fn of_report(report: &[u8]) -> Vec<u8> {
    if report.starts_with(b"refused line\n") {
        return report.to_vec();
    }
    let report = String::from_utf8(report.to_vec()).expect("a report is of letters");
    let round = |line: &&str| {
        let field = line.split(' ').nth(2).expect("a line has three fields");
        field.parse::<u8>().expect("the third one is a round")
    };
    let processes = report.lines().skip(3).filter(|line| round(line) != 0);
    let first = processes.min_by_key(round).expect("some process decides");
    let (_, values) = first.split_once(' ').expect("a line has three fields");
    format!("decision round\n{values}\n").into_bytes()
}

#[test]
fn all_texts_through_the_library_and_the_program() {
    for path in texts() {
        let read = |path: &Path| fs::read(path).expect("the file is there");
        let (text, report) = (read(&path), read(&path.with_extension("report")));
        let expected = of_report(&report);
        assert_eq!(answer(&text), expected, "{}", path.display());
        let output = called(&["--outcome"], &text);
        assert!(output.status.success());
        assert_eq!(output.stdout, expected, "{}", path.display());
    }
}

#[test]
fn wrong_arguments_end_with_status_2() {
    for arguments in [&["--more"][..], &["--outcome", "--outcome"], &["outcome"]] {
        let output = called(arguments, b"");
        assert_eq!(output.status.code(), Some(2));
        assert!(output.stdout.is_empty() && !output.stderr.is_empty());
    }
}
