//! Why a process decided (document 02, K9). What the request says of the cases A, B, D, E and G stands there; the rules and
//! numbers of the other cases are worked by hand from the rows that document 01 gives, and so are those of the further
//! schedules, the chains and the edges of every size. What holds of every answer is tested on schedules of every size, and
//! on every schedule with n = 4, t = 3 in which all vote 1.

mod shared;

use std::fs;
use std::path::Path;

use reference::member::{Member, DECIDED_0, DECIDED_1, ESTIMATE_0, ESTIMATE_1, NOTHING};
use reference::questions::{Refusal, MIN_CRASHES, SIZES};
use reference::run::{run_heard, Hearing, Run, NONE};
use reference::schedule::{bit, everyone, Schedule};
use reference::text::{read, write};
use reference::why::{answer, first_met, heard_in, of_all, why, Why, WORDS};
use reference::{Set, LARGEST, LONGEST};

use shared::{all_schedules, called, schedule, texts, Random};

/// Expects the lines of all processes of a schedule, without their numbers, from its text; and the same from tables.
fn expect(schedule: &Schedule, lines: &[&str]) {
    let mut expected = "id rule number\n".to_string();
    for (id, line) in (1..).zip(lines) {
        expected += &format!("{id} {line}\n");
    }
    let printed = answer(&write(schedule));
    assert_eq!(String::from_utf8_lossy(&printed), expected);
    for (id, line) in (1..).zip(lines) {
        let why = why(schedule, id).expect("the schedule is accepted");
        assert_eq!(line_of(why), *line, "process {id}");
    }
    assert_eq!(lines.len(), schedule.n);
}

/// The line of a process, without its number.
fn line_of(why: Why) -> String {
    match why {
        Why::Crashed { round } => format!("crashed {round}"),
        Why::Told { sender } => format!("told {sender}"),
        Why::ZerosOnly => "zeros -".to_string(),
        Why::Quiet { missing } => format!("quiet {missing}"),
        Why::RoundT { estimates } => format!("round-t {estimates}"),
        Why::LastRound => "last -".to_string(),
    }
}

#[test]
fn cases_a_and_b_without_a_crash() {
    let mut quiet = schedule(&[]);
    expect(&quiet, &["quiet 0"; 4]);
    // All estimates are 0 in round 2, and nobody is missing: zeros only goes before quiet.
    quiet.votes[0] = 0;
    expect(&quiet, &["zeros -"; 4]);
}

#[test]
fn cases_c_and_d_a_crash_in_round_1() {
    // C: everybody misses process 1 in round 1, so that all have 0 in round 2. One is missing there: not quiet.
    let zeros = ["crashed 1", "zeros -", "zeros -", "zeros -"];
    expect(&schedule(&[(1, 1, "0000")]), &zeros);
    // D: process 2 keeps 1. So in round 2 the estimates are 1, 0 and 0, and one is missing; round 3 is t.
    let round_t = ["crashed 1", "round-t 3", "round-t 3", "round-t 3"];
    expect(&schedule(&[(1, 1, "0100")]), &round_t);
}

#[test]
fn cases_e_f_and_g_a_chain() {
    let (one, four) = ((1, 1, "0110"), (4, 2, "0100"));
    // E: process 3 hears itself alone in round 3, and again in round 4.
    let e = ["crashed 1", "crashed 3", "last -", "crashed 2"];
    expect(&schedule(&[one, four, (2, 3, "0000")]), &e);
    // F: in round 3 it hears process 2 too, and n - t + 1 = 2 estimates are enough.
    let f = ["crashed 1", "crashed 3", "round-t 2", "crashed 2"];
    expect(&schedule(&[one, four, (2, 3, "0010")]), &f);
    let g = ["crashed 1", "round-t 2", "round-t 2", "crashed 2"];
    expect(&schedule(&[one, four]), &g);
}

#[test]
fn cases_h_i_and_j_a_later_crash() {
    // H and J: process 1 decides in round 2 with the others, and crashes after it. It gets its rule.
    expect(&schedule(&[(1, 3, "0000")]), &["quiet 0"; 4]);
    expect(&schedule(&[(1, 4, "0000")]), &["quiet 0"; 4]);
    // I: it crashes in round 2, heard by all, and hears nothing itself.
    let i = ["crashed 2", "quiet 0", "quiet 0", "quiet 0"];
    expect(&schedule(&[(1, 2, "0111")]), &i);
}

#[test]
fn case_k_a_single_survivor() {
    // It misses three in round 1, and hears its own 0 alone in round 2.
    let k = ["crashed 1", "crashed 1", "crashed 1", "zeros -"];
    expect(&schedule(&[1, 2, 3].map(|i| (i, 1, "0000"))), &k);
}

/// In round 2 process 4 crashes and reaches some: those hear four estimates there and decide. The others miss it, and hear
/// decided messages in round 3, if these come.
#[test]
fn told_by_the_lowest_that_is_heard() {
    let four = |letters| (4, 2, letters);
    let to_three = ["told 3", "told 3", "quiet 0", "crashed 2"];
    expect(&schedule(&[four("0010")]), &to_three);
    // Processes 2 and 3 both say so to 1: the lower number is named.
    let to_both = ["told 2", "quiet 0", "quiet 0", "crashed 2"];
    expect(&schedule(&[four("0110")]), &to_both);
    // Process 2 crashes while it says so, and is heard by 1, or not.
    expect(&schedule(&[four("0110"), (2, 3, "1000")]), &to_both);
    let unheard = ["told 3", "quiet 0", "quiet 0", "crashed 2"];
    expect(&schedule(&[four("0110"), (2, 3, "0010")]), &unheard);
    // A lower number that sends an estimate is no sender of a decided message.
    let to_two = ["told 2", "quiet 0", "told 2", "crashed 2"];
    expect(&schedule(&[four("0100")]), &to_two);
}

/// Process 3 alone decides in round 2. It crashes in round 3 and reaches nobody: 1 and 2 hear two estimates in round t.
/// Or it reaches 1 alone, which is told; 2 hears the estimate of 1 still, and its own.
#[test]
fn the_same_round_by_two_rules() {
    let four = (4, 2, "0010");
    let unheard = ["round-t 2", "round-t 2", "quiet 0", "crashed 2"];
    expect(&schedule(&[four, (3, 3, "0000")]), &unheard);
    let by_one = ["told 3", "round-t 2", "quiet 0", "crashed 2"];
    expect(&schedule(&[four, (3, 3, "1000")]), &by_one);
}

/// Process 1 reaches 2 alone in round 1, so that 2 keeps 1, and 3 and 4 take 0. In round 2 process 2 reaches 3 alone: 4
/// hears zeros only, though two are missing, and 3 hears the 1, too. It is told in round 3.
#[test]
fn told_by_one_with_zeros_only() {
    let lines = ["crashed 1", "crashed 2", "told 4", "zeros -"];
    expect(&schedule(&[(1, 1, "0100"), (2, 2, "0010")]), &lines);
    // With 2 unheard both hear zeros only.
    let lines = ["crashed 1", "crashed 2", "zeros -", "zeros -"];
    expect(&schedule(&[(1, 1, "0100"), (2, 2, "0000")]), &lines);
}

/// A process that crashes undecided after it heard several rows: 3 misses 4 in round 2, and crashes in round 3.
#[test]
fn crashed_after_round_2() {
    let lines = ["quiet 0", "quiet 0", "crashed 3", "crashed 2"];
    expect(&schedule(&[(4, 2, "1100"), (3, 3, "1100")]), &lines);
}

/// All sizes n and t.
fn sizes() -> impl Iterator<Item = (usize, usize)> {
    SIZES.flat_map(|n| (MIN_CRASHES..n).map(move |t| (n, t)))
}

/// The answers for all processes of a schedule, from one run of it.
fn whys(schedule: &Schedule) -> Vec<Why> {
    let (run, hearings) = run_heard(schedule).expect("the schedule is accepted");
    of_all(schedule, &run, &hearings)
}

/// Expects these answers of a schedule: for each process by its number.
fn expect_each(schedule: &Schedule, expected: impl Fn(usize) -> Why) {
    let expected: Vec<Why> = (1..=schedule.n).map(expected).collect();
    assert_eq!(whys(schedule), expected, "{schedule:?}");
}

/// f processes crash in round 1, and are heard by all: all estimates stay 1, and f are missing from round 2 on. So round
/// f + 2 is the first quiet one, if it is before t. In round t n - f estimates are heard, which is enough if f is below t.
#[test]
fn each_rule_at_its_edge() {
    for (n, t) in sizes() {
        for f in [0, 1, t - 3, t - 2, t - 1, t] {
            let mut schedule = Schedule::quiet(n, t);
            for i in n - f + 1..=n {
                schedule.crashes[i - 1] = 1;
                schedule.reaches[i - 1] = everyone(n) & !bit(i);
            }
            let (run, _) = run_heard(&schedule).expect("the schedule is accepted");
            let (rule, round) = if f + 2 < t {
                (Why::Quiet { missing: f }, f + 2)
            } else if f < t {
                (Why::RoundT { estimates: n - f }, t)
            } else {
                (Why::LastRound, t + 1)
            };
            assert_eq!(run.counts.last, round);
            expect_each(&schedule, |i| match i <= n - f {
                true => rule,
                false => Why::Crashed { round: 1 },
            });
        }
    }
}

/// The same with an f-th crash that nobody hears, in the first round that would be quiet: one more is missing there. Up to
/// round t - 1 this puts the decision off by a round, from t - 1 to t, and from t to t + 1 only with f = t.
#[test]
fn one_missing_more_than_is_quiet() {
    for (n, t) in sizes() {
        for f in [1, t - 2, t - 1, t] {
            let mut schedule = Schedule::quiet(n, t);
            for i in 1..f {
                schedule.crashes[i - 1] = 1;
                schedule.reaches[i - 1] = everyone(n) & !bit(i);
            }
            let unheard_in = (f + 1).min(t);
            schedule.crashes[f - 1] = unheard_in as u8;
            let rule = if f + 2 < t {
                Why::Quiet { missing: f }
            } else if f < t {
                Why::RoundT { estimates: n - f }
            } else {
                Why::LastRound
            };
            expect_each(&schedule, |i| match i {
                _ if i < f => Why::Crashed { round: 1 },
                _ if i == f => Why::Crashed { round: unheard_in },
                _ => rule,
            });
        }
    }
}

/// A chain of messages. Process n reaches 1 alone in round 2, so that 1 alone hears everybody and decides. Then process k
/// says in round k + 2 what it decided in the round before, reaches k + 1 alone and crashes; k goes to t - 2. In round r,
/// below t, the others miss process n and those from 1 to r - 2, one too many. In round t they miss these, too, and hear
/// n - t + 1 estimates: enough.
#[test]
fn told_one_after_the_other() {
    for (n, t) in sizes() {
        let mut schedule = Schedule::quiet(n, t);
        (schedule.crashes[n - 1], schedule.reaches[n - 1]) = (2, bit(1));
        for k in 1..=t - 2 {
            schedule.crashes[k - 1] = k as u8 + 2;
            schedule.reaches[k - 1] = bit(k + 1);
        }
        expect_each(&schedule, |i| match i {
            1 => Why::Quiet { missing: 0 },
            _ if i == n => Why::Crashed { round: 2 },
            _ if i < t => Why::Told { sender: i - 1 },
            _ => Why::RoundT {
                estimates: n - t + 1,
            },
        });
    }
}

/// A crash in each of rounds 1 to t, in the order of the numbers, heard by all but for the last one. So one too many is
/// missing up to round t - 1. In round t process t reaches n alone, which hears n - t + 1 estimates; the others hear one
/// fewer, and are told by it in round t + 1, where the last round would decide them. If t reaches nobody, it does.
#[test]
fn told_in_the_last_round() {
    for (n, t) in sizes() {
        let mut schedule = Schedule::quiet(n, t);
        for k in 1..=t {
            schedule.crashes[k - 1] = k as u8;
            schedule.reaches[k - 1] = everyone(n) & !bit(k);
        }
        let estimates = n - t + 1;
        let by_reach = |reach: Set, rule: Why| {
            let mut schedule = schedule.clone();
            schedule.reaches[t - 1] = reach;
            expect_each(&schedule, |i| match i {
                _ if i <= t => Why::Crashed { round: i },
                _ if reach & bit(i) != 0 => Why::RoundT { estimates },
                _ => rule,
            });
        };
        by_reach(bit(n), Why::Told { sender: n });
        by_reach(bit(t + 1), Why::Told { sender: t + 1 });
        by_reach(bit(t + 1) | bit(n), Why::Told { sender: t + 1 });
        by_reach(0, Why::LastRound);
        by_reach(everyone(n) & !bit(t), Why::LastRound);
    }
}

/// Process n crashes in round 2 and reaches some, which decide there. Those of them that crash in round 3 are heard by
/// nobody, or by all: the others are told by the lowest one that they hear.
#[test]
fn the_lowest_of_several_in_the_largest_cluster() {
    let told_by = |reached: &[usize], crashing: &[(usize, Set)]| {
        let mut schedule = Schedule::quiet(LARGEST, LARGEST - 1);
        schedule.crashes[LARGEST - 1] = 2;
        schedule.reaches[LARGEST - 1] = reached.iter().map(|i| bit(*i)).sum();
        for (i, reach) in crashing {
            schedule.crashes[i - 1] = 3;
            schedule.reaches[i - 1] = *reach;
        }
        let whys = whys(&schedule);
        let mut told = Vec::new();
        for (i, why) in (1..LARGEST).zip(&whys) {
            if reached.contains(&i) {
                assert_eq!(*why, Why::Quiet { missing: 0 });
            } else if let Why::Told { sender } = why {
                told.push(*sender);
            }
        }
        assert_eq!(whys[LARGEST - 1], Why::Crashed { round: 2 });
        assert_eq!(told.len() + reached.len(), LARGEST - 1);
        told.dedup();
        told
    };
    assert_eq!(told_by(&[1], &[]), [1]);
    assert_eq!(told_by(&[63], &[]), [63]);
    assert_eq!(told_by(&[7, 32, 33, 63], &[]), [7]);
    assert_eq!(told_by(&[7, 32, 33, 63], &[(7, 0)]), [32]);
    assert_eq!(told_by(&[7, 32, 33, 63], &[(7, 0), (32, 0)]), [33]);
    // Process 7 is heard by 40 alone, and goes before the others there.
    assert_eq!(told_by(&[7, 32], &[(7, bit(40))]), [32, 7, 32]);
    let all = everyone(LARGEST) & !bit(7);
    assert_eq!(told_by(&[7, 32], &[(7, all)]), [7]);
}

/// In round r of these, from 2 to t + 1, with t = 5 and n = 8: the row and the rule that is named first, or none.
#[test]
fn rows_that_meet_several_rules_or_none() {
    let expect = |round: usize, row: [u8; 8], expected: Option<Why>| {
        let member = Member {
            round,
            ..Member::open(8, 5, 8, 1).expect("it opens")
        };
        assert_eq!(first_met(&member, &row), expected, "round {round}: {row:?}");
        // Whoever meets a rule decides, and nobody else.
        assert_eq!(member.after(&row).decided != 0, expected.is_some());
    };
    let told = |sender| Some(Why::Told { sender });
    let quiet = |missing| Some(Why::Quiet { missing });
    let round_t = |estimates| Some(Why::RoundT { estimates });
    let zeros = Some(Why::ZerosOnly);
    // Zeros only goes before quiet, however many are missing; a single 1 is enough against it.
    expect(2, [1; 8], zeros);
    expect(2, [0, 0, 0, 0, 0, 0, 0, 1], zeros);
    expect(2, [1, 1, 1, 2, 1, 1, 1, 1], quiet(0));
    expect(2, [1, 1, 1, 2, 0, 1, 1, 1], None);
    expect(2, [2, 2, 2, 2, 2, 2, 2, 2], quiet(0));
    expect(2, [0, 2, 2, 2, 2, 2, 2, 2], None);
    // It is no rule after round 2.
    expect(3, [1; 8], quiet(0));
    expect(3, [0, 1, 1, 1, 1, 1, 1, 1], quiet(1));
    expect(3, [0, 0, 1, 1, 1, 1, 1, 1], None);
    expect(4, [0, 0, 1, 2, 1, 1, 1, 1], quiet(2));
    expect(4, [0, 0, 0, 2, 1, 1, 1, 1], None);
    // A decided message goes before all others, whatever its value; an estimate is none.
    expect(3, [2, 2, 0, 4, 4, 2, 4, 2], told(4));
    expect(3, [3, 1, 1, 1, 1, 1, 1, 1], told(1));
    expect(4, [0, 0, 0, 0, 0, 0, 3, 1], told(7));
    expect(5, [2, 3, 2, 3, 2, 2, 2, 2], told(2));
    expect(6, [0, 0, 4, 0, 0, 0, 0, 2], told(3));
    // Round t asks for n - t + 1 = 4 estimates, and isn't quiet with fewer missing.
    expect(5, [2; 8], round_t(8));
    expect(5, [1, 0, 2, 0, 2, 0, 0, 1], round_t(4));
    expect(5, [1, 0, 2, 0, 0, 0, 0, 1], None);
    // Nor is the last round, which asks for nothing.
    expect(6, [2; 8], Some(Why::LastRound));
    expect(6, [0, 0, 0, 0, 0, 0, 0, 1], Some(Why::LastRound));
}

/// The numbers of the call.
#[test]
fn kinds_and_numbers() {
    let all = [
        Why::Crashed { round: 64 },
        Why::Told { sender: 63 },
        Why::ZerosOnly,
        Why::Quiet { missing: 61 },
        Why::RoundT { estimates: 62 },
        Why::LastRound,
    ];
    let expected = [[0, 64], [1, 63], [2, 0], [3, 61], [4, 62], [5, 0]];
    assert_eq!(all.map(Why::numbers), expected);
    for why in all {
        let [kind, _] = why.numbers();
        assert_eq!(line_of(why).split(' ').next(), Some(WORDS[kind]));
    }
}

/// Everything is wrong at first; then the questions are put right one after the other, and the next one refuses.
#[test]
fn questions_are_asked_in_order() {
    let mut schedule = Schedule {
        n: 3,
        t: 2,
        votes: vec![2; 5],
        crashes: vec![255; 3],
        reaches: vec![bit(64); 6],
    };
    let mut expect = |refusal: Refusal, change: fn(&mut Schedule)| {
        for id in [0, 5, 65, usize::MAX] {
            assert_eq!(why(&schedule, id), Err(refusal), "{id}: {schedule:?}");
        }
        if refusal != Refusal::OwnNumber {
            assert_eq!(why(&schedule, 1), Err(refusal), "{schedule:?}");
        }
        change(&mut schedule);
    };
    expect(Refusal::Processes, |s| s.n = LARGEST + 1);
    expect(Refusal::Processes, |s| s.n = 4);
    expect(Refusal::CrashLimit, |s| s.t = 4);
    expect(Refusal::CrashLimit, |s| s.t = 3);
    expect(Refusal::Tables, |s| s.votes.truncate(4));
    expect(Refusal::Tables, |s| s.crashes.push(4));
    expect(Refusal::Tables, |s| s.reaches.truncate(4));
    expect(Refusal::Vote, |s| s.votes[0] = 0);
    expect(Refusal::CrashRound, |s| s.crashes[0] = 5);
    expect(Refusal::CrashRound, |s| s.crashes[0] = 4);
    expect(Refusal::Reach, |s| s.reaches[0] = bit(1));
    expect(Refusal::Reach, |s| s.reaches[0] = 0);
    expect(Refusal::Vote, |s| s.votes.fill(1));
    expect(Refusal::CrashRound, |s| s.crashes.fill(4));
    expect(Refusal::Reach, |s| s.reaches.fill(0));
    expect(Refusal::TooManyCrashes, |s| s.crashes[3] = 0);
    expect(Refusal::OwnNumber, |_| {});
    // The accepted one: all decide in round 2, before the crashes.
    for id in 1..=4 {
        assert_eq!(why(&schedule, id), Ok(Why::Quiet { missing: 0 }));
    }
}

#[test]
fn process_numbers_go_from_1_to_n() {
    for n in SIZES {
        let schedule = Schedule::quiet(n, 3);
        let huge = [n + 2, 65, 256 + 1, (1 << 32) + 1, usize::MAX];
        for id in [0, n + 1].into_iter().chain(huge) {
            if id > n || id == 0 {
                assert_eq!(why(&schedule, id), Err(Refusal::OwnNumber), "{id} of {n}");
            }
        }
        for id in [1, 2, n - 1, n] {
            assert_eq!(why(&schedule, id), Ok(Why::Quiet { missing: 0 }));
        }
    }
}

/// Each of the three tables is n long; the call takes no answer tables.
#[test]
fn each_of_the_three_tables_is_n_long() {
    let right = Schedule::quiet(4, 3);
    for length in [0, 3, 5, LARGEST] {
        let mut schedule = right.clone();
        schedule.votes.resize(length, 1);
        assert_eq!(why(&schedule, 1), Err(Refusal::Tables));
        let mut schedule = right.clone();
        schedule.crashes.resize(length, 0);
        assert_eq!(why(&schedule, 1), Err(Refusal::Tables));
        let mut schedule = right.clone();
        schedule.reaches.resize(length, 0);
        assert_eq!(why(&schedule, 1), Err(Refusal::Tables));
    }
}

/// The five refused schedules of document 01, a vote 2, and texts that are of no schedule.
#[test]
fn refused_texts_print_three_lines() {
    let of_lines = |sizes: &str, first: &str| {
        format!("n t\n{sizes}\nid vote crash reach\n{first}\n2 1 1 0000\n3 1 1 0000\n4 1 1 0000\n")
    };
    let printed = |text: &str| String::from_utf8(answer(text.as_bytes())).expect("letters");
    let expect = |sizes, first, lines: &str| {
        let expected = format!("refused line\n{lines}\n");
        assert_eq!(printed(&of_lines(sizes, first)), expected);
    };
    expect("3 2", "1 2 0 0000", "1 2\n3 2");
    expect("4 4", "1 1 0 0000", "2 2\n4 4");
    expect("4 3", "1 2 0 0000", "4 4\n1 2 0 0000");
    expect("4 3", "1 1 5 0000", "5 4\n1 1 5 0000");
    expect("4 3", "1 1 1 1000", "6 4\n1 1 1 1000");
    expect("4 3", "1 1 1 0000", "7 7\n4 1 1 0000");
    expect("4 3", "1 1 0 000", "9 4\n1 1 0 000");
    assert_eq!(printed(""), "refused line\n9 1\n\n");
    let too_long = "n".repeat(LONGEST + 1);
    assert_eq!(printed(&too_long), "refused line\n8 0\n\n");
}

/// What has to hold of the answer for process i, by the words of the rule that is named and of those before it, on the row
/// that it heard in its decided round.
fn check(schedule: &Schedule, run: &Run, hearings: &[Hearing], i: usize, why: Why) {
    let (n, t, d) = (schedule.n, schedule.t, usize::from(run.rounds[i - 1]));
    if let Why::Crashed { round } = why {
        assert_eq!((run.decisions[i - 1], d), (NONE, 0), "{schedule:?}");
        assert!(round != 0 && round == schedule.crash(i), "{schedule:?}");
        assert_eq!(heard_in(hearings, i, round), None, "{schedule:?}");
        return;
    }
    assert!(run.decisions[i - 1] != NONE && d >= 2, "{schedule:?}");
    let hearing = heard_in(hearings, i, d).expect("it hears a row there");
    assert_eq!((hearing.before.decided, hearing.after.decided), (0, d));
    let row = &hearing.row;
    let count = |codes: [u8; 2]| row.iter().filter(|code| codes.contains(code)).count();
    let decided = count([DECIDED_0, DECIDED_1]);
    let estimates = count([ESTIMATE_0, ESTIMATE_1]);
    let silent = count([NOTHING, NOTHING]);
    let zeros_only = d == 2 && row.iter().all(|c| [NOTHING, ESTIMATE_0].contains(c));
    assert_eq!(decided + estimates + silent, n);
    if let Why::Told { sender } = why {
        assert!(sender != i && (1..=n).contains(&sender), "{schedule:?}");
        let code = [DECIDED_0, DECIDED_1][usize::from(run.decisions[i - 1])];
        assert_eq!(row[sender - 1], code, "{schedule:?}");
        assert!(row[..sender - 1].iter().all(|code| *code < DECIDED_0));
        let of_sender = (run.decisions[sender - 1], run.rounds[sender - 1]);
        let expected = (run.decisions[i - 1], d as u8 - 1);
        assert_eq!(of_sender, expected, "{schedule:?}");
        return;
    }
    assert_eq!(decided, 0, "{schedule:?}");
    match why {
        Why::ZerosOnly => {
            assert!(zeros_only && run.decisions[i - 1] == 0, "{schedule:?}");
        }
        Why::Quiet { missing } => {
            assert!(!zeros_only && d < t, "{schedule:?}");
            assert!(missing == silent && missing <= d - 2, "{schedule:?}");
        }
        Why::RoundT { estimates: heard } => {
            assert!(d == t && heard == estimates, "{schedule:?}");
            assert!(heard > n - t, "{schedule:?}");
        }
        _ => assert!(why == Why::LastRound && d == t + 1, "{schedule:?}"),
    }
}

/// The answer for process i by the tables alone, those of the schedule and that of the decided rounds. In the round of i a
/// process says its estimate if it decides there, later or never; "decided" if it decided in the round before; else
/// nothing. Whether this is heard, document 01 says under "Who hears whom".
fn by_tables(schedule: &Schedule, run: &Run, i: usize) -> Why {
    let (n, t) = (schedule.n, schedule.t);
    let decided = |j: usize| usize::from(run.rounds[j - 1]);
    let d = decided(i);
    if d == 0 {
        let round = schedule.crash(i);
        return Why::Crashed { round };
    }
    let heard = || (1..=n).filter(|j| schedule.hears(i, *j, d));
    if let Some(sender) = heard().find(|j| decided(*j) + 1 == d && d != 1) {
        return Why::Told { sender };
    }
    let estimates = heard().filter(|j| decided(*j) == 0 || decided(*j) >= d);
    let estimates = estimates.count();
    let missing = n - estimates;
    match d {
        _ if d == t + 1 => Why::LastRound,
        _ if d == t => Why::RoundT { estimates },
        // A 0 is decided in round 2 by zeros only: with nobody missing all estimates are the same.
        2 if run.decisions[i - 1] == 0 => Why::ZerosOnly,
        _ => Why::Quiet { missing },
    }
}

/// A row that isn't quiet in one round has at least as many missing in the next. So exactly r - 2 are missing in a quiet
/// round r, and in round t at least t - 2 are: two numbers of estimates are possible there. By K8 whoever completes round t
/// undecided does so after t crashes, so that nobody crashes undecided in round t + 1.
fn check_numbers(schedule: &Schedule, run: &Run, i: usize, why: Why) {
    let (n, t, d) = (schedule.n, schedule.t, usize::from(run.rounds[i - 1]));
    match why {
        Why::Crashed { round } => assert!(round <= t, "{schedule:?}"),
        Why::Quiet { missing } => assert_eq!(missing + 2, d, "{schedule:?}"),
        Why::RoundT { estimates } => {
            assert!([n - t + 1, n - t + 2].contains(&estimates), "{schedule:?}");
        }
        _ => {}
    }
}

impl Random {
    /// An accepted schedule, whose votes are mostly all 1. The crashes are in any rounds, or in the first few, or one in
    /// each round, from round 1 or 2 on; these are often t or t - 1 in number.
    fn schedule(&mut self, n: usize, t: usize) -> Schedule {
        let mut schedule = Schedule::quiet(n, t);
        if self.below(6) == 0 {
            let place = self.below(n);
            schedule.votes[place] = 0;
        }
        let (start, way) = (self.below(n), self.below(4));
        let f = match self.below(3) {
            0 => t - self.below(2),
            _ => self.below(t + 1),
        };
        for k in 1..=f {
            let place = (start + k) % n;
            let round = match way {
                0 => 1 + self.below(t + 1),
                1 => 1 + self.below(3),
                2 => k,
                _ => k + 1,
            };
            schedule.crashes[place] = round as u8;
            schedule.reaches[place] = self.reach(n, place + 1);
        }
        schedule
    }
}

/// How often each size comes up.
const TIMES: usize = 12;

/// Accepted schedules of every size.
fn schedules() -> impl Iterator<Item = Schedule> {
    let mut random = Random(9);
    let times = sizes().flat_map(|size| [size; TIMES]);
    times.map(move |(n, t)| random.schedule(n, t))
}

#[test]
fn what_holds_of_every_answer() {
    for schedule in schedules() {
        let (run, hearings) = run_heard(&schedule).expect("the schedule is accepted");
        for (i, why) in (1..).zip(of_all(&schedule, &run, &hearings)) {
            check(&schedule, &run, &hearings, i, why);
            check_numbers(&schedule, &run, i, why);
            assert_eq!(why, by_tables(&schedule, &run, i), "{schedule:?}");
        }
        // The call itself, for one process of each.
        let id = 1 + usize::from(run.rounds[0]) % schedule.n;
        let expected = of_all(&schedule, &run, &hearings)[id - 1];
        assert_eq!(why(&schedule, id), Ok(expected));
    }
}

/// Some rule is met by a row exactly if an undecided member decides on it: so none is named where nothing is decided.
#[test]
fn a_rule_is_met_exactly_where_a_member_decides() {
    for schedule in schedules() {
        let (_, hearings) = run_heard(&schedule).expect("the schedule is accepted");
        let undecided = hearings.iter().filter(|h| h.before.decided == 0);
        for hearing in undecided.filter(|h| h.round >= 2) {
            let met = first_met(&hearing.before, &hearing.row);
            assert_eq!(met.is_some(), hearing.after.decided != 0, "{schedule:?}");
        }
    }
}

/// So every rule comes up above in many schedules and rounds, and what makes its number worth asking for: several decided
/// messages, the lowest of which isn't the lowest process heard; messages in the last round; many missing in a quiet round.
#[test]
fn the_schedules_are_of_many_kinds() {
    let mut kinds = [0; WORDS.len()];
    let (mut of_several, mut in_last, mut lower_estimate) = (0, 0, 0);
    let (mut quiet, mut round_t) = ([0; LARGEST], [0; 2]);
    let mut crashed_later = 0;
    for schedule in schedules() {
        let (run, hearings) = run_heard(&schedule).expect("the schedule is accepted");
        for (i, why) in (1..).zip(of_all(&schedule, &run, &hearings)) {
            let [kind, number] = why.numbers();
            kinds[kind] += 1;
            let d = usize::from(run.rounds[i - 1]);
            crashed_later += usize::from(d != 0 && !schedule.survives(i));
            match why {
                Why::Told { sender } => {
                    let row = &heard_in(&hearings, i, d).expect("it hears a row").row;
                    let decided = row.iter().filter(|code| **code >= DECIDED_0);
                    of_several += usize::from(decided.count() > 1);
                    in_last += usize::from(d == schedule.t + 1);
                    let lower = &row[..sender - 1];
                    lower_estimate += usize::from(lower.iter().any(|code| *code != NOTHING));
                }
                Why::Quiet { .. } => quiet[number] += 1,
                Why::RoundT { .. } => round_t[number - (schedule.n - schedule.t + 1)] += 1,
                _ => {}
            }
        }
    }
    assert!(kinds.iter().all(|count| *count > 5_000), "{kinds:?}");
    assert!(of_several > 1_000, "only {of_several}");
    assert!(in_last > 100, "only {in_last}");
    assert!(lower_estimate > 1_000, "only {lower_estimate}");
    assert!(crashed_later > 1_000, "only {crashed_later}");
    assert!(round_t.iter().all(|count| *count > 1_000), "{round_t:?}");
    let numbers = quiet.iter().filter(|count| **count != 0).count();
    assert!(numbers > 30, "only {numbers} numbers of missing ones");
}

/// How often each rule is named is worked by hand beside the numbers of the matching, in `matching/src/small.rs`. With a
/// vote 0 whoever completes round 2 hears zeros only.
#[test]
fn every_schedule_with_n_4_and_t_3_in_which_all_vote_1() {
    let mut kinds = [0; WORDS.len()];
    let count = all_schedules(|schedule| {
        let (run, hearings) = run_heard(schedule).expect("the schedule is accepted");
        for (i, why) in (1..).zip(of_all(schedule, &run, &hearings)) {
            check(schedule, &run, &hearings, i, why);
            check_numbers(schedule, &run, i, why);
            assert_eq!(why, by_tables(schedule, &run, i), "{schedule:?}");
            kinds[why.numbers()[0]] += 1;
        }
    });
    assert_eq!(count, 137_345);
    assert_eq!(kinds, [254_944, 21_348, 41_116, 117_748, 94_896, 19_328]);
    assert_eq!(kinds.iter().sum::<usize>(), 4 * count);
}

/// The lines of the processes, split into three fields each: of a report, or of what is printed for it.
fn fields(lines: &str, names: &str) -> Vec<[String; 3]> {
    let mut lines = lines.lines().skip_while(|line| *line != names);
    assert_eq!(lines.next(), Some(names));
    let of_line = |line: &str| {
        let fields: Vec<String> = line.split(' ').map(str::to_string).collect();
        <[String; 3]>::try_from(fields).expect("a line has three fields")
    };
    lines.map(of_line).collect()
}

/// Holds what is printed for an accepted text against its report, whose decisions and rounds stand apart from it. A `-` is
/// in the report exactly where `crashed` is named, with the crash round of the text; whoever is told names another one
/// that decided the same a round before; and every other rule is of its own rounds.
fn against_report(text: &[u8], report: &[u8], printed: &[u8]) {
    let schedule = read(text).expect("the text is accepted");
    let words = |bytes: &[u8]| String::from_utf8(bytes.to_vec()).expect("letters");
    let decided = fields(&words(report), "id decision round");
    let named = fields(&words(printed), "id rule number");
    assert!(printed.ends_with(b"\n") && named.len() == schedule.n);
    assert_eq!(decided.len(), schedule.n);
    let round = |i: usize| decided[i - 1][2].parse::<usize>().expect("a round");
    for (i, ([id, decision, _], [own, rule, number])) in (1..).zip(decided.iter().zip(&named)) {
        assert!(*id == i.to_string() && own == id);
        assert_eq!(rule == "crashed", decision == "-", "{own} {rule}");
        let (t, d) = (schedule.t, round(i));
        let count = || number.parse::<usize>().expect("a number");
        let right = match rule.as_str() {
            "crashed" => count() == schedule.crash(i) && count() != 0,
            "told" => {
                let sender = count();
                let same = decided[sender - 1][1] == *decision;
                sender != i && same && round(sender) + 1 == d && schedule.hears(i, sender, d)
            }
            "zeros" => number == "-" && d == 2 && decision == "0",
            "quiet" => d < t && count() == d - 2,
            "round-t" => d == t && count() > schedule.n - t,
            "last" => number == "-" && d == t + 1,
            _ => false,
        };
        assert!(right, "{own} {rule} {number}");
        // None is told of a lower sender.
        let told = (1..=schedule.n).find(|j| round(*j) + 1 == d && schedule.hears(i, *j, d));
        let told = told.filter(|_| d > 1).map(|j| j.to_string());
        assert_eq!(told.as_ref(), (rule == "told").then_some(number));
    }
}

#[test]
fn all_texts_through_the_library_and_the_program() {
    let mut accepted = 0;
    for path in texts() {
        let read = |path: &Path| fs::read(path).expect("the file is there");
        let (text, report) = (read(&path), read(&path.with_extension("report")));
        let printed = answer(&text);
        if report.starts_with(b"refused line\n") {
            assert_eq!(printed, report, "{}", path.display());
        } else {
            against_report(&text, &report, &printed);
            accepted += 1;
        }
        let output = called(&["--why"], &text);
        assert!(output.status.success());
        assert_eq!(output.stdout, printed, "{}", path.display());
    }
    assert!(accepted >= 107, "only {accepted}");
}

#[test]
fn wrong_arguments_end_with_status_2() {
    for arguments in [&["--why", "--why"][..], &["--outcome", "--why"], &["why"]] {
        let output = called(arguments, b"");
        assert_eq!(output.status.code(), Some(2));
        assert!(output.stdout.is_empty() && !output.stderr.is_empty());
    }
}
